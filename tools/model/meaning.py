"""The meaning of a script: its statements act one after another, and each job runs whole where it is scheduled."""
import limits
from contents import Array, List, Map, Reference, Refused, Stream
from jobs import NONE, Jobs, LimitPassed, greatest
from scheduling import Scheduling
from tokens import value_of

FRAMES_OF_TEMPJOB = 4
HOLDS = {
    "==": lambda value, bound: value == bound, "!=": lambda value, bound: value != bound,
    "<": lambda value, bound: value < bound, "<=": lambda value, bound: value <= bound,
    ">": lambda value, bound: value > bound, ">=": lambda value, bound: value >= bound,
}


class Container:
    def __init__(self, contents, life, frame, statement):
        self.contents = contents
        self.life = life
        self.frame = frame
        self.made = statement.made.text
        self.line = statement.token.line
        self.is_disposed = False
        self.views_broken = 0
        self.users = NONE
        self.writers = NONE

    def conflicting(self, writes):
        return self.users if writes else self.writers


class Value:
    """What a container name stands for: a container, with the part that a slice has, or what had broken its views."""

    def __init__(self, container, part=None, views_broken=None):
        self.container = container
        self.part = part
        self.views_broken = views_broken

    def is_stale(self):
        return self.views_broken is not None and self.views_broken != self.container.views_broken

    def elements(self):
        """What it stands for as an array, or the contents of what is none."""
        if self.part:
            return self.part
        contents = self.container.contents
        return contents.as_array() if self.views_broken is not None else contents


class Frame(Scheduling):
    """A run of a script: its names, containers, jobs and lines."""

    def __init__(self, kernels, statements, columns):
        self.kernels = {kernel.name.text: kernel for kernel in kernels}
        self.programs = {}
        self.statements = statements
        self.columns = columns
        self.values = {}
        self.handles = {}
        self.jobs = Jobs()
        self.frame = 0
        self.containers = []
        self.live_words = 0
        self.held = []
        self.created_words = 0
        self.lines = []
        self.refused = 0
        self.traps = []

    def run(self):
        if any(statement.form == "when" for statement in self.statements):
            self.check_written_out()
        passed_by = 0
        for statement in self.statements:
            if passed_by:
                passed_by -= 1
            else:
                passed_by = self.act(statement) or 0
        if self.traps:
            job, index, trap = min(self.traps)
            self.say(f"trap job {job} index {index}: {trap}")
            self.say(f"traps {len(self.traps)}")

    def act(self, statement):
        """A statement's effect, or its line where it is refused. Gives how many statements it passes by."""
        try:
            return getattr(self, "act_" + statement.form)(statement)
        except Refused as refused:
            self.say(f"refused {statement.token.line}: {refused.text}")
            self.refused += 1
            self.lose_name(statement)
            return statement.passes if statement.form == "when" else 0

    def lose_name(self, statement):
        if statement.form in ("schedule", "dispose", "dispose_auto"):
            if statement.made:
                self.handles[statement.made.text] = NONE
        elif hasattr(statement, "made"):
            self.values[statement.made.text] = None

    def say(self, line):
        self.lines.append(line)

    def check_written_out(self):
        """Where a `when` may pass statements by, jobs and words are counted on the text, whether they act or not."""
        jobs = words = 0
        for statement in self.statements:
            jobs += statement.form == "schedule"
            if jobs > limits.JOBS:
                raise LimitPassed("jobs")
            if statement.form == "setcapacity":
                words += value_of(statement.capacity) + 1
            elif statement.form in MAKERS:
                words += MAKERS[statement.form](statement, self.columns).words
            if words > limits.CREATED_WORDS:
                raise LimitPassed("words")

    # CHECKS, IN THEIR ORDER

    def value(self, name):
        value = self.values.get(name.text)
        if value is None or value.container.is_disposed:
            raise Refused(f"disposed {name.text.decode()}")
        return value

    def fresh(self, name):
        value = self.value(name)
        if value.is_stale():
            raise Refused(f"stale view {name.text.decode()}")
        return value

    def check_pending(self, uses, dependencies):
        """Each use is a name, its container and whether it writes."""
        conflicts = [(name, container.conflicting(writes)) for name, container, writes in uses]
        blockers = NONE
        for _, conflicting in conflicts:
            blockers |= self.jobs.blockers(conflicting, dependencies)
        if blockers:
            job = greatest(blockers)
            name = next(name for name, conflicting in conflicts if conflicting >> job & 1)
            raise Refused(f"pending job {job} on {name.text.decode()}")

    def accessed(self, name, writes):
        """What a statement of the main thread may use by this name."""
        value = self.fresh(name)
        self.check_pending([(name, value.container, writes)], NONE)
        return value

    def resized(self, name):
        """What a statement may use that breaks the views of a list, also where it is refused from here on."""
        value = self.accessed(name, True)
        value.container.views_broken += 1
        return value.container.contents

    def check_store(self, words):
        if self.live_words + words > limits.LIVE_WORDS:
            raise Refused("store full")

    def take_words(self, words):
        self.created_words += words
        if self.created_words > limits.CREATED_WORDS:
            raise LimitPassed("words")
        self.live_words += words

    # MAKING

    def make(self, statement):
        contents = MAKERS[statement.form](statement, self.columns)
        self.check_store(contents.words)
        self.take_words(contents.words)
        container = Container(contents, statement.life, self.frame, statement)
        self.containers.append(container)
        self.values[statement.made.text] = Value(container)

    act_array = act_column = act_list = act_map = act_stream = act_reference = make

    def act_slice(self, statement):
        value = self.value(statement.of)
        part = value.elements().slice(value_of(statement.start), value_of(statement.length))
        self.values[statement.made.text] = Value(value.container, part)

    def act_view(self, statement):
        container = self.value(statement.of).container
        self.values[statement.made.text] = Value(container, views_broken=container.views_broken)

    def act_copy(self, statement):
        self.values[statement.made.text] = self.values.get(statement.of.text)

    # CHANGING AND PRINTING

    def act_set(self, statement):
        elements = self.accessed(statement.name, True).elements()
        if statement.at:
            elements.set(statement.at.value, statement.value.value)
        else:
            elements.value = statement.value.value

    def act_add(self, statement):
        contents = self.resized(statement.name)
        if statement.second:
            contents.add(statement.first.value, statement.second.value)
        else:
            contents.add(statement.first.value)

    def act_put(self, statement):
        self.accessed(statement.name, True).elements().set(statement.key.value, statement.value.value)

    def act_remove(self, statement):
        self.resized(statement.name).remove(statement.at.value)

    def act_clear(self, statement):
        self.resized(statement.name).clear()

    def act_setcapacity(self, statement):
        capacity = value_of(statement.capacity)
        self.accessed(statement.name, True)
        self.check_store(capacity + 1)
        contents = self.resized(statement.name)
        if capacity < contents.capacity:
            raise Refused("range")
        self.live_words -= contents.words
        self.take_words(capacity + 1)
        contents.capacity = capacity

    def act_print(self, statement):
        text = self.accessed(statement.name, False).elements().text()
        self.say(f"{statement.name.text.decode()} = {text}")

    def act_flush(self, statement):
        pass

    # ENDING

    def act_dispose(self, statement):
        container = self.value(statement.name).container
        dependencies = self.joined(statement.after)
        self.check_pending([(statement.name, container, True)], dependencies)
        self.end(container)
        if statement.made:
            self.handles[statement.made.text] = dependencies

    def act_dispose_auto(self, statement):
        container = self.value(statement.name).container
        self.handles[statement.made.text] = self.jobs.automatic(container.users, NONE)
        self.end(container)

    def end(self, container):
        container.is_disposed = True
        self.held.append(container)
        self.settle()

    def settle(self):
        """The words of what was disposed come back once every job that uses it is completed."""
        held = []
        for container in self.held:
            if container.users & ~self.jobs.completed:
                held.append(container)
            else:
                self.live_words -= container.contents.words
        self.held = held

    def act_frame(self, statement):
        self.frame += 1
        living = [container for container in self.containers if not container.is_disposed]
        for container in living:
            if container.life == "temp":
                self.end(container)
        for container in living:
            if container.life == "tempjob" and container.frame + FRAMES_OF_TEMPJOB == self.frame:
                made = container.made.decode()
                self.say(f"overdue {statement.token.line}: {made} made on line {container.line}")
        self.containers = [container for container in living if not container.is_disposed]

    # HANDLES AND TESTS

    def joined(self, names):
        joined = NONE
        for name in names:
            joined |= self.handles.get(name.text, NONE)
        return joined

    def act_combine(self, statement):
        self.handles[statement.made.text] = self.joined(statement.of)

    def act_complete(self, statement):
        self.complete(self.joined([statement.name]))

    def act_complete_auto(self, statement):
        container = self.fresh(statement.name).container
        self.complete(self.jobs.automatic(container.users, NONE))

    def complete(self, jobs):
        self.jobs.complete(jobs)
        self.settle()

    def act_when(self, statement):
        value = self.value(statement.name)
        unfinished = self.jobs.unfinished()
        if unfinished:
            raise Refused(f"busy job {greatest(unfinished)}")
        holds = HOLDS[statement.sign](value.elements().value, statement.bound.value)
        return 0 if holds else statement.passes


# What a making statement makes, given the table's columns by name.
MAKERS = {
    "array": lambda made, _: Array(values_of(made)),
    "column": lambda made, columns: Array(list(columns[made.text.text[1:-1]])),
    "list": lambda made, _: List(value_of(made.capacity)),
    "map": lambda made, _: Map(value_of(made.capacity)),
    "stream": lambda made, _: Stream(value_of(made.count), value_of(made.room)),
    "reference": lambda made, _: Reference(made.value.value if made.value else 0),
}


def values_of(made):
    if made.values is None:
        return [0] * value_of(made.length)
    return [value.value for value in made.values]
