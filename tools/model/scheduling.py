"""What a schedule does: its causes of refusal, its job, and the run of its kernel for each index."""
import limits
from contents import Part, Reference, Refused
from jobs import NONE
from kernel_run import OwnPart, Program, traps_of
from tokens import value_of


def cut(length, batch):
    """The number of batches of a parallel job."""
    step = max(batch, -(-length // limits.PIECES))
    return max(1, -(-length // step))


class Scheduling:
    """The part of a frame that schedules jobs."""

    def act_schedule(self, statement):
        kernel = self.kernels[statement.kernel.text]
        uses = self.uses_of(statement, kernel)
        dependencies = self.joined(statement.after)
        if statement.auto:
            dependencies |= self.automatic(uses, dependencies)
        else:
            self.check_pending(uses, dependencies)
        job = self.jobs.add(dependencies, self.pieces_of(statement, kernel))
        self.note(job, uses)
        self.handles[statement.made.text] = 1 << job
        self.traps.extend((job, index, trap) for index, trap in self.run_job(statement, kernel))
        self.break_views(statement, kernel)

    def automatic(self, uses, dependencies):
        conflicting = NONE
        for _, container, writes in uses:
            conflicting |= container.conflicting(writes)
        return self.jobs.automatic(conflicting, dependencies)

    def note(self, job, uses):
        for _, container, writes in uses:
            container.users |= 1 << job
            if writes:
                container.writers |= 1 << job

    def uses_of(self, statement, kernel):
        """The uses of a schedule, where no cause before pending jobs refuses it."""
        given = [pair for pair in zip(kernel.params, statement.args) if pair[0].kind != "int"]
        names = [arg for _, arg in given] + ([statement.defer] if statement.defer else [])
        for check in (self.value, self.fresh):
            for name in names:
                check(name)
        for param, arg in given:
            if kernel.parallel and param.kind in ("list", "ref", "map") and param.access != "ro":
                raise Refused(f"not parallel {arg.text.decode()}")
        for name in names:
            if self.value(name).container.life == "temp":
                raise Refused(f"temp {name.text.decode()}")
        uses = [(arg, self.value(arg).container, param.access != "ro") for param, arg in given]
        self.check_alias(uses, statement, kernel)
        return uses + ([(statement.defer, self.value(statement.defer).container, False)] if statement.defer else [])

    def check_alias(self, uses, statement, kernel):
        for place, (name, container, writes) in enumerate(uses):
            if any(container is other and (writes or others) for _, other, others in uses[:place]):
                raise Refused(f"alias {name.text.decode()}")
        if statement.defer:
            container = self.value(statement.defer).container
            params = [param for param in kernel.params if param.kind != "int"]
            for param, (name, other, writes) in zip(params, uses):
                is_length = param.kind == "array" and name.text == statement.defer.text
                if other is container and writes and not is_length:
                    raise Refused(f"alias {statement.defer.text.decode()}")

    def pieces_of(self, statement, kernel):
        if not kernel.parallel or statement.waive:
            return 1
        if statement.defer:
            return cut(self.value(statement.defer).container.contents.capacity, value_of(statement.batch))
        return cut(value_of(statement.length), value_of(statement.batch))

    def run_job(self, statement, kernel):
        if kernel.name.text not in self.programs:
            self.programs[kernel.name.text] = Program(kernel)
        waived = {name.text for name in statement.waive}
        args = [self.argument(param, arg, kernel, waived) for param, arg in zip(kernel.params, statement.args)]
        indexes = [None]
        if statement.defer:
            indexes = range(self.value(statement.defer).container.contents.length)
        elif kernel.parallel:
            indexes = range(value_of(statement.length))
        return traps_of(self.programs[kernel.name.text], args, indexes, statement.defer is not None)

    def argument(self, param, arg, kernel, waived):
        if param.kind == "int":
            return Reference(arg.value)
        elements = self.value(arg).elements()
        if param.kind != "array":
            return elements
        part = elements if isinstance(elements, Part) else elements.as_array()
        if kernel.parallel and param.access != "ro" and param.name.text not in waived:
            return OwnPart(part, value_of(param.width) if param.width else 1)
        return part

    def break_views(self, statement, kernel):
        for param, arg in zip(kernel.params, statement.args):
            if param.kind == "list" and param.access != "ro":
                self.value(arg).container.views_broken += 1
