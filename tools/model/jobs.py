"""Jobs, what they depend on, and which of them block.

A set of jobs is a number whose bit j is set where job j is in it.
"""
import limits

NONE = 0


class LimitPassed(Exception):
    def __init__(self, what):
        self.what = what


def jobs_in(jobs):
    """The jobs of a set, the least first."""
    while jobs:
        least = jobs & -jobs
        yield least.bit_length() - 1
        jobs ^= least


def greatest(jobs):
    return jobs.bit_length() - 1


class Jobs:
    """Of each job: its dependencies, their ancestors with itself, what was completed before it, and its pieces."""

    def __init__(self):
        self.dependencies = [NONE]
        self.ancestors = [NONE]
        self.completed_before = [NONE]
        self.pieces = [0]
        self.completed = NONE

    def count(self):
        return len(self.ancestors) - 1

    def add(self, dependencies, pieces):
        job = len(self.ancestors)
        if job > limits.JOBS:
            raise LimitPassed("jobs")
        self.dependencies.append(dependencies)
        self.ancestors.append(self.closure(dependencies) | 1 << job)
        self.completed_before.append(self.completed)
        self.pieces.append(pieces)
        return job

    def closure(self, jobs):
        closed = NONE
        for job in jobs_in(jobs):
            closed |= self.ancestors[job]
        return closed

    def complete(self, jobs):
        self.completed |= self.closure(jobs)

    def unfinished(self):
        return (1 << len(self.ancestors)) - 2 & ~self.completed

    def blockers(self, conflicting, dependencies):
        return conflicting & ~self.completed & ~self.closure(dependencies)

    def automatic(self, conflicting, dependencies):
        """The blockers that aren't ancestors of another blocker. Ancestors are earlier, so the greatest one is none."""
        waiting, kept = self.blockers(conflicting, dependencies), NONE
        while waiting:
            job = greatest(waiting)
            kept |= 1 << job
            waiting &= ~self.ancestors[job]
        return kept
