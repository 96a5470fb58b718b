"""How many rounds a frame's jobs take: the report of `--depth`."""
from jobs import jobs_in


def depth_text(jobs, workers):
    levels = levels_of(jobs)
    rounds = max(levels, default=0)
    pieces = [0] * (rounds + 1)
    for level, count in zip(levels, jobs.pieces):
        pieces[level] += count
    packed = sum(rounded_up(count, workers) for count in pieces)
    least = max(rounded_up(sum(pieces), workers), rounds)
    chain = chain_of(jobs, levels, rounds)
    return [
        f"rounds {rounds}",
        f"widest {max(pieces)}",
        f"workers {workers}: {packed} rounds, at least {least}",
        "".join(["chain", *(f" {job}" for job in chain)]),
    ]


def rounded_up(number, divisor):
    return -(-number // divisor)


def leading_to(jobs, job):
    """What a job waits for: its dependencies, and what the script had completed when it scheduled it."""
    return jobs.dependencies[job] | jobs.completed_before[job]


def levels_of(jobs):
    """For each job the number of jobs of the longest chain that ends with it. No job has the number 0."""
    levels = [0]
    for job in range(1, jobs.count() + 1):
        levels.append(1 + max((levels[earlier] for earlier in jobs_in(leading_to(jobs, job))), default=0))
    return levels


def chain_of(jobs, levels, rounds):
    """A longest chain. Its last is the least of the highest level; before each stands the least that leads to it."""
    chain, candidates = [], range(1, jobs.count() + 1)
    for level in range(rounds, 0, -1):
        chain.append(next(job for job in candidates if levels[job] == level))
        candidates = list(jobs_in(leading_to(jobs, chain[-1])))
    return chain[::-1]
