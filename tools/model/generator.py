"""The script that two numbers make: arrays that are filled, mixed by so many jobs, and folded."""

ARRAYS = 8
KERNELS = """\
parallel start(y: wo array, c: int) { y[index] = (index * 7 + c) % 1000000; }
parallel mix(x: ro array, y: rw array, c: int) { y[index] = (y[index] + x[index] * c) % 1000000; }
job fold(x: ro array, t: rw ref) { var s = t; for k in 0..len(x) { s = (s + x[k]) % 1000000; } t = s; }
"""


def gen_script(number, jobs):
    lines = []
    for i in range(ARRAYS):
        lines += [f"array a{i} 1024", f"schedule w{i} start(a{i}, {i}) 1024 64", f"combine u{i} w{i}"]
    lines += ["reference t", "combine g"]
    draws = drawn(number)
    for _ in range(jobs):
        lines += mixing(*(next(draws) % most for most in (8, 7, 9, 128)))
    for i in range(ARRAYS):
        lines.append(f"schedule g fold(a{i}, t) after w{i} g")
    lines += ["complete g", "print t"]
    return (KERNELS + "".join(line + "\n" for line in lines)).encode()


def drawn(number):
    while True:
        number = (number * 1103515245 + 12345) % 2147483648
        yield number // 65536


def mixing(read, other, factor, batch):
    """A job that reads one array and mixes it into another."""
    mixed = (read + 1 + other) % ARRAYS
    return [
        f"schedule h mix(a{read}, a{mixed}, {factor + 1}) 1024 {batch + 1} after w{read} u{mixed}",
        f"combine u{read} u{read} h",
        f"combine w{mixed} h",
        f"combine u{mixed} h",
    ]
