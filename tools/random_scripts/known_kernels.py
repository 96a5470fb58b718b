"""Kernels that do something useful, so that what one job writes is what the next one reads."""
import re

from random_kernels import RandomParam

TEXTS = (
    "parallel {}(x: ro array, y: wo array) { y[index] = x[index] * 3; }",
    "parallel {}(x: ro array, y: rw array) { y[index] = y[index] + x[index]; }",
    "parallel {}(y: rw array by 2, c: int) { y[index * 2] = y[index * 2 + 1] + c; y[index * 2 + 1] = index; }",
    "parallel {}(b: rw array) { b[index + 1] = b[index] + 1; }",
    "parallel {}(y: wo array, l: ro list, r: ro ref) { if index < len(l) { y[index] = l[index] + r; } }",
    "parallel {}(y: wo array, m: ro map) { if has(m, index) { y[index] = m[index]; } else { y[index] = -1; } }",
    "parallel {}(s: wo stream, x: ro array) { begin s[index] { for k in 0..x[index] % 4 { write(s, k + index); } } }",
    "parallel {}(s: wo stream, c: int) { begin s[index * c % 4] { write(s, index); } }",
    "parallel {}(s: wo stream) { begin s[index] { for k in 0..index % 4 { write(s, index * 10 + k); } } }",
    "parallel {}(s: ro stream, y: wo array) { for k in 0..count(s, index) { y[index] = at(s, index, k); } }",
    "job {}(y: ro array, t: wo ref) { var s = 0; for k in 0..len(y) { s = s + y[k]; } t = s; }",
    "job {}(x: ro array, l: rw list) { for k in 0..len(x) { if x[k] % 2 != 0 { add(l, x[k]); } } }",
    "job {}(l: rw list) { var k = len(l) - 1; while k >= 0 { if l[k] < 0 { remove(l, k); } k = k - 1; } }",
    "job {}(l: rw list, c: int) { clear(l); for k in 0..c { add(l, k * k); } }",
    "job {}(l: ro list, m: rw map) { var n = 0; for k in 0..len(l) { n = try_add(m, l[k], k); } m[n] = len(m); }",
    "job {}(m: rw map, t: wo ref) { var r = 0; r = try_add(m, 1, 9); t = r; r = remove(m, 1); add(m, 3, r); }",
    "job {}(m: rw map, t: rw ref) { var r = 0; r = try_add(m, t, 9); t = t + r; r = remove(m, 3); add(m, 3, r); }",
    "job {}(s: ro stream, l: rw list) { for i in 0..len(s) { for k in 0..count(s, i) { add(l, at(s, i, k)); } } }",
    "job {}(s: wo stream, c: int) { for i in 0..len(s) { begin s[i] { write(s, c); } } begin s[c] { write(s, 1); } }",
    "job {}(a: rw array, b: rw array) { a[0] = b[0] + 1; b[0] = a[0] * 2; }",
    "job {}(r: rw ref) { r = r + 1; }",
    "job {}(r: ro ref, a: wo array) { a[r] = 1 / r; }",
    "job {}(a: rw array) { a[0] = 9223372036854775800; for k in 0..9 { a[0] = a[0] + k; } }",
)
PARAM = re.compile(r"(\w+): (?:(ro|wo|rw) )?(\w+)")


class KnownKernel:
    def __init__(self, random, name):
        self.name = name
        self.made = random.choice(TEXTS).replace("{}", name)
        head, _, self.body = self.made.partition("{")
        self.parallel = head.startswith("parallel")
        self.params = [RandomParam(found[1], found[3], found[2] or "ro", None) for found in PARAM.finditer(head)]

    def text(self):
        return self.made
