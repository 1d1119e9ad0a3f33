"""Puts each question to the program many times in one run, and prints the time that one takes.

A run without questions is subtracted, and the fastest of three runs counts. The answers are compared with
what docs/types.md asks for. It fails if an answer is wrong, or if a question takes over a millisecond.
"""

import subprocess
import sys
import time

TIMES = 2000
RUNS = 3
LIMIT = 1000.0  # microseconds

# Types as bytes.
NUM = b"\x00"


def var(k):
    return bytes([5 + k])


def fun(a, b):
    return b"\x01" + a + b


def rec(places):
    return b"\x02" + b"".join(places)


def row(types):
    """fun(T1, fun(T2, .. Tn)): equal to another row just if they are equal type by type."""
    return b"".join(b"\x01" + t for t in types[:-1]) + types[-1]


def row_of_places(places):
    """The same for places, whose number is a multiple of four."""
    return row([rec(places[i : i + 4]) for i in range(0, len(places), 4)])


def form(result, **entries):
    listed = [name.encode().ljust(4, b"\0") + entries[name] for name in sorted(entries)]
    return bytes([len(listed)]) + b"".join(listed) + result


def question(kind, argument, *forms):
    """Forms as the children's strings, which count nothing."""
    assert all(len(f) <= 240 for f in forms)
    return " ".join(["types", kind, argument] + ["00000000" + f.hex() for f in forms])


# Chains. The rows of `links` and of `arrows` are equal just if v(i) is fun(v(i+1), v(i+1)) for each i from
# 0 to n - 1: written out, v(0) has 2^n parts.
def links(n, top=0, rest=1):
    """v0 .. v(n-1), v1 .. vn, where v0 is the variable `top` and the others are those from `rest` on."""
    v = [var(top)] + [var(rest + i) for i in range(n)]
    return v[:n] + v[1:]


def arrows(n):
    u = [var(i) for i in range(n)]
    return [fun(x, x) for x in u] + u


def closed(n):
    """`links` where vn is v0, so that v0 is a part of itself."""
    return links(n)[:-1] + [var(0)]


def merged(n):
    """Two chains with the same top: one by the types of a name, one by the types of the branches."""
    condition = form(NUM, a=row(arrows(n)))
    first = form(row(links(n, 0, n + 1)), a=row(links(n)))
    return [condition, first, form(row(arrows(n)))]


def tied():
    """A name whose places are tied to each other one by one, the last first."""
    up = [var(i) for i in range(76)]
    twice = up[:75] + up[75:0:-1]
    back = up[:75] + up[74::-1]
    last = up + up[75:] * 74
    rows = [row_of_places(r + r[-1:] * 2) for r in (last, back, twice)]
    return [form(NUM, a=r) for r in rows]


def deep(k):
    """fun(fun(.. fun(v, num) .., num), num), with the next one for v: three times k levels."""

    def nest(bottom):
        return b"\x01" * k + bottom + NUM * k

    return [
        form(NUM, a=nest(var(0)), b=var(0)),
        form(NUM, b=nest(var(0)), c=var(0)),
        form(NUM, c=nest(NUM)),
    ]


X = form(var(0), x=var(0))
Y = form(var(0), y=var(0))
SELECTED = form(var(0), s=rec([b"\x04" + var(0), var(1), var(2), var(3)]))

OVERLONG = "02000100"
CLASH = "01010000"

# Name, question, and what the answer begins with.
CASES = [
    ("a hole", question("hole", "-"), "000000010005"),
    ("var x", question("var", "x"), "0000000001780000000505"),
    ("lam x over var x", question("lam", "x", X), "0000000000010505"),
    ("app of var x and var y", question("app", "-", X, Y), "000000000278000000010506790000000506"),
    ("app of var x and var x", question("app", "-", X, X), CLASH),
    ("sel row of var s", question("sel", "row", form(var(0), s=var(0))), "00000000017300000002040506070805"),
    ("lam s over sel row of var s", question("lam", "s", SELECTED), "00000000000102040506070805"),
    ("a chain of 40, written out", question("ifz", "-", form(NUM), form(row(links(40))), form(row(arrows(40)))), OVERLONG),
    ("a chain of 39, which num hides", question("app", "-", form(fun(row(links(39)), NUM)), form(row(arrows(39)))), "000000000000"),
    ("a chain of 40 closed into a cycle", question("ifz", "-", form(NUM), form(row(closed(40))), form(row(arrows(40)))), CLASH),
    ("two chains of 29 merged at the top", question("ifz", "-", *merged(29)), OVERLONG),
    ("a long chain of links", question("ifz", "-", *tied()), "0000000001"),
    ("339 levels", question("ifz", "-", *deep(113)), OVERLONG),
]


def seconds(program, text):
    times = []
    for _ in range(RUNS):
        start = time.perf_counter()
        done = subprocess.run([program], input=text, capture_output=True, check=True)
        times.append(time.perf_counter() - start)
    return min(times), done.stdout.decode()


def main():
    program = sys.argv[1]
    empty, _ = seconds(program, b"")
    failed = 0
    for name, line, begin in CASES:
        spent, out = seconds(program, (line + "\n").encode() * TIMES)
        each = (spent - empty) / TIMES * 1e6
        answers = out.splitlines()
        wrong = len(answers) != TIMES or any(not a.startswith(begin) for a in answers)
        fault = "  WRONG: " + answers[0][:40] if wrong else "  TOO SLOW" if each > LIMIT else ""
        failed += fault != ""
        print(f"{each:8.1f} us  {name}{fault}")
    return 1 if failed else 0


if __name__ == "__main__":
    sys.exit(main())
