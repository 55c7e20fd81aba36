"""Calls of the clock: every pair of edges, then pairs that are close or half a round apart."""
from .common import HALF, ROUND, TIMES


def make(r, writer, calls):
    edges = TIMES + [r.randrange(ROUND) for _ in range(4)]
    for a in edges:
        for b in edges:
            for op in ("add", "sub", "set", "cmp", "distance"):
                writer.call("time %s %d %d" % (op, a, b))
        writer.end_of_run()
    while writer.calls < calls:
        a = r.randrange(ROUND)
        near, opposite = a + r.randint(-3, 3), a + HALF + r.randint(-3, 3)
        b = r.choice([r.randrange(ROUND), near % ROUND, opposite % ROUND])
        writer.call("time %s %d %d" % (r.choice(["add", "sub", "set", "cmp", "cmp", "distance", "distance"]), a, b))
        writer.end_of_run()
