"""User control bodies: every code and length, every event and output, then random ones."""
from .common import MOST_OUTPUT, ROUND, TIMES, hexed, random_bytes

EVENTS = ["begin", "end", "dry", "buffer", "recorded", "ping", "pong", "empty", "ready"]
KNOWN = [0, 1, 2, 3, 4, 6, 7, 31, 32]


def make(r, writer, calls):
    every_code_and_length(r, writer)
    every_event_and_output(r, writer)
    if writer.is_long:
        every_code_there_is(r, writer)
        calls += writer.calls
    while writer.calls < calls:
        writer.call(r.choice([any_read, any_write])(r))
        writer.end_of_run()


def every_code_and_length(r, writer):
    swapped = [code * 256 for code in KNOWN]
    codes = list(range(41)) + swapped + [255, 256, 65535] + [r.randrange(65536) for _ in range(20)]
    for code in codes:
        for length in range(13):
            writer.call(read(r, code, length))
        writer.end_of_run()


def every_code_there_is(r, writer):
    for code in range(65536):
        writer.call(read(r, code, r.choice([2, 5, 6, 9, 10, 11])))
        writer.end_of_run()


def every_event_and_output(r, writer):
    for event in EVENTS:
        for out in range(13):
            writer.call(write(r, event, out))
        writer.end_of_run()


def any_read(r):
    code = r.choice(KNOWN * 5 + [r.randrange(41), r.randrange(65536), r.choice(KNOWN) * 256])
    return read(r, code, r.choice([5, 6, 7, 9, 10, 11, r.randrange(30)]))


def any_write(r):
    return write(r, r.choice(EVENTS), r.choice([6, 10, r.randrange(13), MOST_OUTPUT]))


def read(r, code, length):
    return "control read " + hexed((code.to_bytes(2, "big") + random_bytes(r, 30))[:length])


def write(r, event, out):
    numbers = [r.choice(TIMES + [r.randrange(ROUND)]) for _ in range(2 if event == "buffer" else 1)]
    return " ".join(["control write", event] + [str(n) for n in numbers] + [str(out)])
