"""Runs of an encoder: mixes of forced and droppable messages, sizes, and times that go back."""
import itertools
import sys

from .common import BAD_SIZES, FULL, GOOD_SIZES, HALF, MOST_OUTPUT, NEAR, ROUND, TIMES, Driver, chosen, hexed, often, random_bytes

# All five chunk streams are among them, each with more than one type but 4 and 5.
KINDS = [1, 2, 3, 4, 5, 6, 18, 19, 9, 8, 0, 7, 10, 15, 17, 20, 22, 255]
STREAMS = [0, 1, 2, 0x01020304, 0xFFFFFFFF]
FLAGS = [(0, 0), (0, 1), (1, 0), (1, 1)]
STEPS = [0, 1, 20, 40, FULL - 1, FULL, FULL + 1, HALF, -1, -10, -FULL]


def make(r, writer, calls):
    every_pair_of_times(r, writer, calls // 32)
    every_size_and_time(r, writer, calls // 64)
    scout = Scout(writer.driver_path)
    while writer.calls < calls:
        run(r, writer, scout)
        writer.end_of_run()
    scout.driver.end()


def every_pair_of_times(r, writer, most):
    """Two messages, each with a time near an edge, forced and droppable or not, and one that shows what is remembered."""
    for first, second, flags, others in chosen(r, list(itertools.product(NEAR, NEAR, FLAGS, FLAGS)), most):
        length = r.choice([1, 127, 128, 129, 257])
        writer.call("enc new")
        for time, (forced, droppable) in ((first, flags), (second, others), ((2 * second - first) % ROUND, (0, 0))):
            writer.call("enc msg 9 1 %d %d %d %d %s" % (time, forced, droppable, MOST_OUTPUT, hexed(random_bytes(r, length))))
        writer.end_of_run()


def every_size_and_time(r, writer, most):
    """A size change and a message, sizes and times near the edges; the bad sizes leave the size as it was."""
    for size, time, (forced, droppable) in chosen(r, list(itertools.product(NEAR, NEAR, FLAGS)), most):
        payload = hexed(random_bytes(r, r.choice([1, 2, 3, 128, 129, 300])))
        writer.call("enc new")
        writer.call("enc size %d %d 64" % (size, time))
        writer.call("enc msg 9 1 %d %d %d %d %s" % (time, forced, droppable, MOST_OUTPUT, payload))
        writer.call("enc size %d %d %d" % (r.choice(GOOD_SIZES), r.choice(NEAR), MOST_OUTPUT))
        writer.end_of_run()


def run(r, writer, scout):
    talker = Talker(r, longest(writer))
    writer.call("enc new")
    scout.start()
    for _ in range(r.choice([2, 3, 5, 10, 30])):
        if often(r, 5):
            writer.call("enc size %d %d %d" % (r.choice(BAD_SIZES), r.choice(TIMES), r.choice([0, 16, 100])))
        elif often(r, 4):
            empty = talker.message(length=0)
            writer.call(r.choice([with_output(empty, r.choice([0, 1, 100])), asked_length(empty)]))
        elif often(r, 4):
            writer.call("enc size?")
        else:
            aimed_call(r, writer, scout, talker.size_change() if often(r, 10) else talker.message())


def longest(writer):
    """A long run also has payloads that fill a line."""
    return 131000 if writer.is_long else 1000


def aimed_call(r, writer, scout, call):
    """With output that is plenty, exactly enough, or short, most often by one byte."""
    need = scout.need(call)
    if call[0].startswith("enc msg") and often(r, 15):
        said = writer.call(asked_length(call))
        if need is not None and said != ["length", str(need)]:
            sys.exit("the driver says %s of a message that takes %d bytes: %s" % (said, need, call[0]))
    if need is None:
        writer.call(with_output(call, MOST_OUTPUT))
        return
    if often(r, 15):
        writer.call(with_output(call, r.choice([need - 1, need - 1, r.randrange(need)])))
        if often(r, 30):
            scout.forget_last()
            return
    writer.call(with_output(call, r.choice([need, need, min(need + 1, MOST_OUTPUT), MOST_OUTPUT])))


def with_output(call, out):
    """A call is held as what comes before OUT and what comes after it."""
    before, after = call
    return "%s %d%s" % (before, out, after)


def asked_length(message):
    """The call that asks what a message would take."""
    before, after = message
    return before.replace("enc msg", "enc length") + after


class Talker:
    """Chooses messages as a sender might: a few types, streams, lengths and steps, often repeated."""

    def __init__(self, r, longest):
        self.r, self.longest = r, longest
        self.kinds = r.sample(KINDS + [r.randrange(256)], r.randint(1, 4))
        self.streams = r.sample(STREAMS + [r.randrange(ROUND)], r.randint(1, 2))
        self.time = r.choice(TIMES + [r.randrange(ROUND)])
        # After a type 0 the step that gives type 3 is the time itself.
        self.step = r.choice([self.time, 0, 20, 40])
        self.length, self.size = 1, 128
        self.forced, self.droppable = r.choice([0, 0, 10, 50]), r.choice([0, 0, 20, 50])

    def next_time(self):
        """By the same step as before, else by one of another kind; going back is among them."""
        now, r = self.time, self.r
        if often(r, 45):
            self.step = r.choice(STEPS + [now, r.randrange(ROUND)])
        self.time = r.choice(TIMES) if often(r, 4) else (now + self.step) % ROUND
        return now

    def next_length(self):
        """As before, else around a multiple of the chunk size."""
        r = self.r
        if often(r, 50):
            return self.length
        around = r.choice([1, 1, 2, 3]) * self.size + r.choice([-1, 0, 1])
        limit = self.longest if often(r, 1) else 2500 if often(r, 20) else 400
        self.length = max(1, min(limit, self.longest, r.choice([around, around, r.randint(1, 12)])))
        return self.length

    def message(self, length=None):
        r = self.r
        length = self.next_length() if length is None else length
        head = (r.choice(self.kinds), r.choice(self.streams), self.next_time(), often(r, self.forced), often(r, self.droppable))
        return "enc msg %d %d %d %d %d" % head, " " + hexed(random_bytes(r, length))

    def size_change(self):
        self.size = self.r.choice(GOOD_SIZES + [self.r.randint(1, 300)])
        return "enc size %d %d" % (self.size, self.next_time()), ""


class Scout:
    """A second encoder that goes ahead and tells what a call writes."""

    def __init__(self, driver_path):
        self.driver = Driver(driver_path)
        self.taken = []

    def start(self):
        self.taken = []
        self.driver.ask("enc new")

    def packet(self, call):
        """What the call writes; None where that is more than any output."""
        answer = self.driver.ask(with_output(call, MOST_OUTPUT))
        if answer[0] != "wrote":
            return None
        self.taken.append(call)
        return bytes.fromhex(answer[2])

    def need(self, call):
        packet = self.packet(call)
        return None if packet is None else len(packet)

    def forget_last(self):
        """The call was not made after all: go back to before it."""
        calls = self.taken[:-1]
        self.start()
        for call in calls:
            self.packet(call)
