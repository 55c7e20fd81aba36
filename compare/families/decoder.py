"""Runs of a decoder: what encoders write, what the wire allows besides, and what is refused."""
from .common import BAD_SIZES, FULL, GOOD_SIZES, HALF, MOST_BUFFER, ROUND, chosen, hexed, often, random_bytes
from .encoder import Scout, Talker, longest
from .sender import Row, Sender


def make(r, writer, calls):
    every_form_of_id(r, writer, calls // 30)
    scout = Scout(writer.driver_path)
    while writer.calls < calls:
        run = r.choice([encoder_output, hand_made, hand_made, damaged, damaged, spoilt, spoilt, spoilt, many_streams])
        run(r, writer, scout)
        writer.end_of_run()
    scout.driver.end()


# The kinds of runs. The bytes of a run come as parts: some bytes, and the chunk size to tell once
# they are used up, or None.

def every_form_of_id(r, writer, most):
    """Every id of one byte and of two, and some of three: every form that says the id, by each of the four types."""
    sender = Sender(r, 1)
    ids = chosen(r, list(range(2, 320)) + [320, 65599] + [r.randint(321, 65598) for _ in range(180)], most)
    for i, id in enumerate(ids):
        if i % 64 == 0:
            writer.call("dec new 65536")
        for chunk_type, fields in enumerate((b"\0\0\5\0\0\1\t\1\0\0\0", b"\0\0\5\0\0\2\b\x55", b"\0\0\7\x55", b"\x55")):
            for form in sender.forms(chunk_type, id):
                writer.call("dec feed 65536 %s" % hexed(form + fields + b"\xaa"))
    writer.end_of_run()


def encoder_output(r, writer, scout):
    parts, room = packets(r, writer, scout)
    Feeder(r, writer, room).feed(parts)


def hand_made(r, writer, _):
    sender = Sender(r, r.choice([1, 3, 10]))
    parts = sender.messages(r.choice([1, 3, 10, 30]))
    Feeder(r, writer, sender.longest).feed(parts)


def damaged(r, writer, scout):
    """A good stream with a few bytes changed, left out or put in."""
    if often(r, 50):
        parts, room = packets(r, writer, scout)
    else:
        sender = Sender(r, 5)
        parts, room = sender.messages(r.choice([1, 3, 10])), sender.longest
    parts = [(damage(r, data) if often(r, 20) else data, size) for data, size in parts]
    Feeder(r, writer, room).feed(parts)


def spoilt(r, writer, _):
    """A good stream and then one chunk that is refused, or that only just is not."""
    sender = Sender(r, r.choice([1, 3, 64]))
    parts = sender.messages(r.choice([1, 3, 10]))
    feeder = Feeder(r, writer, sender.longest)
    if not feeder.feed(parts):
        return
    spoil = r.choice([doubtful_first_chunk, doubtful_later_chunk])
    feeder.feed([(spoil(r, writer, sender, feeder.room) + random_bytes(r, 3), None)])


def many_streams(r, writer, _):
    """62 to 64 streams and then another, some of the time inside a message."""
    feeder, sender = Feeder(r, writer, 2), Sender(r, 1)
    first, count = r.choice([2, 60, 250, 300]), r.choice([62, 63, 64, 64])
    full = lambda id, length: sender.full_header(id, Row(5, length, 9, 1)) + b"\x55"
    if not feeder.feed([(full(first + i, 1), None) for i in range(count)]):
        return
    if often(r, 50):
        writer.call("dec size 1")
        feeder.feed([(full(first, 2), None)])
    another = r.choice([first + count, first + count, first])
    feeder.feed([(full(another, 1) + sender.basic(r.randrange(4), another + 1), None)])


# What they are made of.

def packets(r, writer, scout):
    """What an encoder wrote, any of the droppable packets left out, and the longest payload."""
    talker = Talker(r, longest(writer))
    scout.start()
    parts, room = [], 4
    for _ in range(r.choice([1, 3, 8, 20])):
        change = often(r, 10)
        call = talker.size_change() if change else talker.message()
        packet = scout.packet(call)
        droppable = not change and call[0].endswith(" 1")
        if packet is None or droppable and often(r, 50):
            continue
        parts.append((packet, talker.size if change else None))
        room = max(room, len(call[1]) // 2)
    return parts, room


def damage(r, data):
    at = r.randrange(len(data)) if often(r, 30) else r.randrange(min(len(data), 16))
    flipped = bytes([data[at] ^ 1 << r.randrange(8)])
    return data[:at] + r.choice([b"", flipped, random_bytes(r, 1), data[at:at + 1] * 2]) + data[at + 1:]


def doubtful_first_chunk(r, _, sender, room):
    """No row; an extended time around the smallest; a length around the room."""
    id, unknown = r.choice(list(sender.rows)), r.choice([sender.any_id(), 7, 77, 7777])
    field = r.choice([b"\0\0\5", b"\xff\xff\xff"])
    small = r.choice([0, 5, FULL - 1, FULL]).to_bytes(4, "big")
    length = min(FULL, r.choice([room, room + 1, FULL])).to_bytes(3, "big")
    long_form = sender.basic(0, id) + b"\xff\xff\xff" + b"\0\0\0\t\1\0\0\0" + b"\0\0\0\5"
    return r.choice([
        sender.basic(r.choice([1, 2, 3]), unknown),
        sender.basic(0, id) + field + length + b"\t\1\0\0\0" + small,
        sender.basic(1, id) + field + length + b"\t" + small,
        sender.basic(2, id) + b"\xff\xff\xff" + small,
        long_form + sender.basic(3, id) + small])


def doubtful_later_chunk(r, writer, sender, _):
    """Inside a message: another stream, type 1 or 2, or a type 0 that differs in one place."""
    size = r.choice([1, 2])
    writer.call("dec size %d" % size)
    id, length = r.choice(list(sender.rows)), min(sender.longest, 5)
    row = Row(sender.any_time(), length, 9, 1)
    begun = sender.full_header(id, row) + random_bytes(r, min(size, length))
    if length <= size:
        return begun
    other = r.choice(sender.ids + [7, 77, 7777])
    repeated = sender.full_header(id, row)
    at = len(repeated) - r.randint(1, 11)
    return begun + r.choice([
        sender.basic(r.randrange(4), other),
        sender.basic(r.choice([1, 2]), id),
        repeated,
        sender.full_header(id, nearly(r, row)),
        repeated[:at] + random_bytes(r, 1) + repeated[at + 1:]])


def nearly(r, row):
    """The same header but for one place."""
    place = r.randrange(4)
    return Row((row.time + (place == 0)) % ROUND, row.length + (place == 1), row.kind + (place == 2), row.stream + (place == 3))


class Feeder:
    """A fresh decoder and the bytes it gets: cut anywhere, unread ones offered again.

    Calls that are refused and leave all as it was are thrown in.
    """

    def __init__(self, r, writer, longest):
        self.r, self.writer = r, writer
        self.before()
        self.room = max(1, r.choice([longest, longest, longest + 1, 65536]))
        self.buffer = r.choice([self.room, self.room, self.room + 1, MOST_BUFFER])
        self.inside = False
        writer.call("dec new %d" % self.room)

    def before(self):
        """Now and then a decoder that nobody can use."""
        if often(self.r, 5):
            self.writer.call("dec new %d" % self.r.choice([0, FULL + 1, HALF, ROUND - 1]))
            self.after_closing(100)
        if often(self.r, 2):
            self.writer.call("dec new %d" % self.r.choice([FULL, MOST_BUFFER + 1]))
            self.writer.call("dec feed %d 04" % MOST_BUFFER)

    def feed(self, parts):
        """Answers whether the decoder is still open."""
        data, tells = b"", {}
        for part, size in parts:
            data += part
            if size is not None:
                tells[len(data)] = size
        # Short bytes are often cut at every place, long ones into some fifty pieces at most.
        longest_piece = max(self.r.choice([1, 3, 20, 200, 100000]), len(data) // 25)
        at = 0
        while at < len(data):
            self.harmless_call()
            answer = self.writer.call("dec feed %d %s" % (self.buffer, hexed(data[at:at + self.r.randint(1, longest_piece)])))
            if answer[0] not in ("message", "more"):
                self.after_closing(self.buffer)
                return False
            self.inside = answer[0] == "more"
            at += int(answer[1] if self.inside else answer[6])
            # After damage this may be inside a message, and is refused: no harm.
            if at in tells:
                self.writer.call("dec size %d" % tells.pop(at))
        return True

    def harmless_call(self):
        r = self.r
        if self.inside and often(r, 3):
            self.writer.call("dec size %d" % r.choice(GOOD_SIZES))
        if often(r, 3):
            self.writer.call(r.choice([
                "dec size %d" % r.choice(BAD_SIZES), "dec size?",
                "dec feed %d %s" % (r.randrange(self.room), hexed(random_bytes(r, r.randrange(4)))),
                "dec feed %d -" % (self.room - 1),
                "dec feed %d -" % self.buffer]))

    def after_closing(self, buffer):
        for _ in range(self.r.randrange(5)):
            self.writer.call(self.r.choice([
                "dec feed %d 04" % buffer, "dec feed %d -" % buffer, "dec feed 0 -",
                "dec size 128", "dec size 0", "dec size %d" % HALF, "dec size?"]))
