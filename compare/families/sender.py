"""A sender that writes chunks by hand, in every form that the wire allows and an encoder avoids."""
from .common import FULL, GOOD_SIZES, HALF, ROUND, often, random_bytes


class Row:
    """What a sender knows of a chunk stream."""

    def __init__(self, time, length, kind, stream):
        self.time, self.length, self.kind, self.stream = time, length, kind, stream
        self.field = 0


class Sender:
    def __init__(self, r, most_ids):
        self.r, self.rows, self.size = r, {}, 128
        self.longest = r.choice([1, 2, 40, 300, 1000])
        self.ids = [self.any_id() for _ in range(r.randint(1, most_ids))]
        self.extended = r.choice([0, 5, 40])

    # Numbers

    def any_id(self):
        r = self.r
        edge = r.choice([2, 63, 64, 319, 320, 65599])
        return r.choice([r.randint(2, 6), r.randint(2, 63), r.randint(64, 319), r.randint(320, 65599), edge])

    def any_time(self):
        r = self.r
        if often(r, self.extended):
            return r.choice([FULL, FULL + 1, HALF, ROUND - 1, r.randrange(FULL, ROUND)])
        return r.choice([0, 1, 20, 40, FULL - 1, r.randrange(FULL)])

    def any_length(self):
        r = self.r
        around = r.choice([1, 2, 3]) * self.size + r.choice([-1, 0, 1])
        return min(self.longest, r.choice([0, 1, 2, around, around, r.randint(0, 20)]))

    # Headers

    def forms(self, chunk_type, id):
        """The basic header in every form that can say the id."""
        forms = [bytes([id])] if id < 64 else [b"\1" + (id - 64).to_bytes(2, "little")]
        if 64 <= id < 320:
            forms.append(bytes([0, id - 64]))
        return [bytes([chunk_type << 6 | form[0]]) + form[1:] for form in forms]

    def basic(self, chunk_type, id):
        return self.r.choice(self.forms(chunk_type, id))

    def full_header(self, id, row):
        """Type 0. The long form of the time may also say a small one."""
        long_form = row.time >= FULL or often(self.r, self.extended // 4)
        row.field = FULL if long_form else row.time
        return (self.basic(0, id) + row.field.to_bytes(3, "big") + row.length.to_bytes(3, "big") + bytes([row.kind])
                + row.stream.to_bytes(4, "little") + (row.time.to_bytes(4, "big") if long_form else b""))

    def first_header(self, id, chunk_type):
        """Begins a message; the row becomes what it is once that chunk is finished."""
        r = self.r
        if chunk_type == 0:
            self.rows[id] = Row(self.any_time(), self.any_length(), r.randrange(256), r.choice([0, 1, r.randrange(ROUND)]))
            return self.full_header(id, self.rows[id])
        row, fields = self.rows[id], b""
        if chunk_type == 3:
            delta = r.choice([FULL, ROUND - 1, r.randrange(FULL, ROUND)]) if row.field == FULL else row.field
        else:
            delta = self.any_time()
            row.field = min(delta, FULL)
            fields = row.field.to_bytes(3, "big")
        if chunk_type == 1:
            row.length, row.kind = self.any_length(), r.choice([row.kind, r.randrange(256)])
            fields += row.length.to_bytes(3, "big") + bytes([row.kind])
        row.time = (row.time + delta) % ROUND
        extended = delta.to_bytes(4, "big") if row.field == FULL else b""
        return self.basic(chunk_type, id) + fields + extended

    def later_header(self, id):
        """Type 3, whose extended time may say anything, or a type 0 that repeats the header."""
        if often(self.r, 15):
            return self.full_header(id, self.rows[id])
        return self.basic(3, id) + (random_bytes(self.r, 4) if self.rows[id].field == FULL else b"")

    # Messages

    def message(self):
        """All chunks of a message on any of the ids."""
        id = self.r.choice(self.ids)
        data = self.first_header(id, self.r.randrange(4) if id in self.rows else 0)
        left = self.rows[id].length
        while left > self.size:
            data += random_bytes(self.r, self.size) + self.later_header(id)
            left -= self.size
        return data + random_bytes(self.r, left)

    def messages(self, count):
        """Messages, and after some of them the size that is to be told."""
        parts = []
        for _ in range(count):
            data, size = self.message(), None
            if often(self.r, 10):
                size = self.size = self.r.choice(GOOD_SIZES + [self.r.randint(1, 50)] * 4)
            parts.append((data, size))
        return parts
