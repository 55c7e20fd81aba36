"""Four real chunk streams: cut at random and, in a long run, byte by byte.

What the original hands out is held to the captures' own listings here; what ours hands out is held
to the original afterwards. The copies are those that the gate's program `captures` reads.
"""
import hashlib
import os
import sys

from .common import HALF, hexed

FOLDER = os.path.join(os.path.dirname(__file__), "../../crates/captures/data")
ROOM = 65536
RANDOM_CUTS = 3


def make(r, writer, _):
    for name in sorted(name[:-5] for name in os.listdir(FOLDER) if name.endswith(".rtmp")):
        capture, listing = read(name)
        for _ in range(RANDOM_CUTS if writer.is_long else 1):
            check(name, walk(writer, capture, lambda: r.randint(1, r.choice([3, 40, 300, 5000]))), listing)
        if writer.is_long:
            check(name, walk(writer, capture, lambda: 1), listing)


def read(name):
    """The bytes, and the lines of the listing without the chunk stream, which no answer tells."""
    with open(os.path.join(FOLDER, name + ".rtmp"), "rb") as file:
        capture = file.read()
    with open(os.path.join(FOLDER, name + ".messages")) as file:
        return capture, [line.split()[1:] for line in file]


def walk(writer, capture, length_of_piece):
    """Feeds all of a capture; answers the messages that the original hands out."""
    messages, used, end = [], 0, 0
    writer.call("dec new %d" % ROOM)
    while used < len(capture):
        if used == end:
            end = min(len(capture), end + length_of_piece())
        answer = writer.call("dec feed %d %s" % (ROOM, hexed(capture[used:end])))
        if answer[0] == "more":
            used += int(answer[1])
        elif answer[0] == "message":
            used += int(answer[6])
            messages.append(answer[1:5] + [hashlib.sha256(bytes.fromhex(answer[7].strip("-"))).hexdigest()])
            tell_size(writer, answer)
        else:
            break
    writer.end_of_run()
    return messages


def tell_size(writer, message):
    """A four-byte message of type 1 with a good value sets the size straight after it."""
    if message[1] == "1" and message[4] == "4" and 0 < int(message[7], 16) < HALF:
        writer.call("dec size %d" % int(message[7], 16))


def check(name, messages, listing):
    for i, (one, other) in enumerate(zip(messages, listing), 1):
        if one != other:
            sys.exit("%s, message %d: the original hands out %s, the listing has %s" % (name, i, one, other))
    if len(messages) != len(listing):
        sys.exit("%s: the original hands out %d messages, the listing has %d" % (name, len(messages), len(listing)))
