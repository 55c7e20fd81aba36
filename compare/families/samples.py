"""The samples of document 01, each with what the paper says of its last answer.

The marked ones are M1 to M11; the others stand in the line below them. The original must answer
as the paper says, or nothing is compared at all.
"""
import sys

LONG = "5a" * 129
M1 = "enc msg 9 1 0 0 0 64 010203"
M2 = "enc msg 9 1 40 0 0 64 010203"
M3 = "enc msg 9 1 80 0 0 64 010203"

SAMPLES = [
    ([M1], "wrote 15 040000000000030901000000010203"),
    ([M1, M2], "wrote 7 84000028010203"),
    ([M1, M2, M3], "wrote 4 c4010203"),
    ([M1, M2, M3, "enc msg 9 1 80 0 0 64 01020304"], "wrote 12 440000000000040901020304"),
    (["enc msg 9 1 0 0 1 64 010203", M2], "wrote 15 040000280000030901000000010203"),
    (["enc msg 8 1 16777215 0 0 64 AA"], "wrote 17 05ffffff000001080100000000ffffffaa"),
    (["enc msg 8 1 16777214 0 0 64 AA"], "wrote 13 05fffffe0000010801000000aa"),
    (["enc msg 9 1 20 0 0 64 AA", "enc msg 9 1 10 0 0 64 AA"], "wrote 9 84fffffffffffff6aa"),
    (["enc size 4096 0 64"], "wrote 16 02000000000004010000000000001000"),
    (["control write buffer 1 500 10"], "wrote 10 000300000001000001f4"),
    (["control read 000300000001000001F4"], "buffer 1 500"),
    # the owner's distances, and a pair of document 01
    (["time distance 2147483648 0"], "2147483648"),
    (["time distance 0 2147483648"], "-2147483648"),
    (["time distance 4000000000 10000"], "294977296"),
    # 129 bytes of type 9
    (["enc msg 9 1 0 0 0 142 " + LONG], "wrote 142 "),
    (["enc msg 9 1 0 0 0 141 " + LONG], "refused 5"),
    (["enc msg 9 1 16777215 0 0 150 " + LONG], "wrote 150 "),
    (["enc msg 9 1 16777215 0 0 149 " + LONG], "refused 5"),
    (["enc msg 9 1 0 1 0 153 " + LONG], "wrote 153 "),
    (["enc msg 9 1 0 1 0 152 " + LONG], "refused 5"),
    # sizes
    (["enc size 1 0 16", "enc size 1 0 52"], "wrote 52 "),
    (["enc size 1 0 16", "enc size 1 0 51"], "refused 5"),
    (["enc size 2147483647 0 16"], "wrote 16 0200000000000401000000007fffffff"),
    (["enc size 2147483648 0 16"], "refused 4"),
    (["dec size 2147483647"], "ok"),
    (["dec size 2147483648"], "refused 4"),
]

# M10: the ids, each followed by the same stream in the other form that it has. Type 3 needs a row, so it is
# a message only where both forms are one stream.
IDS = [("0000", "c10000"), ("00ff", "c1ff00"), ("010000", "c000"), ("01ffff", "c1ffff"), ("010001", "c10001"), ("010100", "c001")]


def make(_, writer, __):
    for lines, expected in SAMPLES:
        run(writer, lines, expected)
    for first, again in IDS:
        run(writer, ["dec feed 65536 %s0000000000010901000000aa" % first, "dec feed 65536 %sbb" % again], "message 9 1 0 1 used ")


def run(writer, lines, expected):
    writer.call("enc new")
    writer.call("dec new 65536")
    answers = [" ".join(writer.call(line)) for line in lines]
    if not answers[-1].startswith(expected):
        sys.exit("document 01 says that %s answers %s, and the original answers %s" % (lines, expected, answers[-1]))
    writer.end_of_run()
