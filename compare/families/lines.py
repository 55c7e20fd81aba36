"""Lines that are no calls, and lines that only just are."""

BAD_LINES = [
    # spaces and line ends
    b" time add 1 2", b"time add 1 2 ", b"time  add 1 2", b"time add 1 2\r", b"time\tadd 1 2", b"\r", b" ", b"\t", b" #",
    # words
    b"time", b"time add", b"time add 1", b"time add 1 2 3", b"Time add 1 2", b"time mul 1 2", b"time distance 1",
    b"time distance 1 2 3", b"\xff", b"control",
    b"control read", b"control read 00 00", b"control write begin 1", b"control write buffer 1 6", b"control write begin 1 2 6",
    b"control write none 1 6", b"control write Begin 1 6", b"enc", b"enc new 1", b"enc old", b"enc msg",
    b"enc msg 9 1 0 0 0 10", b"enc msg 9 1 0 0 0 10 00 00", b"enc size 1 1", b"enc size 1 0 10 -", b"dec", b"dec new",
    b"dec new 1 1", b"dec feed 10", b"dec size", b"dec size 1 1", b"enc length 9 1 0 0 0", b"enc length 9 1 0 0 0 10 00",
    b"enc size? 1", b"enc size ?", b"enc length?", b"dec size? 1", b"dec size?1", b"dec size ?", b"dec length 9 1 0 0 0 00",
    # numbers
    b"time add 01 2", b"time add 00 2", b"time add -1 2", b"time add +1 2", b"time add 1 4294967296",
    b"time distance -1 2", b"time distance 4294967296 0",
    b"time add 1 99999999999999999999", b"time add 1 0x5", b"time add a 2", b"time add 1 -", b"time add 1 \xb2",
    b"control write begin 4294967296 6", b"control write begin 1 131073", b"enc msg 256 1 0 0 0 10 00",
    b"enc msg 9 4294967296 0 0 0 10 00", b"enc msg 9 1 4294967296 0 0 10 00", b"enc msg 9 1 0 2 0 10 00",
    b"enc msg 9 1 0 0 2 10 00", b"enc msg 9 1 0 00 0 10 00", b"enc msg 9 1 0 - 0 10 00", b"enc msg 9 1 0 0 0 131073 00",
    b"enc size 4294967296 0 10", b"enc size 1 0 131073", b"dec new -1", b"dec new 4294967296", b"dec feed 262145 00",
    b"dec size 4294967296", b"enc length 256 1 0 0 0 00", b"enc length 9 4294967296 0 0 0 00",
    b"enc length 9 1 4294967296 0 0 00", b"enc length 9 1 0 2 0 00", b"enc length 9 1 0 0 2 00",
    # hex
    b"control read 0", b"control read 000", b"control read 0g", b"control read ", b"control read --", b"control read -0",
    b"enc msg 9 1 0 0 0 10 0", b"dec feed 10 0", b"dec feed 10 00 ",
    # length
    b"control read " + b"00" * 131072, b"#" * 262145, b"time add 1 " + b"1" * 262144,
]

GOOD_LINES = [
    b"# a comment with  two spaces", b"#", b"", b"control read " + b"0" * 262130, b"#" * 262144, b"control read 0006AbCdEf01",
    b"time add 4294967295 4294967295", b"time distance 0 2147483648", b"control write buffer 1 500 131072", b"control read -",
    b"enc msg 255 4294967295 4294967295 1 1 131072 0A", b"enc size 2147483647 4294967295 131072", b"dec new 4294967295",
    b"dec new 1", b"dec feed 262144 -", b"dec feed 0 -", b"dec size 4294967295",
    b"enc length 255 4294967295 4294967295 1 1 0A", b"enc size?", b"dec size?",
]


def make(r, writer, _):
    """One bad line a script, since nothing is read after it. There are only so many."""
    good_lines = [line for line in GOOD_LINES if is_chosen(line, writer.families)]
    for bad in BAD_LINES:
        lines = r.sample(good_lines, r.randint(0, 3)) + [bad] + r.sample(good_lines, 1)
        writer.write(b"\n".join(lines) + r.choice([b"", b"\n"]))
        writer.calls += len(lines)
    for end in (b"", b"\n", b"\n\n"):
        writer.write(b"\n".join(good_lines) + end)
        writer.calls += len(good_lines)


def is_chosen(line, families):
    """Calls of the encoder or decoder are left out where these are."""
    word = line.split(b" ")[0].decode()
    return word not in ("enc", "dec") or word in families
