"""What all families of calls share: numbers to aim at, the talk with the driver, the files."""
import os
import subprocess

CALLS_A_FILE = 2000
BYTES_A_FILE = 8_000_000
MOST_OUTPUT = 131072
MOST_BUFFER = 262144

FULL = 16777215
HALF = 2**31
ROUND = 2**32

# Numbers near each edge.
NEAR = [0, 1, 2, FULL - 1, FULL, FULL + 1, HALF - 1, HALF, HALF + 1, ROUND - 2, ROUND - 1]
# Numbers at which the clock, the time fields or the document's own examples turn.
TIMES = [0, 1, 2, 5, 10, 20, 40, 80, 1000, 10000, FULL - 1, FULL, FULL + 1, HALF - 2, HALF - 1, HALF,
         HALF + 1, HALF + 2, 3000000000, 4000000000, ROUND - 10, ROUND - 2, ROUND - 1]
GOOD_SIZES = [1, 2, 127, 128, 129, 4096, 65536, HALF - 1]
BAD_SIZES = [0, HALF, ROUND - 1]


def hexed(data):
    return data.hex() if data else "-"


def random_bytes(r, count):
    return r.getrandbits(8 * count).to_bytes(count, "big") if count else b""


def often(r, percent):
    return r.randrange(100) < percent


def chosen(r, runs, most):
    """All runs, or as many of them as there is room for."""
    return runs if len(runs) <= most else r.sample(runs, most)


class Driver:
    """A conversation with the original's driver: a line in, a line out."""

    def __init__(self, path):
        self.process = subprocess.Popen([path], stdin=subprocess.PIPE, stdout=subprocess.PIPE)

    def ask(self, line):
        self.process.stdin.write(line.encode() + b"\n")
        self.process.stdin.flush()
        return self.process.stdout.readline().decode().split()

    def end(self):
        self.process.stdin.close()
        self.process.stdout.close()
        self.process.wait()


class Writer:
    """Collects a family's calls in files of a handy length, each a script of its own."""

    def __init__(self, family, families, folder, driver_path, is_long):
        self.family, self.families, self.folder, self.driver_path = family, families, folder, driver_path
        self.is_long = is_long
        self.calls, self.files = 0, 0
        self.lines, self.size, self.driver = [], 0, None

    def call(self, line):
        """Adds a call and hands back what the original's driver answers, in words."""
        if self.driver is None:
            self.driver = Driver(self.driver_path)
        self.lines.append(line)
        self.size += len(line)
        self.calls += 1
        return self.driver.ask(line)

    def end_of_run(self):
        """Files end between runs only, so that a file needs nothing of the one before."""
        if len(self.lines) >= CALLS_A_FILE or self.size >= BYTES_A_FILE:
            self.end_of_file()

    def end_of_file(self):
        if self.lines:
            self.write("\n".join(self.lines).encode() + b"\n")
        if self.driver:
            self.driver.end()
        self.lines, self.size, self.driver = [], 0, None

    def write(self, data):
        self.files += 1
        name = "%s-%04d.script" % (self.family, self.files)
        with open(os.path.join(self.folder, name), "wb") as file:
            file.write(data)
