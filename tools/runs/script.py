"""What the models of scripts share: the two memories, the operations on them, and the two files that a model writes.

A model makes a script line by line, and beside each line what the program must write for it: the line itself with what
comes of it behind. The memories are kept here too, so that a call finds the letters that the lines before it left.
crates/script says what a line is.
"""
import re
import sys

from elimination import checksum, following, generated


class Script:
    def __init__(self, size):
        self.a, self.b = bytearray(size), bytearray(size)
        self.stdin, self.stdout, self.calls = [], [], 0

    def heading(self, words):
        assert not any("0" <= c <= "9" for c in words)
        self.stdin.append(words)
        self.stdout.append(words)

    def line(self, operation, name, a, b, words, told):
        """One line, once the memories hold what it leaves. `a` and `b` are a start and a length each."""
        text = f"{operation} {name} A {a[0]} {a[1]} B {b[0]} {b[1]}{words}"
        assert len(re.findall("[0-9]+", text)) <= NUMBERS
        self.stdin.append(text)
        self.stdout.append(f"{text}{told} sum {checksum(self.in_b(b))}")
        self.calls += operation > 10

    def in_a(self, place):
        return part(self.a, place)

    def in_b(self, place):
        return part(self.b, place)

    def into_b(self, place, letters):
        assert len(letters) == len(self.in_b(place))
        self.b[place[0] : place[0] + len(letters)] = bytes(letters)

    def fill(self, a, b, seed):
        for memory, place in ((self.a, a), (self.b, b)):
            count = len(part(memory, place))
            memory[place[0] : place[0] + count] = bytes(generated(count, seed))
        self.line(1, "fill", a, b, f" seed {seed}", "")

    def put(self, a, b, letters):
        for memory, place in ((self.a, a), (self.b, b)):
            count = min(len(part(memory, place)), len(letters))
            memory[place[0] : place[0] + count] = bytes(letters[:count])
        self.line(2, "put", a, b, listed(" letters", letters), "")

    def lay(self, a, b, letters):
        """Letters, however many, into A's slice or into B's; the other one is none. Zeros come first, from the end of the other
        memory, to which no line writes, and then what isn't zero, in as many lines as it takes."""
        size = len(letters)
        zeros = (len(self.a) - size, size)
        assert not any(self.in_a(zeros)) and not any(self.in_b(zeros))
        if a == NONE:
            self.take(zeros, b)
        else:
            self.keep(a, zeros)
        at = 0
        while at < size:
            if letters[at] == 0:
                at += 1
                continue
            run = letters[at : at + NUMBERS - 5].rstrip(b"\0")
            if a == NONE:
                self.put(NONE, (b[0] + at, len(run)), run)
            else:
                self.put((a[0] + at, len(run)), NONE, run)
            at += len(run)
        assert (self.in_b(b) if a == NONE else self.in_a(a)) == letters

    def keep(self, a, b):
        count = min(a[1], b[1])
        self.a[a[0] : a[0] + count] = self.b[b[0] : b[0] + count]
        self.line(3, "keep", a, b, "", "")

    def take(self, a, b):
        count = min(a[1], b[1])
        self.b[b[0] : b[0] + count] = self.a[a[0] : a[0] + count]
        self.line(4, "take", a, b, "", "")

    def show(self, b):
        self.line(5, "show", NONE, b, "", hexes(":", self.in_b(b)))

    def write(self, crate):
        assert sum(len(line) + 1 for line in self.stdin) <= TEXT
        for name, lines in (("stdin", self.stdin), ("stdout", self.stdout)):
            with open(f"crates/{crate}/{name}", "w") as out:
                out.write("\n".join(lines) + "\n")
        print(f"{crate}: {len(self.stdin)} lines, {self.calls} calls", file=sys.stderr)


NONE = (0, 0)

# the room that a program has for a script's text (`room` in crates/lines)
TEXT = 600000

# the numbers that it reads of a line (crates/script_line); five of them are the operation and the two slices
NUMBERS = 32


def part(memory, place):
    """A slice by its start and its length; none where the memory isn't so long."""
    start, count = place
    return bytes(memory[start : start + count]) if start + count <= len(memory) else b""


def hexes(words, letters):
    return words + "".join(f" {letter:02x}" for letter in letters)


def listed(words, numbers):
    return words + "".join(f" {number}" for number in numbers)


class Chooser:
    """Numbers of the small generator, so that a script is the same with every version of Python."""

    def __init__(self, seed):
        self.x = seed

    def within(self, low, high):
        self.x = following(self.x)
        return low if high <= low else low + self.x // 65536 % (high - low + 1)

    def one_of(self, some):
        return some[self.within(0, len(some) - 1)]

    def chance(self, of):
        return self.within(1, of) == 1

    def falling(self, n, wanted, but=0):
        """Falling ids of 1..n, without `but`: each with as many chances as are still wanted, out of as many as are left."""
        left = [node for node in range(n, 0, -1) if node != but]
        ids = []
        for at, node in enumerate(left):
            if self.within(1, len(left) - at) <= wanted - len(ids):
                ids.append(node)
        return ids
