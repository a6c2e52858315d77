"""What a share is, by documents 01 and 02 (docs/SCHEME.md, 1, 9 and 11) alone, for the models whose scripts have shares in them.

A share is a head and what follows from it. The first bytes of every head that there is are listed up to L, and those of L are looked for in its
range. After a head, a share has bytes that it is bound to have, and letters, which may be any. So the first byte that can't stand is the first with
which no head begins, or else the first that is another than the share of that head is bound to have, or the one after its last. Which part
of a share stands at that index tells how the bytes are refused.
"""
from collections import namedtuple

from elimination import preview_shift, shift
from script import listed

ANY = range(256)


def number(value, size):
    return [value >> (8 * i) & 255 for i in range(size)]


def number_in(data):
    """The number that these bytes are."""
    return int.from_bytes(data, "little")


# the kinds of head: a node's packets of the repairing code, a node's packet of previews, whose d is 0, and packets of longer sequences; of each how many
# bytes L has, and its range
REPAIRING, PREVIEWS, LONGER = 1, 5, 6
Length = namedtuple("Length", "bytes range")
KINDS = {REPAIRING: Length(2, range(1, 4097)), PREVIEWS: Length(2, range(1, 4097)), LONGER: Length(4, range(4097, 1048577))}


def packets_kind(length):
    """The kind that serves packets of the repairing code with this L, be it in range or not."""
    return REPAIRING if length <= 4096 else LONGER


def length_bytes(kind):
    """The bytes of L in a head; what is no kind counts as one of two."""
    return KINDS[kind].bytes if kind in KINDS else 2


def head_size(kind):
    """The bytes of a head: kind, n, k, d and node, then L, then the batch."""
    return 5 + length_bytes(kind) + 4


class Head(namedtuple("Head", "n k d node l batch kind")):
    """Any numbers; with no kind said, of the repairing code, whose kind goes by L."""

    def __new__(cls, n, k, d, node, l, batch, kind=None):
        return super().__new__(cls, n, k, d, node, l, batch, packets_kind(l) if kind is None else kind)

    def in_range(self):
        """n, k and d are (document 01's ranges and Ask 4's)."""
        if self.kind == PREVIEWS:
            return 3 <= self.n <= 16 and 2 <= self.k <= self.n and self.d == 0
        return 3 <= self.n <= 16 and 2 <= self.k <= self.d <= self.n - 1

    def length_in_range(self):
        """L is one that the kind serves."""
        return self.l in KINDS[self.kind].range

    def total(self):
        """T, the letters of its share."""
        if self.kind == PREVIEWS:
            return self.l + preview_shift(self.node, self.k)
        return self.d * (self.l + shift(self.node, self.d))

    def size(self):
        """The bytes of its share."""
        return head_size(self.kind) + (self.total() + 63) // 64 * 65 + 5

    def record(self):
        return [self.kind, self.n, self.k, self.d, self.node] + number(self.l, length_bytes(self.kind)) + number(self.batch, 4)


def preview_head(n, k, node, length, batch):
    return Head(n, k, 0, node, length, batch, PREVIEWS)


def head_in(data):
    """The head whose record these bytes begin with."""
    kind, n, k, d, node = data[:5]
    end = head_size(kind)
    return Head(n, k, d, node, number_in(data[5:end - 4]), number_in(data[end - 4:end]), kind)


# the parts of a share where not any byte may stand, by the number of the refusal of one that can't; and what is no part of it
KIND, NUMBER, FILLER, TOTAL, AFTER = 8, 9, 10, 11, 12


def settled(at, letters):
    """What a share of so many letters is bound to have from where its full blocks end: the index, the byte, and the part that it is of."""
    found, held = [], letters % 64
    if held:
        found = [(at, 3, KIND)] + [(at + 1 + i, 0, FILLER) for i in range(held, 64)]
        at += 65
    return found + [(at, 4, KIND)] + [(at + 1 + i, byte, TOTAL) for i, byte in enumerate(number(letters, 4))]


# every head of the documents' ranges, as far as what stands before L; then comes L, and a batch, which may be any
STARTS = [(kind, n, k, d, node) for kind in KINDS for n in range(3, 17) for d in range(n) for k in range(2, n + 1) for node in range(1, n + 1)
          if Head(n, k, d, node, 1, 0, kind).in_range()]
START_PREFIXES = {start[:count] for start in STARTS for count in range(6)}
SETTLED = {}


def begins_number(data, numbers):
    """Some number of a range begins with these bytes. They count less than the next byte does, so numbers that begin with them are so far apart: of those
    that aren't above the range, the last one tells."""
    these = range(number_in(data), numbers.stop, 256 ** len(data))
    return len(these) > 0 and these[-1] in numbers


def begins_head(data):
    if tuple(data[:5]) not in START_PREFIXES:
        return False
    return len(data) <= 5 or begins_number(data[5:5 + length_bytes(data[0])], KINDS[data[0]].range)


def settled_wrong(data, head):
    """The part and the index of the first byte that isn't what the share of a head is bound to have: a kind at each full block, and what is behind them."""
    letters, start = head.total(), head_size(head.kind)
    end = start + 65 * (letters // 64)
    for at in range(start, min(end, len(data)), 65):
        if data[at] != 2:
            return KIND, at
    if (end, letters) not in SETTLED:
        SETTLED[end, letters] = settled(end, letters)
    for at, byte, part in SETTLED[end, letters]:
        if at >= len(data):
            return None
        if data[at] != byte:
            return part, at
    return (AFTER, head.size()) if len(data) > head.size() else None


def judge(data):
    """0 and the head; 7; or 8 to 12 and the index of the first byte that no share has there after the bytes before it."""
    if not begins_head(data):
        at = next(at for at in range(len(data)) if not begins_head(data[:at + 1]))
        return NUMBER if at else KIND, at
    if not data or len(data) < head_size(data[0]):
        return 7, None
    head = head_in(data)
    wrong = settled_wrong(data, head)
    if wrong:
        return wrong
    if len(data) < head.size():
        return 7, None
    return 0, head


# a judgment as the programs write it


def told(judgment):
    """`0 of` and the head, `7`, or `9 at 4`."""
    number, what = judgment
    return listed("0 of", what) if number == 0 else short(judgment)


def short(judgment):
    """The same without the head."""
    number, what = judgment
    return f"{number}" if number < 8 else f"{number} at {what}"


def digit(judgment):
    return "0123456789abc"[judgment[0]]


def runs(words):
    """What each of some numbers, from 0 on, gives, in runs of the same: `0-0 8 at 0, 1-1 0, 2-255 8 at 0`."""
    firsts = [i for i in range(len(words)) if i == 0 or words[i] != words[i - 1]]
    lasts = [first - 1 for first in firsts[1:]] + [len(words) - 1]
    return ", ".join(f"{first}-{last} {words[first]}" for first, last in zip(firsts, lasts))


def swept(data, at):
    """Some bytes judged with every byte at an index."""
    data = bytearray(data)
    found = []
    for byte in ANY:
        data[at] = byte
        found.append(short(judge(data)))
    return runs(found)


def share(head, letters):
    """The bytes of a share with these letters, which are bytes, too."""
    blocks = [letters[i:i + 64] for i in range(0, len(letters), 64)]
    records = [bytes([2 if len(block) == 64 else 3]) + block.ljust(64, b"\0") for block in blocks]
    return bytes(head.record()) + b"".join(records) + bytes([4] + number(len(letters), 4))


# heads of the generator (a Chooser of tools/script.py)


def chosen_head(chooser, lengths):
    n = chooser.within(3, 16)
    d = chooser.within(2, n - 1)
    length = chooser.one_of(lengths)
    return Head(n, chooser.within(2, d), d, chooser.within(1, n), length, chooser.within(0, 32767) * 131071)


def chosen_preview(chooser, lengths):
    n = chooser.within(3, 16)
    length = chooser.one_of(lengths)
    return preview_head(n, chooser.within(2, n), chooser.within(1, n), length, chooser.within(0, 32767) * 131071)


def chosen_bytes(chooser, kind=REPAIRING):
    """The bytes of a head, most often with a number outside its range, and four bytes after it."""
    n = chooser.within(2, 17)
    d = chooser.within(1, n)
    return chosen_rest([kind, n, chooser.within(1, d), d], chooser)


def chosen_longer_bytes(chooser):
    """The same of longer sequences."""
    return chosen_bytes(chooser, LONGER)


def chosen_preview_bytes(chooser):
    """The same of previews, and now and then of another kind with such numbers, or of none."""
    n = chooser.within(2, 17)
    kind = chooser.one_of([PREVIEWS, PREVIEWS, PREVIEWS, PREVIEWS, PREVIEWS, PREVIEWS, REPAIRING, LONGER, 7])
    return chosen_rest([kind, n, chooser.within(1, n + 1), chooser.one_of([0, 0, 0, 0, 0, 1, 2, n])], chooser)


def chosen_rest(start, chooser):
    """Behind the kind, n, k and d."""
    data = start + [chooser.within(0, start[1] + 1), chooser.one_of([0, 1, 255]), chooser.one_of([0, 1, 15, 16, 17])]
    if length_bytes(start[0]) == 4:
        data += [chooser.one_of([0, 0, 1, 15, 16, 17]), chooser.one_of([0, 0, 0, 0, 0, 1, 255])]
    return data + [chooser.within(0, 255) for _ in range(4)] + [chooser.one_of([1, 2, 2, 3, 4])] + [7, 0, 9]
