#!/usr/bin/env python3
"""The script that crates/share_runs runs and what it must write, worked out from documents 01 and 02 (docs/SCHEME.md, 9 and 11) alone, without the
store's code. From the root of the repository this makes both files again, crates/share_runs/stdin and stdout:

    tools/share_model.py

tools/shares.py has what a share is, and tools/script.py the memories.
"""
import sys

sys.dont_write_bytecode = True
from script import NONE, Chooser, Script
from shares import (LONGER, PREVIEWS, REPAIRING, Head, chosen_bytes, chosen_head, chosen_longer_bytes, chosen_preview, chosen_preview_bytes, head_in,
                    head_size, judge, preview_head, share, swept, told)

SCRIPT = Script(600000)


def letters_of(data):
    """The letters of a share: every body of a block, without the filler."""
    head = head_in(data)
    blocks = range(head_size(head.kind), len(data) - 5, 65)
    return b"".join(data[at + 1:at + 65] for at in blocks)[:head.total()]


def refusal(head):
    if not head.in_range():
        return 1
    if not head.length_in_range():
        return 2
    if not 1 <= head.node <= head.n:
        return 3
    return 0


# the calls: each makes its line, and leaves in B what the documents say (docs/SCHEME.md, 9 and 11). There are two of those that are handed a head, one for
# each code; that of the repairing code isn't handed the kind, which follows from L
WRITE = {REPAIRING: (21, "write"), LONGER: (21, "write"), PREVIEWS: (27, "write preview")}
BYTES = {REPAIRING: (22, "bytes"), LONGER: (22, "bytes"), PREVIEWS: (28, "preview bytes")}


def named(head):
    return f" [{head.n},{head.k},{head.d}] L {head.l} node {head.node}"


def size(head):
    number = refusal(head)
    value = 0 if number else head.size()
    SCRIPT.line(*BYTES[head.kind], NONE, NONE, named(head), f": {number} value {value}")


def write(a, b, head):
    letters, out = SCRIPT.in_a(a), SCRIPT.in_b(b)
    number, value = refusal(head), 0
    if not number and len(letters) != head.total():
        number = 5
    if not number and len(out) != head.size():
        number = 6
    if not number:
        value = len(out)
        SCRIPT.into_b(b, share(head, letters))
    SCRIPT.line(*WRITE[head.kind], a, b, f"{named(head)} batch {head.batch}", f": {number} value {value}")


def judged(a):
    SCRIPT.line(23, "judge", a, NONE, "", ": " + told(judge(SCRIPT.in_a(a))))


def read(a, b):
    data, out = SCRIPT.in_a(a), SCRIPT.in_b(b)
    judgment = judge(data)
    if not judgment[0] and len(out) != judgment[1].total():
        judgment = 6, None
    if not judgment[0]:
        SCRIPT.into_b(b, letters_of(data))
    SCRIPT.line(24, "read", a, b, "", ": " + told(judgment))


def sweep(b, at):
    """What each byte that could stand at an index makes of the bytes."""
    SCRIPT.line(25, "sweep", NONE, b, f" at {at}", ": " + swept(SCRIPT.in_b(b), at))


def stand(a):
    """How many bytes from the front can stand."""
    data = SCRIPT.in_a(a)
    number, what = judge(data)
    SCRIPT.line(26, "stand", a, NONE, "", f": 0 value {what if number > 7 else len(data)}")


# what is run


def made(head, seed):
    """A share at the start of both memories, its letters those of the generator. The answer is how many it has, and how many bytes."""
    count, whole = head.total(), head.size()
    SCRIPT.fill((0, count), NONE, seed)
    write((0, count), (0, whole), head)
    SCRIPT.keep((0, whole), (0, whole))
    return count, whole


def desk(name, head, letters):
    """A share of two letters, and so of 81 bytes."""
    SCRIPT.heading(f"{name}, its bytes, and it read back")
    SCRIPT.put((0, 2), NONE, letters)
    size(head)
    write((0, 2), (0, 81), head)
    SCRIPT.show((0, 81))
    SCRIPT.keep((0, 82), (0, 82))
    read((0, 81), (100, 2))
    SCRIPT.show((100, 2))
    SCRIPT.heading("It read, less than it and more; the bytes are judged before the room for the letters")
    for room in (2, 3):
        for count in (81, 80, 82):
            read((0, count), (100, room))
    SCRIPT.heading("Its first bytes, from none to all, and one more")
    for count in range(83):
        judged((0, count))
        stand((0, count))
    SCRIPT.heading("Each of its bytes as each other byte")
    for at in range(81):
        sweep((0, 81), at)
    SCRIPT.heading("The same in its beginnings")
    for count in (1, 2, 3, 4, 5, 6, 7, 11, 12, 15, 77, 80):
        sweep((0, count), count - 1)
    for at in range(7):
        sweep((0, 14), at)


def longer_desk(head):
    """The smallest share of kind 6."""
    SCRIPT.heading("The smallest share of longer sequences: its head, its end, and it read back")
    count, whole = made(head, 97)
    size(head)
    SCRIPT.show((0, 16))
    SCRIPT.show((whole - 70, 70))
    read((0, whole), (100, count))
    SCRIPT.heading("It read, less than it and more; the bytes are judged before the room for the letters")
    for room in (count, count + 1):
        for length in (whole, whole - 1, whole + 1):
            read((0, length), (100, room))
    SCRIPT.heading("Its first bytes, from none on, and its last")
    for length in [*range(17), *range(76, 82), *range(whole - 72, whole + 2)]:
        judged((0, length))
        stand((0, length))


LIMITS = [
    Head(3, 2, 2, 1, 1, 0), Head(3, 2, 2, 3, 1, 4294967295), Head(16, 2, 2, 1, 5, 16909060), Head(16, 2, 2, 16, 5, 256), Head(16, 2, 15, 16, 5, 65536),
    Head(16, 15, 15, 16, 5, 16777216), Head(16, 15, 15, 1, 5, 255), Head(3, 2, 2, 1, 4096, 1), Head(16, 15, 15, 16, 4096, 1), Head(16, 15, 15, 1, 4096, 1),
    # T's remainder by 64 is 0, 1 and 63, with one block and with several
    Head(3, 2, 2, 1, 32, 1), Head(4, 2, 3, 1, 43, 1), Head(4, 2, 3, 1, 21, 1), Head(4, 2, 3, 1, 64, 1), Head(4, 2, 3, 1, 107, 1), Head(4, 2, 3, 1, 85, 1),
]
PREVIEW_LIMITS = [
    preview_head(3, 2, 1, 1, 0), preview_head(3, 3, 3, 1, 4294967295), preview_head(16, 2, 1, 5, 16909060), preview_head(16, 2, 16, 5, 256),
    preview_head(16, 16, 16, 5, 65536), preview_head(16, 16, 1, 1, 16777216), preview_head(3, 2, 1, 4096, 255), preview_head(16, 16, 16, 4096, 1),
    # the same remainders
    preview_head(4, 3, 2, 60, 1), preview_head(4, 3, 2, 61, 1), preview_head(4, 3, 2, 59, 1), preview_head(4, 4, 4, 180, 1), preview_head(4, 4, 4, 181, 1),
    preview_head(4, 4, 4, 179, 1),
]
# the first L of kind 6, those at which a byte of L comes in, the longest sequences of which a memory has a share, and again the same remainders
LONGER_LIMITS = [
    Head(3, 2, 2, 1, 4097, 0), Head(3, 2, 2, 3, 4097, 4294967295), Head(16, 15, 15, 16, 4097, 16909060), Head(16, 15, 15, 1, 4097, 256),
    Head(3, 2, 2, 1, 65535, 65536), Head(3, 2, 2, 1, 65536, 16777216), Head(3, 2, 2, 2, 65537, 255), Head(3, 2, 2, 1, 295000, 1),
    Head(3, 2, 2, 1, 4128, 1), Head(4, 2, 3, 1, 4139, 1), Head(4, 2, 3, 1, 4117, 1),
]


def limits(name, heads):
    SCRIPT.heading(f"{name} at the limits: each length right, one less, one more; cut, and lengthened")
    for seed, head in enumerate(heads, 1):
        count, whole = head.total(), head.size()
        part = (0, whole)
        size(head)
        SCRIPT.fill((0, whole + 1), (0, whole + 1), seed)
        for letters, out in ((count - 1, whole), (count + 1, whole), (count, whole - 1), (count, whole + 1), (count + 1, whole + 1), (0, 0), (count, whole)):
            write((0, letters), (0, out), head)
        SCRIPT.keep(part, part)
        for length in (whole, whole - 1, whole - 5, whole + 1):
            judged((0, length))
        SCRIPT.fill(NONE, (0, count + 1), seed + 100)
        for length, room in ((whole, count + 1), (whole, count - 1), (whole, 0), (whole - 1, count), (whole - 1, count + 1), (whole + 1, count), (whole, count)):
            read((0, length), (0, room))


OUTSIDE = [
    (2, 2, 2, 1, 1, 1), (17, 2, 2, 1, 1, 1), (3, 1, 2, 1, 1, 1), (4, 3, 2, 1, 1, 1), (3, 2, 3, 1, 1, 1), (3, 2, 2, 1, 0, 1), (3, 2, 2, 1, 4097, 1),
    (3, 2, 2, 0, 1, 1), (3, 2, 2, 4, 1, 1), (2, 2, 2, 0, 0, 1), (3, 2, 2, 0, 0, 1), (3, 2, 2, 17, 4097, 1), (0, 0, 0, 0, 0, 0),
    # L on both sides of where kind 6 begins and ends, where a byte of it comes in, and wider than its bytes
    (3, 2, 2, 1, 4096, 1), (3, 2, 2, 1, 65536, 1), (3, 2, 2, 1, 1048576, 1), (3, 2, 2, 1, 1048577, 1), (3, 2, 2, 1, 16777216, 1), (3, 2, 2, 1, 4294967296, 1),
    (3, 2, 2, 1, 4294971393, 1), (3, 2, 2, 17, 1048576, 1), (3, 2, 2, 17, 1048577, 1), (3, 2, 3, 1, 1048577, 1), (3, 2, 0, 1, 4097, 1), (16, 15, 15, 16, 1048576, 1),
    (16, 15, 15, 16, 1048577, 1),
]
PREVIEW_OUTSIDE = [
    (2, 2, 0, 1, 1, 1), (17, 2, 0, 1, 1, 1), (3, 1, 0, 1, 1, 1), (3, 4, 0, 1, 1, 1), (16, 17, 0, 1, 1, 1), (3, 2, 1, 1, 1, 1),
    (3, 2, 2, 1, 1, 1), (3, 2, 16, 1, 1, 1), (3, 2, 0, 1, 0, 1), (3, 2, 0, 1, 4097, 1), (3, 2, 0, 0, 1, 1), (3, 2, 0, 4, 1, 1), (2, 2, 0, 0, 0, 1),
    (3, 2, 0, 0, 0, 1), (3, 2, 2, 0, 0, 1), (3, 2, 0, 17, 4097, 1), (0, 0, 0, 0, 0, 0), (3, 2, 0, 1, 65536, 1), (3, 2, 0, 1, 1048576, 1), (3, 2, 2, 1, 4097, 1),
]


def outside(name, heads):
    SCRIPT.heading(f"{name} outside their ranges, alone and together")
    SCRIPT.fill((0, 90), (0, 90), 9)
    for head in heads:
        size(head)
        for letters, out in ((2, 81), (1, 81), (2, 80), (0, 0)):
            write((0, letters), (0, out), head)


# T leaves 0, 1 and 63 over 64
SMALL = [Head(3, 2, 2, 1, 32, 1), Head(6, 2, 5, 1, 13, 16909060), Head(4, 2, 3, 1, 21, 4294967295)]
SMALL_PREVIEWS = [preview_head(4, 3, 2, 60, 1), preview_head(6, 6, 5, 40, 16909060), preview_head(5, 2, 3, 60, 4294967295)]
# the smallest share of kind 6, and the same remainders
SMALL_LONGER = [Head(3, 2, 2, 1, 4097, 1), Head(3, 2, 2, 1, 4128, 131072), Head(4, 2, 3, 1, 4139, 16909060), Head(4, 2, 3, 1, 4117, 4294967295)]


def sweeps(name, heads, beginnings):
    """Of the beginnings only the head's bytes are swept, and two behind it."""
    for seed, head in enumerate(heads, 3):
        SCRIPT.heading(f"{name}, each of its bytes as each other byte")
        count, whole = made(head, seed)
        for at in range(whole):
            sweep((0, whole), at)
        SCRIPT.heading("The same of one byte more, and at the last byte of each beginning where not any byte may stand")
        for at in (0, 6, whole - 1, whole):
            sweep((0, whole + 1), at)
        for at in (0, 1, 2, 3, 4, 5, 6, 11, 76, whole - 5, whole - 4, whole - 1):
            sweep((0, at + 1), at)
    SCRIPT.heading("The beginning of a share of several blocks, and of the largest")
    for head, length in beginnings:
        made(head, 5)
        for at in [*range(12), 76, 91]:
            sweep((0, length), at)


def longer_sweeps(name, heads):
    """Shares with too many bytes for all of them: those of the head, a letter, the kinds of some blocks, and what stands in the last block and the end."""
    for seed, head in enumerate(heads, 3):
        SCRIPT.heading(f"{name}, each byte of its head as each other byte, and those behind it where not any may stand")
        count, whole = made(head, seed)
        front, last = head_size(head.kind), whole - 70
        fill = last + 1 + (count % 64 or 64)
        for at in sorted({*range(front + 2), front + 65, front + 65 * 40, last, last + 1, fill, whole - 6, *range(whole - 5, whole)}):
            sweep((0, whole), at)
        SCRIPT.heading("The same of one byte more, and at the last byte of each beginning; and the head's bytes in a beginning")
        for at in (0, front - 5, whole - 1, whole):
            sweep((0, whole + 1), at)
        for at in (*range(front + 2), front + 65, last, whole - 5, whole - 4, whole - 1):
            sweep((0, at + 1), at)
        for at in range(front):
            sweep((0, front + 1), at)
            sweep((0, front + 2), at)


# L on both sides of the limits of each kind, of what its first bytes can hold, and of what the third may be above them
LENGTHS = [0, 1, 255, 256, 4095, 4096, 4097, 4098, 4351, 4352, 65535, 65536, 65537, 69632, 69633, 131071, 131072, 983040, 1048319, 1048320, 1048575,
           1048576, 1048577, 1048831, 1048832, 1052672, 1052673, 1114111, 1114112, 16711680, 16777215, 16777216, 16781313, 17825792, 2147483648, 4278190080,
           4294967295]


def by_length():
    """Shares of which there is a head, the kind of a block and a letter. Also as kind 1 and as kind 5, which have the lower bytes of L."""
    SCRIPT.heading("The bytes of shares by L, inside and outside its range")
    for length in LENGTHS:
        for n, k, d, node in ((3, 2, 2, 1), (16, 15, 15, 16)):
            size(Head(n, k, d, node, length, 0))
    SCRIPT.heading("A head of each L, inside its range and outside, with little behind it: its beginnings, and each byte of L as each other byte")
    for length in LENGTHS:
        record = Head(3, 2, 2, 1, length, 258, LONGER).record() + [2, 9]
        SCRIPT.put((0, 15), (0, 15), record)
        for count in (6, 7, 8, 9, 13, 15):
            judged((0, count))
        stand((0, 15))
        for at in range(5, 9):
            sweep((0, at + 1), at)
            sweep((0, 15), at)
        for kind, d in ((REPAIRING, 2), (PREVIEWS, 0)):
            SCRIPT.put((0, 4), NONE, [kind, 3, 2, d])
            judged((0, 15))
    SCRIPT.heading("The head of the largest share, its beginnings, and each of its bytes as each other byte")
    for length in (4097, 65536, 1048575, 1048576):
        record = Head(16, 15, 15, 16, length, 4294967295).record() + [2, 9]
        SCRIPT.put((0, 15), (0, 15), record)
        for count in range(16):
            judged((0, count))
        for at in range(14):
            sweep((0, at + 1), at)
            sweep((0, 15), at)


def changed(edits, whole, room):
    """Some bytes of the share in A changed for a while: judged and read, also with no room that fits; and cut before and after the first wrong one."""
    own = list(SCRIPT.a)
    for at, byte in edits:
        SCRIPT.put((at, 1), NONE, [byte])
    judged((0, whole))
    stand((0, whole))
    number, place = judge(SCRIPT.in_a((0, whole)))
    if number > 7:
        judged((0, place))
        judged((0, place + 1))
    for letters in (room, room + 1):
        read((0, whole), (1000, letters))
    for at, _ in edits:
        SCRIPT.put((at, 1), NONE, [own[at]])


def head_edits(head):
    """Edits of a head's numbers: of any kind those of L, the node and n, and of its own kind those of k and d, and the other kinds."""
    n, k = head.n, head.k
    either = [[(4, n + 1)], [(4, 0), (0, 2)], [(1, 17), (2, 17)], [(1, 2)], [(6, 255), (11, 9)]]
    lengths = [[(5, 0), (6, 0)], [(5, 1), (6, 16)], [(5, 0), (6, 16)], [(5, 0), (6, 1)]]
    packets = [[(2, n)], [(2, n - 1), (3, n - 2)], [(3, k - 1)], [(3, n)]]
    if head.kind == REPAIRING:
        return lengths + packets + either + [[(0, PREVIEWS)], [(0, PREVIEWS), (3, 0)], [(0, 7)]] + as_longer([])
    if head.kind == LONGER:
        others = as_shorter([(0, REPAIRING)]) + as_shorter([(0, PREVIEWS), (3, 0)]) + [[(0, PREVIEWS)], [(0, 7)], [(0, 4)]]
        return lengths + upper_lengths() + packets + either + others
    own = [[(2, n + 1)], [(2, n)], [(2, 1)], [(3, k)], [(3, 1)], [(3, n - 1)], [(3, 255)], [(2, n + 1), (3, k)], [(3, 1), (4, 0)]]
    others = [[(0, REPAIRING)], [(0, REPAIRING), (3, max(k, n - 1))], [(0, 6)], [(0, 4)], [(0, 7)]]
    return lengths + own + either + others + as_longer([(2, 2), (3, n - 1)])


def upper_lengths():
    """Edits of the third and the fourth byte of L: as far up as its range goes, above it, and back to where kind 1 has it; and two wrong bytes."""
    upper = [[(7, 1)], [(7, 16)], [(5, 0), (6, 0), (7, 16)], [(5, 255), (6, 255), (7, 15)], [(5, 1), (6, 0), (7, 16)], [(5, 0), (6, 1), (7, 16)], [(7, 17)]]
    return upper + [[(8, 1)], [(5, 0), (6, 16), (8, 1)], [(5, 0), (6, 0), (7, 16), (8, 1)], [(7, 255), (8, 255)], [(7, 17), (13, 9)], [(8, 128), (13, 9)]]


def as_longer(also):
    """Edits that have a head of kind 1 or 5 read as one of kind 6: the first two bytes of its batch are the upper ones of L, and what stands at index 13 is no
    letter any more."""
    inside = [[(7, 1), (8, 0)], [(7, 1), (8, 0), (13, 2)], [(5, 0), (6, 0), (7, 16), (8, 0)]]
    outside = [[(7, 0), (8, 0)], [(7, 16), (8, 0)], [(7, 17), (8, 0)], [(7, 1), (8, 1)]]
    return [[(0, LONGER)] + also + edits for edits in [[]] + inside + outside]


def as_shorter(edits):
    """Edits that have a head of kind 6 read as one of a kind with an L of two bytes: the upper two are of the batch, and what stands at index 11 begins a
    block."""
    return [edits, edits + [(5, 0), (6, 16)], edits + [(5, 0), (6, 16), (11, 2)]]


def places(name, heads):
    for head in heads:
        SCRIPT.heading(name)
        count, whole = made(head, 21)
        for edits in head_edits(head):
            changed(edits, whole, count)
        SCRIPT.heading("A last block or an end in the place of the other, fill, the total at each of its bytes, and whatever comes after the end")
        last = whole - 70
        fill = [(at, 1) for at in range(last + 1 + (count % 64 or 64), whole - 5)]
        fills = [fill[:1], fill[-1:], fill[:1] + [(whole - 5, 9)]] if fill else []
        totals = [[(at, SCRIPT.a[at] ^ 128)] for at in range(whole - 4, whole)]
        for edits in ([(whole - 5, 3)], [(whole - 5, 2)], [(last, 4)], [(last, 5 - SCRIPT.a[last])], *fills, *totals,
                      [(whole - 3, 1), (whole - 1, 1)], [(whole - 5, 0), (whole - 4, 0)]):
            changed(edits, whole, count)
        for byte in (0, 1, 3, 4, 255):
            changed([(whole, byte)], whole + 1, count)
        changed([(whole, 1), (whole + 1, 3)], whole + 20, count)


def damaged(chooser, whole):
    """One damage to the share in A: a byte changed, most often where it matters, and put back after it was judged and read."""
    front = head_size(SCRIPT.a[0])
    blocks = (whole - front - 5) // 65
    near_kinds = front + 65 * chooser.within(0, blocks) + chooser.within(0, 4)
    at = chooser.one_of([chooser.within(0, front - 1), near_kinds, whole - 1 - chooser.within(0, 70), chooser.within(0, whole - 1)])
    at = max(0, min(whole - 1, at))
    own = SCRIPT.a[at]
    SCRIPT.put((at, 1), NONE, [chooser.one_of([0, 1, 2, 3, 4, own ^ 1, own ^ 128, chooser.within(0, 255)])])
    return at, own


def damages(name, chosen, shares, lengths, seed):
    chooser = Chooser(seed)
    for _ in range(shares):
        head = chosen(chooser, lengths)
        SCRIPT.heading(f"{name} of the generator, damaged a byte at a time, cut and lengthened")
        count, whole = made(head, chooser.x)
        read((0, whole), (0, count))
        for _ in range(8):
            at, own = damaged(chooser, whole)
            judged((0, whole))
            stand((0, whole))
            judged((0, chooser.within(at, whole)))
            SCRIPT.put((at, 1), NONE, [own])
        for _ in range(2):
            at, own = damaged(chooser, whole)
            read((0, chooser.within(whole - 1, whole + 1)), (0, count))
            SCRIPT.put((at, 1), NONE, [own])
        for _ in range(4):
            judged((0, chooser.within(0, whole)))
        lost = chooser.within(1, whole - 2)
        SCRIPT.fill(NONE, (0, count), chooser.x)
        SCRIPT.take((lost + 1, whole - lost - 1), (1000, whole - lost - 1))
        SCRIPT.keep((lost, whole - lost - 1), (1000, whole - lost - 1))
        judged((0, whole - 1))
        read((0, whole), (0, count))


def heads(name, chosen, seed):
    SCRIPT.heading(f"{name} of the generator, most of them with a number outside its range")
    chooser = Chooser(seed)
    for _ in range(250):
        data = chosen(chooser)
        SCRIPT.put((0, len(data)), NONE, data)
        judged((0, chooser.within(1, len(data))))


def main():
    desk("The desk's share", Head(3, 2, 2, 1, 1, 7), [0x11, 0x50])
    limits("Shares", LIMITS)
    outside("Numbers", [Head(*numbers) for numbers in OUTSIDE])
    sweeps("A small share", SMALL, ((Head(4, 2, 3, 1, 26, 258), 95), (Head(16, 15, 15, 16, 4096, 4294967295), 100)))
    places("Where the first wrong byte is: L found at its second byte, k too large, d below it, node too large, and several wrong",
           SMALL + [Head(16, 3, 5, 7, 256, 9)])
    damages("A share", chosen_head, 24, [1, 2, 5, 9, 16, 31, 33, 64], 81)
    heads("Heads", chosen_bytes, 11)
    desk("A preview's share", preview_head(3, 2, 1, 1, 7), [0x01, 0x10])
    limits("Shares of previews", PREVIEW_LIMITS)
    outside("Numbers of previews", [Head(*numbers, PREVIEWS) for numbers in PREVIEW_OUTSIDE])
    sweeps("A preview's small share", SMALL_PREVIEWS, ((preview_head(4, 4, 3, 120, 258), 95), (preview_head(16, 16, 16, 4096, 4294967295), 100)))
    places("Where the first wrong byte of a preview's share is: L found at its second byte, k above n, a d, node too large, another kind, and several wrong",
           SMALL_PREVIEWS + [preview_head(16, 16, 7, 256, 9)])
    damages("A preview's share", chosen_preview, 24, [1, 2, 5, 9, 16, 31, 33, 64], 82)
    heads("Heads of previews", chosen_preview_bytes, 13)
    longer_desk(SMALL_LONGER[0])
    limits("Shares of longer sequences", LONGER_LIMITS)
    longer_sweeps("A share of longer sequences", SMALL_LONGER)
    by_length()
    places("Where the first wrong byte of a share of longer sequences is: L found at its third byte or its fourth, another kind, and several wrong",
           SMALL_LONGER + [Head(16, 3, 5, 7, 4352, 9)])
    damages("A share of longer sequences", chosen_head, 12, [4097, 4098, 4100, 4127, 4128, 4160, 4352, 5000], 83)
    heads("Heads of longer sequences", chosen_longer_bytes, 15)
    SCRIPT.write("share_runs")


main()
