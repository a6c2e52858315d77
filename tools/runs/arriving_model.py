#!/usr/bin/env python3
"""The script that crates/arriving_runs runs and what it must write, worked out from documents 01 and 02 (docs/SCHEME.md, 9 and 11) alone, without
the store's code. From the root of the repository this makes both files again, crates/arriving_runs/stdin and stdout:

    tools/arriving_model.py

A state is worked out from all bytes so far and never from a state before: their judgment (tools/shares.py) tells the first byte that can't
stand and how it is refused, and the head's numbers are read off the bytes before it. Whether any bytes lead to nine numbers is found
out by writing such bytes down and looking at the state that they have. tools/script.py has the memories.
"""
import sys

sys.dont_write_bytecode = True
from script import NONE, Chooser, Script, listed
from shares import (AFTER, ANY, KIND, KINDS, LONGER, PREVIEWS, REPAIRING, Head, chosen_bytes, chosen_head, chosen_longer_bytes, chosen_preview,
                    chosen_preview_bytes, digit, head_in, head_size, judge, length_bytes, number, preview_head, runs, share, short, swept, told)

SCRIPT = Script(600000)
ONES = 2**64 - 1
WORDS = 9
AT, WRONG, N, K, D, NODE, L, BATCH, HEAD_KIND = range(WORDS)


# the state of bytes, and the bytes of a state


def state_of(data):
    """The nine words after these bytes: how many can stand, how the next is refused (0: it isn't), and the head's numbers with its kind last, where a
    byte that isn't in, or can't stand, counts as 0."""
    found, place = judge(data)
    at, wrong = (place, found) if found >= KIND else (len(data), 0)
    return [at, wrong, *known(data[:at])]


def known(data):
    """The head as far as its bytes are in; no kind has more than 13."""
    return head_in(bytes(data[:13]).ljust(13, b"\0"))


def fitting(words):
    """Bytes, as many as the state says, whose head has its numbers: nothing where such a head isn't written, or no share is so long."""
    at, head = words[AT], Head(*words[N:])
    if max(head.n, head.k, head.d, head.node, head.kind) > 255 or head.l >= 256 ** length_bytes(head.kind) or head.batch >= 256**4:
        return None
    if at <= head_size(head.kind):
        return bytes(head.record()[:at])
    if head.kind not in KINDS or not head.in_range() or not 1 <= head.node <= head.n or not head.length_in_range():
        return None
    return share(head, bytes(head.total()))[:at] if at <= head.size() else None


def leading(words):
    """Bytes that lead to a state, or nothing where none do. What could lead there is written down, and looked at: first those that can stand."""
    if words[WRONG] not in (0, *range(KIND, AFTER + 1)):
        return None
    data = fitting(words)
    if data is None or state_of(data) != [words[AT], 0, *words[N:]]:
        return None
    for last in [bytes([byte]) for byte in ANY] if words[WRONG] else [b""]:
        if state_of(data + last) == words:
            return data + last
    return None


class State:
    """Nine words, and some bytes that lead to them, if any do."""

    def __init__(self, words, lead):
        self.words, self.lead = words, lead

    def after(self, data):
        if self.lead is None:
            return self
        lead = self.lead + bytes(data)
        return State(state_of(lead), lead)

    def with_word(self, i, value):
        words = self.words[:i] + [value] + self.words[i + 1:]
        return State(words, leading(words))

    def judged(self):
        return (KIND, 0) if self.lead is None else judge(self.lead)

    def coming(self):
        """The judgment of bytes that can't become a share, 7 while the head isn't in, and else the head and the bytes of the whole share."""
        if self.judged()[0] >= KIND:
            return told(self.judged())
        if len(self.lead) < head_size(self.words[HEAD_KIND]):
            return "7"
        head = Head(*self.words[N:])
        return told((0, head)) + f" bytes {head.size()}"

    def answers(self):
        good = 0 if self.lead is None else self.words[AT]
        reached = "not reached" if self.lead is None else "reached"
        return f" {reached} judged {told(self.judged())} coming {self.coming()} good {good}"

    def told(self):
        return listed(" state", self.words) + self.answers()


def start_state():
    return State(state_of(b""), b"")


# the operations: each makes its line


KEPT = [start_state()]


def shown(number, name, a, words, first, state):
    """A line with what is told first, and then of the state that it ends in."""
    SCRIPT.line(number, name, a, NONE, words, ":" + first + state.told())


def kept(number, name, a, words, first, state):
    shown(number, name, a, words, first, state)
    KEPT[0] = state


def start(a):
    kept(31, "start", a, "", "", start_state().after(SCRIPT.in_a(a)))


def burst(a):
    kept(32, "burst", a, "", "", KEPT[0].after(SCRIPT.in_a(a)))


def digits(beginnings):
    return "".join(digit(judge(data)) for data in beginnings)


def bursts(a, size):
    """A digit after each burst."""
    data = SCRIPT.in_a(a)
    ends = [min(end, len(data)) for end in range(max(size, 1), len(data) + max(size, 1), max(size, 1))]
    kept(33, "bursts", a, f" of {size}", digits(data[:end] for end in ends), start_state().after(data))


def said(i, value):
    assert 0 <= value <= ONES
    return f" word {i} is {value >> 32} {value % 2**32}"


def forge(i, value):
    kept(34, "forge", NONE, said(i, value), "", KEPT[0].with_word(i, value))


def aside(a, i, value):
    forged = KEPT[0].with_word(i, value)
    shown(35, "aside", a, said(i, value), forged.answers(), forged.after(SCRIPT.in_a(a)))


def cuts(a):
    """A digit for the first burst of each cut. All states at the end are the one after a single burst, so there is no mark."""
    data = SCRIPT.in_a(a)
    shown(36, "cuts", a, "", digits(data[:cut] for cut in range(len(data))), start_state().after(data))


def found(state):
    """A state's judgment, or `none` where no bytes lead there."""
    return "none" if state.lead is None else short(state.judged())


def sweep():
    SCRIPT.line(37, "sweep", NONE, NONE, "", ": " + runs([found(KEPT[0].after([byte])) for byte in ANY]))


def change(a, at, size):
    """Every byte at an index, and all bytes in bursts of a size: how they are cut makes no difference."""
    SCRIPT.line(38, "change", a, NONE, f" at {at} of {size}", ": " + swept(SCRIPT.in_a(a), at))


def word(i):
    """Each number below 256 as a word of the state."""
    SCRIPT.line(39, "word", NONE, NONE, f" {i}", ": " + runs([found(KEPT[0].with_word(i, value)) for value in ANY]))


# shares in A. B has zeros from ZEROS on, and a block that is laid again and again from 0 on

ZEROS = 500000


def laid(head, seed):
    """A share at the start of A; each of its blocks has the letters of the generator. The answer is how many bytes it has."""
    letters, front = head.total(), head_size(head.kind)
    full, whole = letters // 64, head.size()
    SCRIPT.put((0, front), NONE, head.record())
    if full:
        SCRIPT.fill((front, 65), NONE, seed)
        SCRIPT.put((front, 1), NONE, [2])
    done = 1
    while done < full:
        more = min(done, full - done)
        SCRIPT.take((front, 65 * more), (0, 65 * more))
        SCRIPT.keep((front + 65 * done, 65 * more), (0, 65 * more))
        done += more
    laid_after(front + 65 * full, letters, seed + 1)
    data = SCRIPT.in_a((0, whole))
    bodies = [data[at + 1:at + 65] for at in range(front, whole - 5, 65)]
    assert data == share(head, b"".join(bodies)[:letters])
    return whole


def laid_after(at, letters, seed):
    """What a share of so many letters has behind its full blocks, and a byte more."""
    left = letters % 64
    if left:
        SCRIPT.fill((at, 65), NONE, seed)
        SCRIPT.put((at, 1), NONE, [3])
        SCRIPT.keep((at + 1 + left, 64 - left), (ZEROS, 64 - left))
        at += 65
    SCRIPT.put((at, 6), NONE, [4] + number(letters, 4) + [0])


def kinds(head):
    """An index of each kind of byte by its name, in a share with this head."""
    letters, front = head.total(), head_size(head.kind)
    full, left, whole = letters // 64, letters % 64, head.size()
    found = {"kind": [0], "n": [1], "k": [2], "d": [3], "node": [4], "L": list(range(5, front - 4)), "batch": list(range(front - 4, front))}
    if full:
        found.update({"full block": [front], "letter": [front + 1, front + 64]})
    if full > 1:
        found["another block"] = [front + 65 * (full - 1)]
    if left:
        last = front + 65 * full
        found.update({"last block": [last], "its letters": [last + 1, last + left]})
        found["fill"] = sorted({last + 1 + left, last + 64})
    found.update({"end": [whole - 5], "total": list(range(whole - 4, whole)), "after": [whole]})
    return found


# T leaves 0, 1 and 63 over 64 with as few blocks as there can be, and with more; then few letters, and a group in which no two numbers are the same
SHARES = [
    Head(3, 2, 2, 1, 32, 1), Head(6, 2, 5, 1, 13, 16909060), Head(4, 2, 3, 1, 21, 4294967295),
    Head(4, 2, 3, 1, 64, 256), Head(4, 2, 3, 1, 43, 65536), Head(4, 3, 3, 2, 83, 16777216),
    Head(3, 2, 2, 1, 1, 7), Head(7, 3, 4, 5, 6, 0),
]
LONG = Head(16, 15, 15, 16, 4096, 305419896)

# the same of previews, with k below n and k = n
PREVIEW_SHARES = [
    preview_head(4, 3, 2, 60, 1), preview_head(6, 6, 5, 40, 16909060), preview_head(5, 2, 3, 60, 4294967295),
    preview_head(4, 4, 4, 180, 256), preview_head(4, 4, 4, 181, 65536), preview_head(4, 3, 1, 189, 16777216),
    preview_head(3, 2, 1, 1, 7), preview_head(7, 3, 5, 6, 0),
]
LONG_PREVIEW = preview_head(16, 16, 16, 4096, 305419896)

# the smallest share of longer sequences; T leaves 0, 1 and 63 over 64; one in which no two numbers are the same, and the longest that a memory has room for
LONGER_SHARES = [
    Head(3, 2, 2, 1, 4097, 1), Head(3, 2, 2, 1, 4128, 256), Head(4, 2, 3, 1, 4139, 16909060), Head(4, 2, 3, 1, 4117, 4294967295), Head(7, 3, 4, 5, 4358, 0),
]
LONG_LONGER = Head(16, 15, 15, 16, 39000, 305419896)


def whole_shares(shares):
    for seed, head in enumerate(shares, 1):
        SCRIPT.heading("A share in one burst, byte by byte with empty bursts between, in longer bursts, with a judgment after each byte, cut in two everywhere")
        whole, front = laid(head, 10 * seed), head_size(head.kind)
        start((0, whole))
        for size in (1, 2, 7, 64, 65):
            bursts((0, whole), size)
        bursts((0, whole + 1), 1)
        for count in (whole, whole + 1, whole - 1, front, front - 4):
            cuts((0, count))
        start(NONE)
        for at, count in ((0, 1), (1, 5), (6, 0), (6, front - 6), (front, 0), (front, whole - front - 5), (whole - 5, 5), (0, 0), (whole, 1), (0, whole)):
            burst((at, count))


def with_byte(at, byte, act):
    """Another byte in A for a while."""
    own = SCRIPT.a[at]
    SCRIPT.put((at, 1), NONE, [byte])
    act()
    SCRIPT.put((at, 1), NONE, [own])


def others(head, at):
    """Other bytes for an index: one more than its own, and among the head's numbers also one less and what is outside of all ranges; and the other kinds."""
    own = SCRIPT.a[at]
    some = [0, 1, 17, own + 1, own - 1] if at < head_size(head.kind) - 4 else [own + 1]
    return sorted({byte % 256 for byte in some + (list(KINDS) if at == 0 else [])} - {own})


def malformed(shares):
    """The first three are cut everywhere, which tells the state after one burst too; of the others each byte is a burst."""
    for place in (0, 1, 2, 5, 6):
        SCRIPT.heading("A share with another byte at each kind of place")
        whole = laid(shares[place], 10 * place)

        def each():
            if place < 3:
                cuts((0, whole))
            else:
                start((0, whole))
                bursts((0, whole), 1)

        for at in [at for some in kinds(shares[place]).values() for at in some if at < whole]:
            for byte in others(shares[place], at):
                with_byte(at, byte, each)


def longer_malformed(shares):
    """The head is cut everywhere, and all of the share comes in bursts."""
    for head in shares:
        SCRIPT.heading("A share of longer sequences with another byte at each kind of place")
        whole, front = laid(head, 3), head_size(head.kind)

        def each():
            cuts((0, front + 3))
            start((0, whole))
            bursts((0, whole), 1000)

        for at in [at for some in kinds(head).values() for at in some if at < whole]:
            for byte in others(head, at):
                with_byte(at, byte, each)


# the lengths of bursts, so that a changed byte is now the first of one, now in the middle, now the last
SIZES = [2, 3, 5, 7, 13, 64, 65, 100]


def changed(shares):
    for head in shares[:3]:
        SCRIPT.heading("A small share, each of its bytes as each other byte, in bursts of one byte and of several")
        whole = laid(head, 7)
        for at in range(whole):
            change((0, whole), at, 1)
            change((0, whole), at, SIZES[at % len(SIZES)])
        change((0, whole + 1), whole, 1)
        change((0, whole + 1), whole, whole)
        change((0, whole + 9), whole, 4)


def longer_changed(shares):
    """Its beginning with a block's kind and a letter, which comes in bursts of one byte too, and all of it, which comes in longer ones."""
    sizes = [64, 65, 100, 1000, 4096, 5000, 8192, 65536]
    for head in shares:
        SCRIPT.heading("A share of longer sequences, each byte of its head as each other byte, and others behind it, in bursts of one byte and of several")
        whole, front = laid(head, 7), head_size(head.kind)
        for at in range(front + 2):
            change((0, front + 2), at, 1)
            change((0, front + 2), at, SIZES[at % 4])
            change((0, at + 1), at, 4)
        for at in sorted({at for some in kinds(head).values() for at in some if at < whole}):
            change((0, whole), at, sizes[at % len(sizes)])
        change((0, whole + 1), whole, 65)
        change((0, whole + 1), whole, whole)
        change((0, whole + 9), whole, 4)


def wrong_numbers(shares):
    for head in shares[:2]:
        SCRIPT.heading("Every number as that of a wrong byte, after each byte of a share, and after its end")
        whole = laid(head, 8)
        start(NONE)
        for at in range(whole):
            word(WRONG)
            burst((at, 1))
        word(WRONG)
        word(AT)


def longer_wrong_numbers(head):
    SCRIPT.heading("Every number as that of a wrong byte, and as the number of bytes, at each kind of place in a share of longer sequences")
    laid(head, 8)
    start(NONE)
    done = 0
    for at in sorted(at for some in kinds(head).values() for at in some):
        burst((done, at - done))
        done = at
        word(WRONG)
        word(AT)


def sweeps(shares):
    for head in shares:
        SCRIPT.heading("Every byte as the next, at each kind of place")
        laid(head, 4)
        start(NONE)
        done = 0
        for at in sorted(at for some in kinds(head).values() for at in some):
            burst((done, at - done))
            done = at
            sweep()
        burst((done, 2))
        sweep()


def changes(value):
    """Another number for a word: one more, one less, none and all ones."""
    some = dict.fromkeys([(value + 1) % 2**64, (value - 1) % 2**64, 0, ONES])
    return [other for other in some if other != value]


def each_word(rest):
    for i, value in enumerate(KEPT[0].words):
        for other in changes(value):
            aside(rest, i, other)


def forged(head):
    """T leaves 1 over 64, and there is a full block."""
    SCRIPT.heading("Each word of a state changed, after so many bytes of a share; then the rest of the share")
    whole, front = laid(head, 5), head_size(head.kind)
    last = whole - 70
    for at in (*range(front + 2), 40, last, last + 1, last + 2, last + 24, whole - 5, whole - 4, whole - 1, whole):
        start((0, at))
        each_word((at, whole - at))
        for i in range(WORDS):
            word(i)
    SCRIPT.heading("The same after a wrong byte")
    numbers = [(0, 2), (1, 17), (2, 1), (3, 6), (4, 7)] + ([(7, 17), (8, 1)] if head.kind == LONGER else [(6, 17)])
    for at, byte in (*numbers, (front, 3), (last, 2), (last + 24, 9), (whole - 5, 3), (whole - 4, 0), (whole - 1, 1), (whole, 4)):

        def each():
            start((0, at + 1))
            each_word((at + 1, 7))
            word(AT)
            word(WRONG)

        with_byte(at, byte, each)


def wide(head):
    SCRIPT.heading("Numbers that are too wide for their bytes, and would be right without what is too much; where no byte of them is in, too")
    whole, front = laid(head, 5), head_size(head.kind)
    for at in (0, 1, 5, front, whole):
        start((0, at))
        for i, value in enumerate(KEPT[0].words):
            for more in (256, 65536, 2**32, 2**63):
                aside((at, whole - at), i, value + more)


def at_ends(head):
    SCRIPT.heading("The number of bytes forged: at the end of the share, past it, and as large as it can be")
    whole, front = laid(head, 6), head_size(head.kind)
    start((0, 30))
    for at in (0, front, 29, whole - 1, whole, whole + 1, whole + 65, 65666, 65667, 2**32 + 30, 2**63, ONES - 64, ONES - 1, ONES):
        aside((30, whole - 30), AT, at)
    burst((30, whole - 30))
    SCRIPT.heading("All words alike, one after the other")
    for value in (0, 1, ONES, 2, KIND, AFTER, PREVIEWS, LONGER, 7):
        start(NONE)
        for i in range(WORDS):
            forge(i, value)
        burst((0, whole))
        sweep()


# the two sides of each limit: the ranges, and what a number's bytes can hold
LIMITS = {N: (2, 3, 16, 17, 255, 256), K: (1, 2, 3, 4, 255, 256), D: (1, 2, 3, 4, 255, 256), NODE: (0, 1, 4, 5, 255, 256),
          L: (0, 1, 255, 256, 4095, 4096, 4097, 65535, 65536, 1048576, 2**32), BATCH: (2**32 - 1, 2**32), WRONG: (1, 7, 8, 9, 10, 11, 12, 13),
          HEAD_KIND: (0, 1, 2, 4, 5, 6, 7, 255, 256)}
PREVIEW_LIMITS = {**LIMITS, K: (1, 2, 5, 6, 255, 256), D: (1, 2, 5, 255, 256), NODE: (0, 1, 5, 6, 255, 256)}
LONGER_LIMITS = {**LIMITS, L: (0, 1, 255, 256, 4095, 4096, 4097, 4098, 65535, 65536, 65537, 1048575, 1048576, 1048577, 1048832, 2**24 - 1, 2**24, 2**24 + 4097,
                               2**32 - 1, 2**32, 2**32 + 4097)}


def limits(head, each):
    SCRIPT.heading("Each number at its limits: in the middle of a block, with the head just in, and where it is the last that is in")
    laid(head, 6)
    front = head_size(head.kind)
    for i, values in each.items():
        last = {N: 2, K: 3, D: 4, NODE: 5, L: front - 4, BATCH: front, WRONG: 6, HEAD_KIND: 1}[i]
        for at in dict.fromkeys((30, front, last)):
            start((0, at))
            for value in values:
                if value != KEPT[0].words[i]:
                    aside((at, 3), i, value)


def partly():
    """The word of L holds those of its bytes that are in, and nothing above them. Here it has fewer of them or more, one of its bytes is another, and the last
    number below the range stands there; and the head has another kind."""
    SCRIPT.heading("L as a word of the state while its bytes come in: with fewer of them and more, with others, and with other kinds")
    for length in (4097, 65536, 1048575, 1048576):
        SCRIPT.put((0, 15), NONE, Head(3, 2, 2, 1, length, 7).record() + [2, 9])
        for at in (0, 1, *range(5, 15)):
            start((0, at))
            own = KEPT[0].words[L]
            values = [length % 256**count for count in range(5)] + [own + 256**count for count in range(6)] + [4096]
            for value in dict.fromkeys(values):
                if value != own:
                    aside((at, 15 - at), L, value)
            for kind in (REPAIRING, PREVIEWS, 7):
                aside((at, 15 - at), HEAD_KIND, kind)
            word(L)
            word(HEAD_KIND)


def largest(head):
    """A share too long for a memory: its head comes in, the number of its bytes is forged, and then what stands at its end comes in. Zeros are as good as any
    letters."""
    SCRIPT.heading("The longest sequences: a share that is too long for a memory, from near its end on")
    letters, whole, front = head.total(), head.size(), head_size(head.kind)
    behind = front + 65 * (letters // 64)
    SCRIPT.put((0, front + 2), NONE, head.record() + [2, 9])
    laid_after(100, letters, 9)
    for count in (front - 1, front, front + 2):
        start((0, count))
    for at in (behind - 65, behind - 1, behind, behind + 1, whole - 5, whole - 4, whole - 1, whole):
        aside((100 + max(0, at - behind), whole - max(at, behind)), AT, at)
    for at, count in ((behind, whole - behind + 1), (behind, 4), (behind - 1, 3), (behind - 64, 70)):
        aside((100, count), AT, at)
    for at in (whole + 1, whole + 65, 2 * whole):
        aside((100, 6), AT, at)
    aside((100, 6), L, head.l + 1)
    forge(AT, whole)
    for i, value in ((L, head.l - 1), (L, head.l + 1), (N, head.n - 1), (BATCH, 9), (HEAD_KIND, REPAIRING), (WRONG, AFTER)):
        aside((105, 1), i, value)
    burst((105, 2))


def chosen_states(chosen, lengths, seed):
    SCRIPT.heading("States of the generator, some of them of a share: each word forged, then bytes after it")
    chooser = Chooser(seed)
    for _ in range(30):
        head = chosen(chooser, lengths)
        size, front = head.size(), head_size(head.kind)
        blocks = (size - front - 5) // 65
        at = chooser.one_of([chooser.within(0, front), chooser.within(front, size), front + 65 * chooser.within(0, blocks), size - chooser.within(0, 5), size + 1])
        if chooser.chance(3):
            place = chooser.within(0, 4)
            head = head._replace(**{head._fields[place]: max(0, head[place] + chooser.one_of([-1, 1]))})
        if at < front and not chooser.chance(4):
            head = known(head.record()[:at])
        words = [at, chooser.one_of([0, 0, 0, 0, 1, KIND, KIND, 9, 10, 11, AFTER]), *head]
        SCRIPT.put((0, 5), NONE, [chooser.one_of([0, 1, 2, 3, 4]), chooser.within(0, 4), 0, 0, chooser.within(0, 255)])
        start(NONE)
        changed = [i for i in (HEAD_KIND, *range(HEAD_KIND)) if words[i]]
        for i in changed[:-1]:
            forge(i, words[i])
        for i in changed[-1:]:
            aside((0, chooser.within(1, 5)), i, words[i])


def heads(name, chosen, seed):
    SCRIPT.heading(f"{name} of the generator, most of them with a number outside its range")
    chooser = Chooser(seed)
    for _ in range(100):
        data = chosen(chooser)
        SCRIPT.put((0, len(data)), NONE, data)
        bursts((0, chooser.within(1, len(data))), chooser.within(0, 5))


def long(name, head, sizes, middle):
    SCRIPT.heading(name)
    whole, front = laid(head, 8), head_size(head.kind)
    start((0, front))
    burst((front, whole - front))
    for size in sizes:
        bursts((0, whole), size)
    burst((0, 1))
    bursts((0, whole - 1), 4096)
    burst((whole - 1, 2))
    SCRIPT.heading("The same with a wrong byte")
    for at in (front + 65 * middle, whole - 70, whole - 30, whole - 5, whole - 2):

        def each():
            start((0, whole))
            bursts((0, whole), 4096)

        with_byte(at, 9, each)


# the lengths of bursts in which a long share comes
LONG_SIZES = (7, 64, 65, 4096, 65535)


def main():
    whole_shares(SHARES)
    malformed(SHARES)
    changed(SHARES)
    wrong_numbers(SHARES)
    sweeps([SHARES[0], SHARES[1], SHARES[4], SHARES[6]])
    forged(SHARES[1])
    wide(SHARES[1])
    at_ends(SHARES[2])
    limits(SHARES[2], LIMITS)
    chosen_states(chosen_head, [1, 2, 5, 9, 16, 21, 33, 64, 255, 256, 4096], 31)
    heads("Heads", chosen_bytes, 12)
    long("The longest share with two bytes of L", LONG, LONG_SIZES, 500)
    SCRIPT.heading("Shares of previews")
    whole_shares(PREVIEW_SHARES)
    malformed(PREVIEW_SHARES)
    changed(PREVIEW_SHARES)
    wrong_numbers(PREVIEW_SHARES[:1])
    sweeps([PREVIEW_SHARES[0], PREVIEW_SHARES[1], PREVIEW_SHARES[4], PREVIEW_SHARES[6]])
    forged(PREVIEW_SHARES[1])
    wide(PREVIEW_SHARES[1])
    at_ends(PREVIEW_SHARES[2])
    limits(PREVIEW_SHARES[2], PREVIEW_LIMITS)
    chosen_states(chosen_preview, [1, 2, 5, 9, 16, 21, 33, 64, 255, 256, 4096], 32)
    heads("Heads of previews", chosen_preview_bytes, 14)
    long("The longest share of a preview", LONG_PREVIEW, LONG_SIZES, 30)
    SCRIPT.heading("Shares of longer sequences")
    whole_shares(LONGER_SHARES[:1])
    longer_malformed(LONGER_SHARES)
    longer_changed(LONGER_SHARES)
    longer_wrong_numbers(LONGER_SHARES[0])
    sweeps(LONGER_SHARES)
    forged(LONGER_SHARES[2])
    wide(LONGER_SHARES[2])
    at_ends(LONGER_SHARES[3])
    limits(LONGER_SHARES[3], LONGER_LIMITS)
    partly()
    chosen_states(chosen_head, [4097, 4098, 4127, 4128, 4352, 5000, 65535, 65536], 33)
    heads("Heads of longer sequences", chosen_longer_bytes, 16)
    for head in LONGER_SHARES[1:]:
        long("A share of longer sequences", head, LONG_SIZES, 100)
    long("A share with more letters than two bytes of L can give it", LONG_LONGER, (4096, 65535, 65536, 600000), 5000)
    largest(Head(3, 2, 2, 1, 1048576, 16909060))
    largest(Head(16, 15, 15, 16, 1048576, 4294967295))
    SCRIPT.write("arriving_runs")


main()
