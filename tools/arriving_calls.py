"""What a script does with the state of the reader of bursts (operations 31 to 39, docs/SCRIPTS.md), by documents 01 and 02 (docs/SCHEME.md, 9, 11 and 16) alone,
for the models whose parts have it.

A state is worked out from all bytes so far and never from a state before: their judgment (tools/shares.py) tells the first byte that can't
stand and how it is refused, and the head's numbers are read off the bytes before it. Whether any bytes lead to nine numbers is found
out by writing such bytes down and looking at the state that they have.
"""
from script import NONE, SCRIPT, listed
from shares import AFTER, ANY, KIND, KINDS, Head, digit, head_in, head_size, judge, length_bytes, runs, share, short, swept, told

ONES = 2**64 - 1
WORDS = 9
AT, WRONG, N, K, D, NODE, L, BATCH, HEAD_KIND = range(WORDS)


# the state of bytes, and the bytes of a state


def state_of(data):
    """The nine words after these bytes: how many can stand, how the next is refused (0: it isn't), and the head's numbers with its kind last, where a
    byte that isn't in, or can't stand, counts as 0."""
    found, place = judge(data)
    at, wrong = (place, found) if found >= KIND else (len(data), 0)
    return [at, wrong, *known(data[:at])]


def known(data):
    """The head as far as its bytes are in; no kind has more than 13."""
    return head_in(bytes(data[:13]).ljust(13, b"\0"))


def fitting(words):
    """Bytes, as many as the state says, whose head has its numbers: nothing where such a head isn't written, or no share is so long."""
    at, head = words[AT], Head(*words[N:])
    if max(head.n, head.k, head.d, head.node, head.kind) > 255 or head.l >= 256 ** length_bytes(head.kind) or head.batch >= 256**4:
        return None
    if at <= head_size(head.kind):
        return bytes(head.record()[:at])
    if head.kind not in KINDS or not head.in_range() or not 1 <= head.node <= head.n or not head.length_in_range():
        return None
    return share(head, bytes(head.total()))[:at] if at <= head.size() else None


def leading(words):
    """Bytes that lead to a state, or nothing where none do. What could lead there is written down, and looked at: first those that can stand."""
    if words[WRONG] not in (0, *range(KIND, AFTER + 1)):
        return None
    data = fitting(words)
    if data is None or state_of(data) != [words[AT], 0, *words[N:]]:
        return None
    for last in [bytes([byte]) for byte in ANY] if words[WRONG] else [b""]:
        if state_of(data + last) == words:
            return data + last
    return None


class State:
    """Nine words, and some bytes that lead to them, if any do."""

    def __init__(self, words, lead):
        self.words, self.lead = words, lead

    def after(self, data):
        if self.lead is None:
            return self
        lead = self.lead + bytes(data)
        return State(state_of(lead), lead)

    def with_word(self, i, value):
        words = self.words[:i] + [value] + self.words[i + 1:]
        return State(words, leading(words))

    def judged(self):
        return (KIND, 0) if self.lead is None else judge(self.lead)

    def coming(self):
        """The judgment of bytes that can't become a share, 7 while the head isn't in, and else the head and the bytes of the whole share."""
        if self.judged()[0] >= KIND:
            return told(self.judged())
        if len(self.lead) < head_size(self.words[HEAD_KIND]):
            return "7"
        head = Head(*self.words[N:])
        return told((0, head)) + f" bytes {head.size()}"

    def answers(self):
        good = 0 if self.lead is None else self.words[AT]
        reached = "not reached" if self.lead is None else "reached"
        return f" {reached} judged {told(self.judged())} coming {self.coming()} good {good}"

    def told(self):
        return listed(" state", self.words) + self.answers()


def start_state():
    return State(state_of(b""), b"")


# the operations: each makes its line


KEPT = [start_state()]


def shown(number, name, a, words, first, state):
    """A line with what is told first, and then of the state that it ends in."""
    SCRIPT.line(number, name, a, NONE, words, ":" + first + state.told())


def kept(number, name, a, words, first, state):
    shown(number, name, a, words, first, state)
    KEPT[0] = state


def start(a):
    kept(31, "start", a, "", "", start_state().after(SCRIPT.in_a(a)))


def burst(a):
    kept(32, "burst", a, "", "", KEPT[0].after(SCRIPT.in_a(a)))


def digits(beginnings):
    return "".join(digit(judge(data)) for data in beginnings)


def bursts(a, size):
    """A digit after each burst."""
    data = SCRIPT.in_a(a)
    ends = [min(end, len(data)) for end in range(max(size, 1), len(data) + max(size, 1), max(size, 1))]
    kept(33, "bursts", a, f" of {size}", digits(data[:end] for end in ends), start_state().after(data))


def said(i, value):
    assert 0 <= value <= ONES
    return f" word {i} is {value >> 32} {value % 2**32}"


def forge(i, value):
    kept(34, "forge", NONE, said(i, value), "", KEPT[0].with_word(i, value))


def aside(a, i, value):
    forged = KEPT[0].with_word(i, value)
    shown(35, "aside", a, said(i, value), forged.answers(), forged.after(SCRIPT.in_a(a)))


def cuts(a):
    """A digit for the first burst of each cut. All states at the end are the one after a single burst, so there is no mark."""
    data = SCRIPT.in_a(a)
    shown(36, "cuts", a, "", digits(data[:cut] for cut in range(len(data))), start_state().after(data))


def found(state):
    """A state's judgment, or `none` where no bytes lead there."""
    return "none" if state.lead is None else short(state.judged())


def sweep():
    SCRIPT.line(37, "sweep", NONE, NONE, "", ": " + runs([found(KEPT[0].after([byte])) for byte in ANY]))


def change(a, at, size):
    """Every byte at an index, and all bytes in bursts of a size: how they are cut makes no difference."""
    SCRIPT.line(38, "change", a, NONE, f" at {at} of {size}", ": " + swept(SCRIPT.in_a(a), at))


def word(i):
    """Each number below 256 as a word of the state."""
    SCRIPT.line(39, "word", NONE, NONE, f" {i}", ": " + runs([found(KEPT[0].with_word(i, value)) for value in ANY]))
