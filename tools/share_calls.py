"""The calls on shares as lines of a script (operations 21 to 29, docs/SCRIPTS.md), with what they answer and leave by documents 01 and 02 (docs/SCHEME.md,
9, 11 and 13) alone, for the models whose parts have them. tools/shares.py has what a share is.
"""
from groups import named
from script import NONE, SCRIPT
from shares import LONGER, PREVIEWS, REPAIRING, head_in, head_size, judge, share, swept, told


def letters_of(data):
    """The letters of a share: every body of a block, without the filler."""
    head = head_in(data)
    blocks = range(head_size(head.kind), len(data) - 5, 65)
    return b"".join(data[at + 1:at + 65] for at in blocks)[:head.total()]


def refusal(head):
    if not head.in_range():
        return 1
    if not head.length_in_range():
        return 2
    if not 1 <= head.node <= head.n:
        return 3
    return 0


# the calls: each makes its line, and leaves in B what the documents say (docs/SCHEME.md, 9 and 11). There are two of those that are handed a head, one for
# each code; that of the repairing code isn't handed the kind, which follows from L
WRITE = {REPAIRING: (21, "write"), LONGER: (21, "write"), PREVIEWS: (27, "write preview")}
BYTES = {REPAIRING: (22, "bytes"), LONGER: (22, "bytes"), PREVIEWS: (28, "preview bytes")}


def named_node(head):
    return f"{named(head)} node {head.node}"


def size(head):
    number = refusal(head)
    value = 0 if number else head.size()
    SCRIPT.line(*BYTES[head.kind], NONE, NONE, named_node(head), f": {number} value {value}")


def write(a, b, head):
    letters, out = SCRIPT.in_a(a), SCRIPT.in_b(b)
    number, value = refusal(head), 0
    if not number and len(letters) != head.total():
        number = 5
    if not number and len(out) != head.size():
        number = 6
    if not number:
        value = len(out)
        SCRIPT.into_b(b, share(head, letters))
    SCRIPT.line(*WRITE[head.kind], a, b, f"{named_node(head)} batch {head.batch}", f": {number} value {value}")


def judged(a):
    SCRIPT.line(23, "judge", a, NONE, "", ": " + told(judge(SCRIPT.in_a(a))))


def read(a, b):
    data, out = SCRIPT.in_a(a), SCRIPT.in_b(b)
    judgment = judge(data)
    if not judgment[0] and len(out) != judgment[1].total():
        judgment = 6, None
    if not judgment[0]:
        SCRIPT.into_b(b, letters_of(data))
    SCRIPT.line(24, "read", a, b, "", ": " + told(judgment))


def sweep(b, at):
    """What each byte that could stand at an index makes of the bytes."""
    SCRIPT.line(25, "sweep", NONE, b, f" at {at}", ": " + swept(SCRIPT.in_b(b), at))


def stand(a):
    """How many bytes from the front can stand."""
    data = SCRIPT.in_a(a)
    number, what = judge(data)
    SCRIPT.line(26, "stand", a, NONE, "", f": 0 value {what if number > 7 else len(data)}")


def judges_line(a):
    """The judge's line."""
    SCRIPT.line(29, "line", a, NONE, "", ": " + verdict(SCRIPT.in_a(a)))


def verdict(data):
    """What the judge writes for these bytes (docs/SCHEME.md, 13)."""
    if len(data) > 65536:
        return "too long for this program"
    number, what = judge(data)
    if number == 0:
        return f"complete {what.n} {what.k} {what.d} node {what.node} length {what.l} batch {what.batch} letters {what.total()}"
    return "unfinished" if number == 7 else f"malformed {number} at {what}"
