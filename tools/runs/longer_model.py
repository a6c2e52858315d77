#!/usr/bin/env python3
"""What the program crates/longer_runs must write, worked out from documents 01 and 02 (docs/SCHEME.md, 3 to 9, 11 and 16) alone, without the store's
code. The program reads nothing. From the root of the repository this makes its file crates/longer_runs/stdout again:

    tools/longer_model.py

A group's file is the generator's letters after its L. What nodes hold and send are document 01's sums (tools/sums.py). A recovery gives that file back, and
a repair what the lost node held: by the document nothing else has these pieces. Sequences of up to 65,536 letters are also solved by elimination, which must
agree. tools/shares.py has what a share is.
"""
import sys

sys.dont_write_bytecode = True
from elimination import checksum, generated
from groups import Group, bad_length
from script import listed
from shares import Head, judge, share, told
from sums import buffer_of, file_letters, helper_piece, packets, packets_sum, recovered, recovery_count, repair_count, repaired

LINES = []

# the number of every file
BATCH = 7

# the longest sequences that are solved by elimination: those of 1,048,576 letters would take half a minute and 1.7 GB
SOLVED = 65536


# what the calls answer


def file_of(g):
    """Where L is out of range there is none: its length is refused."""
    return b"" if bad_length(g) else bytes(generated(file_letters(g), g.l))


def call(g, words, answer):
    """A call's line. `answer` gives its value and the letters that it leaves. Where L is out of range the call is refused by 2, and so are the lengths of
    what it would be lent: then there are no letters."""
    number, (value, letters) = (2, (0, b"")) if bad_length(g) else (0, answer())
    LINES.append(f"{words}: {number} value {value} sum {checksum(letters)}")
    return letters


def judged(words, data):
    """The judgment of bytes is the same whether they are there at once, are read or arrive (docs/SCHEME.md, 11 and 16)."""
    LINES.append(f"{words}: {told(judge(data))}")


def encode(g, node, file):
    return call(g, f"encode {node}", lambda: (0, packets(g, file, node)))


def write(g, node, held):
    head = Head(g.n, g.k, g.d, node, g.l, BATCH)
    return call(g, "write", lambda: (head.size(), share(head, held)))


def recover(g, ids, file):
    """From what these nodes send comes the file."""

    def answer():
        assert g.l > SOLVED or recovered(g, ids, buffer_of(g, ids, file), None) == file
        return recovery_count(g, ids, file), file

    call(g, "recover", answer)


def assist(g, lost, helper, rank, held):
    return call(g, "help", lambda: (0, helper_piece(g, lost, helper, rank, held)))


def repair(g, lost, helpers, file, sent):
    """From what the helpers sent comes what the lost node held."""

    def answer():
        made = packets(g, file, lost)
        assert g.l > SOLVED or repaired(g, lost, helpers, sent) == made
        return repair_count(g, lost, helpers, made), made

    call(g, "repair", answer)


# what the program does with a group


def store(g, node, file):
    """A node's packets are written as a share. It is judged whole, cut by a byte and with one more, whatever that is; read; and judged as it arrives, without
    its last byte and whole. Of no bytes nothing is cut, and nothing arrives."""
    held = encode(g, node, file)
    data = write(g, node, held)
    judged("judge", data)
    if data:
        judged("cut", data[:-1])
        judged("lengthened", data + b"\0")
    judged("read", data)
    LINES.append(f"letters sum {checksum(held)}")
    if data:
        judged("nearly", data[:-1])
        judged("arrived", data)


def collect(g, ids, file):
    """The nodes are encoded from the last to the first."""
    for node in reversed(ids):
        encode(g, node, file)
    recover(g, ids, file)


def rebuild(g, lost, helpers, file):
    sent = b""
    for rank, helper in enumerate(helpers, 1):
        held = encode(g, helper, file)
        sent += assist(g, lost, helper, rank, held)
        # the sum that a helper makes is also that of the lost node's packets, moved by the helper's shifts (docs/SCHEME.md, 7): so they solve the system
        assert bad_length(g) or packets_sum(g, held, lost) == packets_sum(g, packets(g, file, lost), helper)
    repair(g, lost, helpers, file, sent)


def night(g, ids, lost, helpers):
    LINES.append(listed("group", g))
    file = file_of(g)
    store(g, lost, file)
    collect(g, ids, file)
    rebuild(g, lost, helpers, file)


def main():
    for length in (4096, 4097, 65535, 65536, 1048576, 1048577):
        night(Group(3, 2, 2, length), [3, 1], 2, [3, 1])
    for length in (4096, 4097, 65535, 65536):
        night(Group(5, 3, 4, length), [5, 3, 2], 4, [5, 3, 2, 1])
    with open("crates/longer_runs/stdout", "w") as out:
        out.write("\n".join(LINES) + "\n")
    print(f"longer_runs: {len(LINES)} lines", file=sys.stderr)


main()
