#!/usr/bin/env python3
"""The part `the judge's lines` of the script that crates/trials runs and what it must write, worked out from document 01 (docs/SCHEME.md, 9, 11 and 13) alone,
without the library's code. From the root of the repository this makes the part again, in crates/trials/stdin and stdout:

    tools/verdict_model.py

The judge's line for every kind of bytes: the examples P9 to P12, each thing that can be wrong, a preview's share, the largest numbers, longer sequences, and
the two sides of 65,536 bytes. tools/shares.py judges the bytes, and tools/share_calls.py has the line.
"""
import sys

sys.dont_write_bytecode = True
from script import NONE, SCRIPT
from share_calls import judges_line, write
from shares import LONGER, PREVIEWS, REPAIRING, Head, preview_head

# A has a share at its start, and from here on the letters that shares are made of
LETTERS = 200000


def made(head):
    """A share of the letters from LETTERS on, at the start of A. The answer is how many bytes it has."""
    whole = head.size()
    write((LETTERS, head.total()), (0, whole), head)
    SCRIPT.keep((0, whole), (0, whole))
    return whole


def changed(whole, at, byte):
    """Another byte for a while."""
    own = SCRIPT.a[at]
    SCRIPT.put((at, 1), NONE, [byte])
    judges_line((0, whole))
    SCRIPT.put((at, 1), NONE, [own])


def examples():
    SCRIPT.heading("The desk's share, without its last byte, with one byte more, and no bytes")
    SCRIPT.put((LETTERS, 2), NONE, [0x11, 0x50])
    whole = made(Head(3, 2, 2, 1, 1, 7))
    for count in (whole, whole - 1, whole + 1, 0):
        judges_line((0, count))
    SCRIPT.heading("It with a full block, with a node too large, with a last byte of its fill, and with more letters in its end")
    for at, byte in ((11, 2), (4, 4), (75, 1), (78, 1)):
        changed(whole, at, byte)


def previews():
    SCRIPT.heading("A preview's share, and without its last byte")
    SCRIPT.put((LETTERS, 2), NONE, [0x01, 0x10])
    whole = made(preview_head(3, 2, 1, 1, 7))
    judges_line((0, whole))
    judges_line((0, whole - 1))
    SCRIPT.heading("It with k above n, with a d, as a share of the other code, of longer sequences, and of a kind that there isn't")
    for at, byte in ((2, 4), (3, 2), (0, REPAIRING), (0, LONGER), (0, 7)):
        changed(whole, at, byte)


def large():
    SCRIPT.fill((LETTERS, 140000), NONE, 1)
    SCRIPT.heading("The largest numbers that a share has which the judge takes")
    judges_line((0, made(Head(16, 15, 15, 1, 4096, 4294967295))))
    SCRIPT.heading("A share that is too long, as far as the judge reads, one byte more, and all of it")
    whole = made(Head(16, 15, 15, 16, 4096, 0))
    for count in (65536, 65537, whole):
        judges_line((0, count))


def longer():
    SCRIPT.heading("The smallest share of longer sequences, and without its last byte")
    whole = made(Head(3, 2, 2, 1, 4097, 7))
    judges_line((0, whole))
    judges_line((0, whole - 1))
    SCRIPT.heading("It with what its L can't be, found at the third byte, and the fourth at once; and as another kind")
    for at, byte in ((5, 0), (7, 17), (7, 16), (8, 1), (0, REPAIRING), (0, PREVIEWS)):
        changed(whole, at, byte)
    SCRIPT.heading("A share of sequences whose L has a third byte, as far as the judge reads, and all of it")
    whole = made(Head(3, 2, 2, 1, 65536, 7))
    judges_line((0, 65536))
    judges_line((0, whole))


def zeros():
    SCRIPT.heading("Zeros: one, as many as the judge reads, and one more")
    SCRIPT.clear((0, 65537), NONE)
    for count in (1, 65536, 65537):
        judges_line((0, count))


def main():
    SCRIPT.begin("the judge's lines")
    examples()
    previews()
    large()
    longer()
    zeros()
    SCRIPT.write()


main()
