#!/usr/bin/env python3
"""The part `long sequences` of the script that crates/trials runs and what it must write, worked out from documents 01 and 02 (docs/SCHEME.md, 3 to 9, 11 and
16) alone, without the store's code. From the root of the repository this makes the part again, in crates/trials/stdin and stdout:

    tools/longer_model.py

At and around every limit of L a file is encoded on few nodes, a node's packets are stored, cut, judged and read, the file is recovered from k nodes, and a lost
node is repaired by d. A group's file is the generator's letters after its L. What nodes hold and send are document 01's sums (tools/sums.py). A recovery gives
that file back, and a repair what the lost node held: by the document nothing else has these pieces. Sequences of up to 65,536 letters are solved by
elimination, which must agree. With 1,048,577 letters every call is refused by 2.
"""
import sys

sys.dont_write_bytecode = True
from arriving_calls import burst, start
from groups import Group, bad_length
from script import NONE, SCRIPT, SIZE
from share_calls import judged, read, write
from shares import Head
from store_calls import assist, encode, piece, recover, repair
from sums import entry_start, file_letters, node_letters, packet_length, packets, packets_sum

# the number of every file
BATCH = 7

# the longest sequences that are solved by elimination: those of 1,048,576 letters would take half a minute and 1.7 GB
SOLVED = 65536


def answers(g, number):
    """Where L is out of range a call is refused by 2, and no other one is refused."""
    assert number == (2 if bad_length(g) else 0)


def file_again(g):
    """A group's file at the start of A. A has the input of every call, so the file is there only until a node is encoded."""
    SCRIPT.fill((0, file_letters(g)), NONE, g.l)
    return SCRIPT.in_a((0, file_letters(g)))


def held(g, node):
    """A node's packets at the start of A, by way of that of B. The answer is where they are."""
    file_again(g)
    place = (0, node_letters(g, node))
    answers(g, encode((0, file_letters(g)), place, g, node))
    SCRIPT.keep(place, place)
    return place


def behind_packets(g, ids, letters, otherwise):
    """Where in B the letters are collected that these nodes send: behind the packets of any, which stand at the start, or, where a memory isn't so long,
    from `otherwise` on: then the last rank's come first, and the packets of the ranks before it don't reach them."""
    most = max(node_letters(g, node) for node in ids)
    return (most if most + letters <= SIZE else otherwise, letters)


# what is done with a group


def store(g, node):
    """A node's packets are written as a share. It is judged whole, cut by a byte and with one more, whatever that is; read; and judged as it arrives in three
    bursts, of which the first ends within L and the last has one byte."""
    packed, head = held(g, node), Head(g.n, g.k, g.d, node, g.l, BATCH)
    whole = head.size()
    write(packed, (0, whole), head)
    SCRIPT.keep((0, whole), (0, whole))
    for count in (whole, whole - 1, whole + 1):
        judged((0, count))
    read((0, whole), packed)
    for burst_of, place in ((start, (0, 7)), (burst, (7, whole - 8)), (burst, (whole - 1, 1))):
        burst_of(place)


def collect(g, ids, file):
    """The pieces of k nodes, each at its place of the collector's buffer, and the file from them."""
    buffer = behind_packets(g, ids, file_letters(g), 64)
    for rank in range(g.k, 0, -1):
        packed = held(g, ids[rank - 1])
        for column in range(rank, g.d + 1):
            answers(g, piece(packed, (buffer[0] + entry_start(g, rank, column), g.l), g, ids[rank - 1], rank, column))
    answers(g, recover(buffer, g, ids, file if g.l > SOLVED else None))
    assert bad_length(g) or SCRIPT.in_b(buffer) == file


def rebuild(g, lost, helpers, file):
    """The pieces of d helpers, and what the lost node held from them."""
    size, made = packet_length(g, lost), packets(g, file, lost)
    pieces = behind_packets(g, helpers, g.d * size, g.l + 24)
    for rank in range(g.d, 0, -1):
        helper = helpers[rank - 1]
        packed = held(g, helper)
        # the sum that a helper makes is also that of the lost node's packets, moved by the helper's shifts (docs/SCHEME.md, 7): so they solve the system
        assert bad_length(g) or packets_sum(g, SCRIPT.in_a(packed), lost) == packets_sum(g, made, helper)
        answers(g, assist(packed, (pieces[0] + (rank - 1) * size, size), g, lost, helper, rank))
    answers(g, repair(pieces, g, lost, helpers, made if g.l > SOLVED else None))
    assert bad_length(g) or SCRIPT.in_b(pieces) == made


def night(g, ids, lost, helpers):
    SCRIPT.heading("A file of long sequences: a share, the file from k nodes, and a lost node from its helpers")
    file = file_again(g)
    store(g, lost)
    collect(g, ids, file)
    rebuild(g, lost, helpers, file)


def main():
    SCRIPT.begin("long sequences")
    start(NONE)
    for length in (4096, 4097, 65535, 65536, 1048576, 1048577):
        night(Group(3, 2, 2, length), [3, 1], 2, [3, 1])
    for length in (4096, 4097, 65535, 65536):
        night(Group(5, 3, 4, length), [5, 3, 2], 4, [5, 3, 2, 1])
    SCRIPT.write()


main()
