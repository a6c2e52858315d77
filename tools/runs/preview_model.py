#!/usr/bin/env python3
"""The script that crates/preview_runs runs and what it must write, worked out from documents 01 and 02 (docs/SCHEME.md) and paper [001] alone, without the
library's code. From the root of the repository this makes both files again, crates/preview_runs/stdin and stdout:

    tools/preview_model.py

Previews are the plain k-of-n code: k sequences, and a node's one packet is their sum, sequence j moved right by t(i,j) = i(j-1). Recovery writes out, for
every letter of a buffer, which unknown letters it is the sum of, and solves these equations by elimination (tools/elimination.py), in no order of ours;
the count goes term by term over what comes out (docs/SCHEME.md, 8). The packets and pieces of the worked example are those that paper [001] prints.
tools/script.py has the memories, and tools/groups.py what this model shares with that of the repairing code.
"""
import sys
from itertools import combinations

sys.dont_write_bytecode = True
from elimination import additions, all_additions, equations, others_in, preview_shift, solved, summed
from groups import (
    Group, any_ids, bad_id, bad_ids, bad_length, bounded, crossed, everywhere, few, lowest, moved, moved_sum, near, rising, seed_without_zero, spread,
    window
)
from script import NONE, Chooser, Script, listed

SCRIPT = Script(600000)


def previews(n, k, length):
    """A group of previews."""
    return Group(n, k, 0, length)


# lengths, places and sums


def file_letters(g):
    return g.k * g.l


def packet_length(g, node):
    return g.l + preview_shift(node, g.k)


def packet(g, file, node):
    total = 0
    for u in range(1, g.k + 1):
        total ^= moved(file[(u - 1) * g.l : u * g.l], preview_shift(node, u))
    return window(total, 0, packet_length(g, node))


def recovery_equations(g, ids):
    return equations(g.k, g.l, ids, preview_shift)


def recovered(g, ids, buffer):
    """The one file that the buffer comes from."""
    return bytes(solved(recovery_equations(g, ids), buffer, 600, 200))


def recovery_count(g, ids, file):
    """Over the file that comes out."""
    return additions(g.k, g.l, ids, preview_shift, file)


def all_recovery(g, ids):
    """The full sum of the same terms."""
    return all_additions(g.k, g.l, ids, preview_shift)


# the table of refusals


def of_group(g):
    numbers = 3 <= g.n <= 16 and 2 <= g.k <= g.n and g.d == 0
    return (1, lambda: not numbers), (2, lambda: bad_length(g))


def bad_rank(g, rank):
    return not 1 <= rank <= g.k


# the calls: each makes its line, and leaves in B what the documents say


def line(operation, name, a, b, g, words, number, value):
    words = f" [{g.n},{g.k},{g.d}] L {g.l}{words}"
    SCRIPT.line(operation, name, a, b, words, f": {number} value {0 if number else value()}")
    return number


def encode(a, b, g, node):
    file, out = SCRIPT.in_a(a), SCRIPT.in_b(b)
    number = lowest(
        *of_group(g),
        (3, lambda: bad_id(g, node)),
        (5, lambda: len(file) != file_letters(g)),
        (6, lambda: len(out) != packet_length(g, node)),
    )
    if not number:
        SCRIPT.into_b(b, packet(g, file, node))
    return line(41, "encode", a, b, g, f" node {node}", number, lambda: 0)


def piece(a, b, g, node, rank):
    """The program puts the piece at the start of B's slice, as far as there is room."""
    held, out = SCRIPT.in_a(a), SCRIPT.in_b(b)
    number = lowest(*of_group(g), (3, lambda: bad_id(g, node) or bad_rank(g, rank)), (5, lambda: len(held) != packet_length(g, node)))
    if not number:
        start = preview_shift(node, rank)
        SCRIPT.into_b(b, (held[start : start + g.l] + out[g.l :])[: len(out)])
    return line(42, "piece", a, b, g, f" node {node} rank {rank}", number, lambda: preview_shift(node, rank))


def recover(b, g, ids):
    buffer = SCRIPT.in_b(b)
    number = lowest(
        *of_group(g), (3, lambda: bad_ids(g, ids, g.k)), (4, lambda: rising(ids)), (5, lambda: len(buffer) != file_letters(g))
    )
    if not number:
        SCRIPT.into_b(b, recovered(g, ids, buffer))
    return line(43, "recover", NONE, b, g, listed(" nodes", ids), number, lambda: recovery_count(g, ids, SCRIPT.in_b(b)))


def sizes(g, node):
    line(44, "file letters", NONE, NONE, g, "", lowest(*of_group(g)), lambda: file_letters(g))
    line(45, "packet letters", NONE, NONE, g, f" node {node}", lowest(*of_group(g), (3, lambda: bad_id(g, node))), lambda: packet_length(g, node))


def entry(g, rank):
    return line(46, "entry", NONE, NONE, g, f" rank {rank}", lowest(*of_group(g), (3, lambda: bad_rank(g, rank))), lambda: (rank - 1) * g.l)


# refusals, each at its boundary, and numbers of a group on both sides of theirs

SMALL = previews(3, 2, 2)
NUMBERS = [
    (3, 2, 0, 2), (2, 2, 0, 2), (17, 2, 0, 2), (16, 2, 0, 2), (3, 1, 0, 2), (3, 3, 0, 2), (3, 4, 0, 2), (16, 16, 0, 2), (16, 17, 0, 2), (17, 17, 0, 2),
    (3, 0, 0, 2), (3, 2, 1, 2), (3, 2, 2, 2), (3, 2, 3, 2), (4, 2, 3, 2), (16, 15, 15, 2), (16, 16, 16, 2), (3, 2, 0, 0), (3, 2, 0, 1), (3, 2, 0, 4096),
    (3, 2, 0, 4097), (2, 2, 0, 0), (3, 2, 1, 0), (0, 0, 0, 0), (1000000007, 2, 0, 2), (5, 1000000007, 0, 2), (3, 2, 1000000007, 2), (3, 2, 0, 1000000007),
]


def one_of_each(g):
    """Every call once, on slices of the lengths that [3,2] has with two letters."""
    encode((0, 4), (0, 3), g, 1)
    piece((0, 5), (0, 2), g, 3, 1)
    recover((0, 4), g, [3, 1])
    sizes(g, 3)
    entry(g, 2)


def refusals():
    SCRIPT.heading("Numbers of a group, inside their ranges and outside")
    SCRIPT.fill((0, 20), (0, 20), 77)
    for numbers in NUMBERS:
        one_of_each(Group(*numbers))
    SCRIPT.heading("Ids, ranks and lengths at their boundaries")
    SCRIPT.fill((0, 20), (0, 20), 78)
    for node, file, out in (
        (0, 4, 3), (1, 4, 3), (4, 4, 6), (3, 4, 5), (1, 3, 3), (1, 5, 3), (1, 4, 2), (1, 4, 4), (1, 5, 4), (0, 5, 4), (1, 0, 0), (3, 4, 2), (3, 4, 4)
    ):
        encode((0, file), (0, out), SMALL, node)
    for node, rank, held in (
        (3, 2, 5), (3, 1, 5), (0, 1, 2), (4, 1, 6), (3, 0, 5), (3, 3, 5), (3, 2, 4), (3, 2, 6), (3, 2, 2), (3, 2, 0), (0, 3, 4), (3, 3, 4)
    ):
        piece((0, held), (0, 3), SMALL, node, rank)
    for rank in (1, 2, 0, 3, 1000000007):
        entry(SMALL, rank)
    for node in (0, 1, 2, 4, 1000000007):
        sizes(SMALL, node)
    for ids, letters in (
        ([3, 1], 4), ([3, 2], 4), ([2, 1], 4), ([2, 0], 4), ([4, 1], 4), ([3], 4), ([], 4), ([3, 2, 1], 4), ([2, 2], 4), ([1, 3], 4), ([3, 1], 3), ([3, 1], 5),
        ([1, 3], 3), ([0, 3], 3), ([3, 1], 0), ([3, 1], 6),
    ):
        recover((0, letters), SMALL, ids)


# paper [001]'s example (its section IV), [5,3] read from nodes 4, 3 and 1. First the matrix that it prints: for each node the power of z at each sequence,
# which is how far the sequence is moved right
MATRIX = {1: {1: 0, 2: 1, 3: 2}, 2: {1: 0, 2: 2, 3: 4}, 3: {1: 0, 2: 3, 3: 6}, 4: {1: 0, 2: 4, 3: 8}, 5: {1: 0, 2: 5, 3: 10}}

# its Table II: rank, node, and where the node's piece starts
PIECES = [(1, 4, 0), (2, 3, 3), (3, 1, 2)]

# and its Tables III to V: for each rank the letters that are summed in one place of the piece, as place, then sequence and letter. (The last places
# of Table IV, from L-3 on, print x3[L-4] to x3[L-1]; by the places before them, and by the paper's (2), these are x3[L-6] to x3[L-3].)
TABLES = {
    1: (9, {1: 9, 2: 5, 3: 1}),
    2: (4, {1: 7, 2: 4, 3: 1}),
    3: (1, {1: 3, 2: 2, 3: 1}),
}


def example():
    """The file's letters stand at the start of A."""
    g, ids = previews(5, 3, 12), [node for _, node, _ in PIECES]
    file, starts = SCRIPT.in_a((0, 36)), {}
    for node, moves in MATRIX.items():
        starts[node] = (100 * node, packet_length(g, node))
        encode((0, 36), starts[node], g, node)
        assert SCRIPT.in_b(starts[node]) == moved_sum(file, g.l, moves, g.l + moves[3])
        SCRIPT.show(starts[node])
    SCRIPT.keep((100, 600), (100, 600))
    for rank, node, start in PIECES:
        put, (place, summed) = ((rank - 1) * g.l, g.l), TABLES[rank]
        assert preview_shift(node, rank) == start
        entry(g, rank)
        piece(starts[node], put, g, node, rank)
        assert SCRIPT.in_b(put) == moved_sum(file, g.l, {x: place - letter for x, letter in summed.items()}, g.l)
        SCRIPT.show(put)
    recover((0, 36), g, ids)
    assert SCRIPT.in_b((0, 36)) == file


def examples():
    SCRIPT.heading("The paper's example, with sequences that can be told apart")
    for x, letter in enumerate((0x01, 0x02, 0x04)):
        SCRIPT.put((12 * x, 12), NONE, [letter] * 12)
    example()
    SCRIPT.heading("The paper's example, with letters that can be told apart")
    for x in range(3):
        SCRIPT.put((12 * x, 12), NONE, [16 * (x + 1) + p for p in range(12)])
    example()


# groups: the file stands at the start of A, and behind it the nodes' packets


def encoded(g, seed):
    """A file from the generator, and all nodes encoded from it. The answer is where each node's packet stands in A."""
    SCRIPT.fill((0, file_letters(g)), NONE, seed)
    return stored(g, range(1, g.n + 1))


def stored(g, nodes):
    """These nodes encoded from the file that is there already."""
    size = file_letters(g)
    places, at = {}, size
    for node in nodes:
        places[node] = (at, packet_length(g, node))
        encode((0, size), places[node], g, node)
        at += packet_length(g, node)
    SCRIPT.keep((size, at - size), (size, at - size))
    return places


def read(g, ids, places):
    """The file back from what these nodes send."""
    size = file_letters(g)
    for rank, node in enumerate(ids, 1):
        piece(places[node], ((rank - 1) * g.l, g.l), g, node, rank)
    recover((0, size), g, ids)
    assert SCRIPT.in_b((0, size)) == SCRIPT.in_a((0, size))


def recovers_any(g, ids, seed):
    """The same from letters that no nodes send, as a rule."""
    place = (0, file_letters(g))
    SCRIPT.fill(NONE, place, seed)
    recover(place, g, ids)


def all_small():
    """The smallest of them, L = 1 from nodes 3 and 2, is the one at which the loop that the paper prints never ends."""
    for n in range(3, 7):
        for k in range(2, n + 1):
            SCRIPT.heading(f"{['Three', 'Four', 'Five', 'Six'][n - 3]} nodes, read from every {['two', 'three', 'four', 'five', 'six'][k - 2]}, sequences of one to nine letters")
            for length in range(1, 10):
                g, seed = previews(n, k, length), 100 * n + 10 * k + length
                places = encoded(g, seed)
                for ids in combinations(range(n, 0, -1), k):
                    read(g, list(ids), places)
                    recovers_any(g, list(ids), seed + sum(ids))


def sixteen():
    SCRIPT.heading("All of sixteen nodes, short sequences and the longest")
    for length in (1, 2, 3, 15, 16, 17, 64, 241, 4096):
        g = previews(16, 16, length)
        read(g, list(range(16, 0, -1)), encoded(g, length))
        recovers_any(g, list(range(16, 0, -1)), length + 1)


def chosen():
    for length, name in ((1, "one letter"), (2, "two letters"), (15, "fifteen"), (17, "seventeen"), (100, "a hundred")):
        SCRIPT.heading(f"Groups of the generator, sequences of {name}")
        chooser = Chooser(length)
        for _ in range(6):
            n = chooser.within(7, 16)
            g = previews(n, chooser.within(2, n), length)
            places = encoded(g, chooser.x // 3)
            for _ in range(2):
                read(g, chooser.falling(g.n, g.k), places)
            recovers_any(g, chooser.falling(g.n, g.k), chooser.x // 5)


def blocks():
    """Sums in one pass go in blocks of 128 letters between the widest shift and L: for every node of these the lengths on both sides of where the first block
    and the second fit. The nodes that are read are the highest and the lowest ones."""
    SCRIPT.heading("Sequences about as long as the widest shift and one or two blocks")
    for n, k in ((3, 2), (4, 4), (6, 3), (16, 2), (16, 10), (16, 16)):
        fits = sorted({preview_shift(node, k) + count for node in (1, n) for count in (128, 256)})
        for length in sorted({fit + more for fit in fits for more in (-1, 0, 1)}):
            g = previews(n, k, length)
            places = encoded(g, 1000 * n + length)
            read(g, list(range(n, n - k, -1)) if length % 2 else list(range(k, 0, -1)), places)


def tiles():
    """The solver goes by tiles and their runs: every length from 1 to 130 with sixteen ids and with one other number of them, neighbours and far ones; and the
    longest sequences, which fill more than one tile, with every number."""
    SCRIPT.heading("Sequences of one to a hundred and thirty letters, from all of sixteen nodes and from some")
    for length in range(1, 131):
        recovers_any(previews(16, 16, length), list(range(16, 0, -1)), length)
        s = 2 + length % 14
        ids = (spread(s), list(range(16, 16 - s, -1)), list(range(s, 0, -1)))[length % 3]
        recovers_any(previews(16, s, length), ids, 16 * length + s)
    SCRIPT.heading("The longest sequences, at every number of nodes")
    for s in range(2, 16):
        recovers_any(previews(16, s, 4096), spread(s, s % 2 + 1), s)


# calls of the generator: about half of them are answered, and the others have something wrong, or several things at once


def any_group(chooser):
    n = chooser.within(3, 16)
    g = previews(n, chooser.within(2, min(n, 9)), chooser.one_of([1, 1, 2, 3, 4, 5, 7, 11]))
    if chooser.chance(12):
        g = g._replace(**{chooser.one_of(["n", "k", "d"]): chooser.within(0, 18)})
    if chooser.chance(16):
        g = g._replace(l=chooser.one_of([0, 4097, 5000, 65536]))
    return g


def any_call(chooser):
    g, which = any_group(chooser), chooser.within(1, 4)
    a, b = chooser.within(0, 999), chooser.within(0, 999)
    node = chooser.one_of([0, g.n + 1]) if chooser.chance(16) else chooser.within(1, g.n)
    rank = near(chooser, chooser.within(1, g.k))
    if which == 1:
        encode((a, near(chooser, bounded(file_letters(g)))), (b, near(chooser, bounded(packet_length(g, node)))), g, node)
    elif which == 2:
        piece((a, near(chooser, bounded(packet_length(g, node)))), (b, near(chooser, g.l)), g, node, rank)
    elif which == 3:
        recover((b, near(chooser, bounded(file_letters(g)))), g, any_ids(chooser, g, g.k, 0))
    else:
        sizes(g, node)
        entry(g, rank)


def any_calls(count):
    SCRIPT.heading("Calls of the generator, right ones and damaged ones")
    SCRIPT.fill((0, 20000), (0, 20000), 2)
    chooser = Chooser(2031)
    for _ in range(count):
        any_call(chooser)


def limits():
    """Ask 4's ranges, value by value: the last that answer beside the first that are refused."""
    SCRIPT.heading("The limits of a group: a node encoded with the lengths that the group gives, and all of it read")
    SCRIPT.fill((0, 70000), (0, 70000), 79)
    for numbers in ((3, 2, 0, 1), (16, 2, 0, 1), (2, 2, 0, 1), (17, 2, 0, 1), (3, 1, 0, 1), (5, 5, 0, 1), (5, 6, 0, 1), (16, 16, 0, 1), (16, 17, 0, 1),
                    (5, 3, 1, 1), (5, 3, 3, 1), (3, 2, 0, 4096), (3, 2, 0, 0), (3, 2, 0, 4097), (16, 16, 0, 4096), (16, 16, 0, 4097)):
        g = Group(*numbers)
        for node in (1, g.n, g.n + 1):
            encode((0, file_letters(g)), (0, packet_length(g, node)), g, node)
        sizes(g, g.n)
        entry(g, g.k)
        recover((0, file_letters(g)), g, list(range(g.k, 0, -1)))


# counts, where letters of what comes out are zero and where none is: all of them zero, one that isn't, a few that aren't, and no zero


def honest(g, ids, file):
    """A file back from what nodes send."""
    SCRIPT.lay((0, file_letters(g)), NONE, file)
    read(g, ids, stored(g, sorted(ids)))


def honest_without_zero(g, ids, seed):
    whole = (0, file_letters(g))
    SCRIPT.fill(whole, NONE, seed_without_zero(whole[1], lambda file: file, seed))
    read(g, ids, stored(g, sorted(ids)))
    assert recovery_count(g, ids, SCRIPT.in_a(whole)) == all_recovery(g, ids)


def recovers_file(g, ids, file):
    """The pieces of a file, put into the buffer letter by letter: no node is encoded for them."""
    place, rows = (0, len(file)), recovery_equations(g, ids)
    SCRIPT.lay(NONE, place, summed(rows, file))
    recover(place, g, ids)
    assert SCRIPT.in_b(place) == file
    assert recovery_count(g, ids, file) == others_in(rows, file)


def recovers_without_zero(g, ids, seed):
    """Letters of the generator from which a file without a zero comes."""
    size = file_letters(g)
    recovers_any(g, ids, seed_without_zero(size, lambda buffer: recovered(g, ids, buffer), seed))
    assert recovery_count(g, ids, SCRIPT.in_b((0, size))) == all_recovery(g, ids)


def honest_of(g, ids, ones, of=8):
    """Files of zeros, of one letter as `ones` says, of a few letters and without a zero."""
    size = file_letters(g)
    assert recovery_count(g, ids, bytes(size)) == 0
    for file in (bytes(size), *ones(g.k, g.l), few(Chooser(g.l), size, of)):
        honest(g, ids, file)
    honest_without_zero(g, ids, g.l)


def recovers_of(g, ids, ones, of=8):
    """The same from pieces that are put, of which every content is a file's; and pieces of a few letters, whatever comes of them."""
    size, chooser = file_letters(g), Chooser(g.l)
    for file in (bytes(size), *ones(g.k, g.l), few(chooser, size, of)):
        recovers_file(g, ids, file)
    SCRIPT.lay(NONE, (0, size), few(chooser, size, of))
    recover((0, size), g, ids)
    recovers_without_zero(g, ids, g.l)


def counts():
    SCRIPT.heading("Zeros aren't counted: files of zeros, of one letter, of a few and without a zero, from what honest nodes send")
    for length, ids in ((1, [2, 1]), (2, [2, 1]), (3, [3, 2]), (7, [3, 1])):
        honest_of(previews(3, 2, length), ids, crossed)
    for length, ids in ((3, [5, 2, 1]), (7, [3, 2, 1])):
        honest_of(previews(6, 3, length), ids, crossed)
    SCRIPT.heading("The same, from pieces that are put letter by letter and from letters of the generator")
    for n, ids, lengths in ((3, [2, 1], (1, 2, 3, 7)), (3, [3, 2], (3, 7)), (3, [3, 2, 1], (2, 7)), (6, [5, 2, 1], (3, 7)), (6, [4, 3, 2, 1], (3, 7))):
        for length in lengths:
            recovers_of(previews(n, len(ids), length), ids, everywhere)
    SCRIPT.heading("Zeros aren't counted, in sequences of more than a block")
    for g, ids in ((previews(6, 3, 130), [6, 4, 1]), (previews(3, 2, 300), [2, 1])):
        honest_of(g, ids, crossed, 100)
        recovers_of(g, ids, crossed, 100)
    SCRIPT.heading("Zeros aren't counted, in sequences that are shorter than most shifts")
    g, ids = previews(16, 6, 7), [16, 11, 7, 4, 2, 1]
    honest(g, ids, few(Chooser(6), 42))
    honest_without_zero(g, ids, 6)
    recovers_of(g, [16, 15, 9, 6, 3, 2], crossed)
    SCRIPT.heading("Zeros aren't counted, fifteen nodes and all of sixteen")
    for g in (previews(16, 15, 5), previews(16, 16, 20)):
        ids = list(range(g.k, 0, -1))
        honest(g, ids, few(Chooser(g.k), file_letters(g)))
        honest_without_zero(g, ids, g.k)
        recovers_of(g, ids, everywhere)


def main():
    refusals()
    examples()
    all_small()
    sixteen()
    chosen()
    blocks()
    tiles()
    any_calls(1000)
    limits()
    counts()
    SCRIPT.write("preview_runs")


main()
