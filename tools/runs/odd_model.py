#!/usr/bin/env python3
"""The script that crates/odd_runs runs and what it must write, worked out from documents 01 and 02 (docs/SCHEME.md) alone, without the library's code. From
the root of the repository this makes both files again, crates/odd_runs/stdin and stdout:

    tools/odd_model.py

Whether nodes agree is found out by elimination: each letter of each node's packets is one equation in the letters of the file (tools/sums.py says of which),
and nodes agree if all their equations have an answer (tools/elimination.py). This is tried for all nodes that are present, and where they don't agree for
all without each one in turn. Nothing is ever recovered from k of them. tools/script.py has the memories.
"""
import sys
from functools import lru_cache
from itertools import combinations, product

sys.dont_write_bytecode = True
from elimination import any_solution, generated
from groups import Group, bad_id, bad_length, bounded, ends, lowest, rising
from script import NONE, Chooser, Script, listed
from sums import file_letters, node_letters, packet_length, packets, terms

SCRIPT = Script(600000)

# no letter is damaged: 0 is added to the first
SOUND = (0, 0, 0, 0)


# who agrees


@lru_cache(maxsize=None)
def node_equations(g, node):
    """For each letter of a node's packets the letters of the file that it is the sum of."""
    return [terms(g, node, j, p) for j in range(1, g.d + 1) for p in range(1, packet_length(g, node) + 1)]


def parted(g, ids, letters):
    """Each node's part of the packets of all."""
    held, at = {}, 0
    for node in ids:
        held[node] = letters[at : at + node_letters(g, node)]
        at += len(held[node])
    return held


def shared_file(g, held):
    """The file that gives all these nodes their packets, or none."""
    rows = [row for node in held for row in node_equations(g, node)]
    answer = any_solution(rows, b"".join(held.values()), file_letters(g))
    return None if answer is None else bytes(answer)


def odd_ones(g, held):
    """Every node without which all others agree, with the file that they share."""
    found = []
    for odd in held:
        file = shared_file(g, {node: letters for node, letters in held.items() if node != odd})
        if file is not None:
            found.append((odd, file))
    return found


def first_wrong(letters, right):
    return 1 + next(at for at, letter in enumerate(letters) if letter != right[at])


def judged(g, held):
    """What is said of sixteen nodes, and what the lent buffer holds then: a sign for each node, and the place of what is wrong where one is odd."""
    file = shared_file(g, held)
    if file is not None:
        return signs(held, "a"), file
    found = odd_ones(g, held)
    if not found:
        return signs(held, "?"), bytes(file_letters(g))
    # document 02: no second node could be named
    [(odd, file)] = found
    said = signs(held, "a")
    return f"{said[: odd - 1]}!{said[odd:]} at {first_wrong(held[odd], packets(g, file, odd))}", file


def signs(present, sign):
    return "".join(sign if node in present else "." for node in range(1, 17))


# the table of refusals, 13 between 5 and 6


def refusal(g, ids, held, file):
    numbers = 3 <= g.n <= 16 and 2 <= g.k <= g.d <= g.n - 1
    return lowest(
        (1, lambda: not numbers),
        (2, lambda: bad_length(g)),
        (3, lambda: any(bad_id(g, node) for node in ids)),
        (4, lambda: rising(ids)),
        (5, lambda: held != sum(node_letters(g, node) for node in ids)),
        (13, lambda: len(ids) < g.k + 2),
        (6, lambda: file != file_letters(g)),
    )


# the calls


def line(operation, name, a, b, g, words, told):
    SCRIPT.line(operation, name, a, b, f" [{g.n},{g.k},{g.d}] L {g.l}{words}", told)


def encode(a, b, g, node):
    SCRIPT.into_b(b, packets(g, SCRIPT.in_a(a), node))
    line(11, "encode", a, b, g, f" node {node}", ": 0 value 0")


def damaged(letters, damages):
    """Letters with something added to those at two indexes; behind the end there is nothing to add to."""
    letters = bytearray(letters)
    for at, by in (damages[:2], damages[2:]):
        if at < len(letters):
            letters[at] ^= by
    return bytes(letters)


def odd(a, b, g, ids, damages=SOUND):
    """The call on A's slice with these damages. What it is refused by, or else what it says."""
    letters = damaged(SCRIPT.in_a(a), damages)
    number = refusal(g, ids, len(letters), len(SCRIPT.in_b(b)))
    said = signs([], "")
    if not number:
        said, file = judged(g, parted(g, ids, letters))
        SCRIPT.into_b(b, file)
    line(20, "odd", a, b, g, listed(" add", damages) + listed(" of", ids), f": {number} {said}")
    return number or said


# a group's nodes. A has the packets that are handed in at its start, and behind the room for those of all nodes two files. B has the file
# that comes back at its start, and behind it the packets of all nodes by the first file and then by the second, the highest id first


class Nodes:
    def __init__(self, g, seed, alike):
        """Two files of the generator. Where `alike` says so, node 1 has the same packets by both."""
        self.g, self.size, self.alike = g, file_letters(g), alike
        self.all = sum(node_letters(g, node) for node in range(1, g.n + 1))
        self.file = (0, self.size)
        SCRIPT.fill((self.all, self.size), NONE, seed)
        SCRIPT.fill((self.all + self.size, self.size), NONE, seed if alike else seed + 1)
        if alike:
            self.change_alike(generated(g.l, seed + 1))
        self.places = [self.encoded(0), self.encoded(1)]

    def change_alike(self, letters):
        """The same added to the sequences m(1,1), m(1,2) and m(2,2) of the second file, which are its first three: in the first two of node 1's packets,
        which are sums of a column without moves, it is there twice."""
        letters = [letter | 1 for letter in letters]
        at = self.all + self.size
        SCRIPT.put((at, 3 * self.g.l), NONE, [x ^ y for x, y in zip(SCRIPT.in_a((at, 3 * self.g.l)), 3 * letters)])

    def encoded(self, which):
        at, places = self.size + which * self.all, {}
        for node in range(self.g.n, 0, -1):
            places[node] = (at, node_letters(self.g, node))
            encode((self.all + which * self.size, self.size), places[node], self.g, node)
            at += places[node][1]
        return places

    def hand_in(self, ids, others=()):
        """The packets of these nodes to the start of A, by the first file, but for the others those by the second. What stands together in B goes in one line."""
        self.ids, self.starts, at, runs = ids, {}, 0, []
        for node in ids:
            self.starts[node] = at
            start, count = self.places[node in others][node]
            if runs and sum(runs[-1]) == start:
                runs[-1] = (runs[-1][0], runs[-1][1] + count)
            else:
                runs.append((start, count))
            at += count
        self.packets, to = (0, at), 0
        for run in runs:
            SCRIPT.keep((to, run[1]), run)
            to += run[1]

    def letters(self, node):
        return node_letters(self.g, node)

    def wrong(self, node, place, by):
        """A damage: a place in the packets of a node, counted from 1, and what is added there."""
        return (self.starts[node] + place - 1, by)

    def ask(self, *damages):
        numbers = [number for damage in damages for number in damage]
        return odd(self.packets, self.file, self.g, self.ids, (*numbers, *SOUND)[:4])

    def scatter(self, node, seed):
        """Any letters for one node."""
        SCRIPT.fill((self.starts[node], self.letters(node)), NONE, seed)

    def scatter_all(self, seed):
        SCRIPT.fill(self.packets, NONE, seed)


def all_agree(said):
    assert "a" in said and "!" not in said and "?" not in said


def is_odd(said, node, place=None):
    assert said[node - 1] == "!" and said.count("!") == 1 and "?" not in said
    assert place is None or said.endswith(f" at {place}")


def more_wrong(said):
    assert "?" in said and "a" not in said and "!" not in said


# lists of nodes: all agree, each node odd at its first, a middle and its last letter, and between these two wrong letters, so that the buffer
# has another file or zeros before many of the calls


def any_two(nodes, chooser):
    return [nodes.ids[rank - 1] for rank in chooser.falling(len(nodes.ids), 2)]


def any_wrong(nodes, node, chooser):
    """A damage somewhere in the packets of a node."""
    return nodes.wrong(node, chooser.within(1, nodes.letters(node)), chooser.within(1, 255))


def two_nodes(nodes, chooser):
    """A letter of each of two nodes."""
    more_wrong(nodes.ask(*(any_wrong(nodes, node, chooser) for node in any_two(nodes, chooser))))


def two_alike(nodes, chooser):
    """The same added at the same place of two nodes."""
    ids = any_two(nodes, chooser)
    place, by = chooser.within(1, min(nodes.letters(node) for node in ids)), chooser.within(1, 255)
    more_wrong(nodes.ask(*(nodes.wrong(node, place, by) for node in ids)))


def two_letters(nodes, chooser):
    """Two letters of one node, the later one first: the place is that of the earlier."""
    node = chooser.one_of(nodes.ids)
    place = chooser.within(1, nodes.letters(node) - 1)
    later = chooser.within(place + 1, nodes.letters(node))
    is_odd(nodes.ask(nodes.wrong(node, later, chooser.within(1, 255)), nodes.wrong(node, place, chooser.within(1, 255))), node, place)


def any_letters(nodes, chooser):
    """Any letters for one node, and then for all."""
    node = chooser.one_of(nodes.ids)
    nodes.scatter(node, chooser.within(1, 999))
    is_odd(nodes.ask(), node)
    nodes.scatter_all(chooser.within(1, 999))
    more_wrong(nodes.ask())


def each_list(nodes, ids, chooser):
    nodes.hand_in(ids)
    all_agree(nodes.ask())
    between = [two_nodes, two_letters, two_alike]
    for rank, node in enumerate(ids):
        for place in ends(nodes.letters(node)):
            is_odd(nodes.ask(nodes.wrong(node, place, chooser.within(1, 255))), node, place)
        if rank < len(between):
            between[rank](nodes, chooser)
    any_letters(nodes, chooser)


def two_files(nodes, ids, chooser):
    """All but one node by the one file, and that one by the other: it is odd. Half of them by each: more than one is wrong, unless node 1, which may be the
    same by both, is one of two in its half; then the other one is odd."""
    alone = chooser.one_of([node for node in ids if node != 1])
    nodes.hand_in(ids, [alone])
    is_odd(nodes.ask(), alone)
    nodes.hand_in(ids, [node for node in ids if node != alone])
    is_odd(nodes.ask(), alone)
    half = len(ids) // 2
    nodes.hand_in(ids, ids[:half])
    rest = [node for node in ids[half:] if node != 1 or not nodes.alike]
    said = nodes.ask()
    is_odd(said, rest[0]) if len(rest) == 1 else more_wrong(said)


def ends_of_packets(nodes, ids):
    """The first and the last letter of each packet of each node, but for those that each list has. Most of them are in no piece that recovery reads."""
    nodes.hand_in(ids)
    for node in ids:
        size = packet_length(nodes.g, node)
        for place in sorted({first for j in range(1, nodes.g.d) for first in (j * size, j * size + 1)}):
            is_odd(nodes.ask(nodes.wrong(node, place, 16 * node + place % 16)), node, place)


def all_zero(nodes, ids):
    """Packets of zeros, from the end of A, to which no line writes: they agree on the file of zeros, and a letter is wrong beside it too."""
    nodes.hand_in(ids)
    nodes.packets = (len(SCRIPT.a) - nodes.all, nodes.all)
    all_agree(nodes.ask())
    is_odd(nodes.ask(nodes.wrong(ids[0], 2, 1)), ids[0], 2)


def every_letter(nodes, ids):
    nodes.hand_in(ids)
    for node in ids:
        for place in range(1, nodes.letters(node) + 1):
            is_odd(nodes.ask(nodes.wrong(node, place, place)), node, place)


def lists(g):
    """All falling lists of nodes that are enough, by their number."""
    every = range(g.n, 0, -1)
    return {present: [list(ids) for ids in combinations(every, present)] for present in range(g.k + 2, g.n + 1)}


def chosen(g, some):
    """All of them, but in groups that have the most lists, [6,2,d], with two letters every second one and with three the others."""
    return some[g.l % 2 :: 2] if g.n - g.k > 3 and g.l > 1 and len(some) > 1 else some


def small_groups():
    return [(n, k, d) for n in range(4, 7) for k in range(2, n - 1) for d in range(k, n)]


def small(numbers, at, length):
    g, chooser = Group(*numbers, length), Chooser(100 * at + length)
    every = list(range(g.n, 0, -1))
    nodes = Nodes(g, 10 * at + length, length != 2)
    for some in lists(g).values():
        for ids in chosen(g, some):
            each_list(nodes, ids, chooser)
        for ids in some[:: len(some) - 1] if g.l == 1 and len(some) > 1 else some[:1]:
            two_files(nodes, ids, chooser)
    if at % 3 == length % 3:
        ends_of_packets(nodes, every)
    if g.n == 4:
        every_letter(nodes, every)
    if g.l == 1:
        all_zero(nodes, every)


def groups():
    for length, name in ((1, "one letter"), (2, "two letters"), (3, "three")):
        SCRIPT.heading(f"All groups up to six nodes with enough of them, sequences of {name}")
        for at, numbers in enumerate(small_groups()):
            small(numbers, at, length)


# larger groups: nobody odd, an odd one among the first k of the ids and behind them, two odd ones there and there


def ranks_of(g, present):
    """The first of the ids, the last of those that a recovery from the first k would read, the one behind it, and the last."""
    return sorted({1, g.k, g.k + 1, present})


def larger_list(nodes, ids, chooser):
    g = nodes.g
    nodes.hand_in(ids)
    all_agree(nodes.ask())
    for rank in ranks_of(g, len(ids)):
        node = ids[rank - 1]
        place = chooser.one_of([1, nodes.letters(node), chooser.within(1, nodes.letters(node))])
        is_odd(nodes.ask(nodes.wrong(node, place, chooser.within(1, 255))), node, place)
    for ranks in ((1, g.k), (g.k, g.k + 1), (g.k + 1, len(ids))):
        more_wrong(nodes.ask(*(any_wrong(nodes, ids[rank - 1], chooser) for rank in ranks)))
    two_letters(nodes, chooser)
    any_letters(nodes, chooser)


def ends_of_blocks(nodes, ids):
    """Sums in one pass go in blocks of 128 letters between the widest shift and L: letters on both sides of where blocks begin and end, in the first
    packet and in the last, of a node that a recovery from the first k would read and of one behind it."""
    nodes.hand_in(ids)
    for node in (ids[0], ids[nodes.g.k]):
        size, length = packet_length(nodes.g, node), nodes.g.l
        widest = size - length
        for packet in (0, nodes.g.d - 1):
            for end in (widest, widest + 128, widest + 256, length):
                for place in (packet * size + end, packet * size + end + 1):
                    is_odd(nodes.ask(nodes.wrong(node, place, 1 + place % 255)), node, place)


def larger(n, k, d, length, presents):
    """So many nodes, of which the generator chooses."""
    SCRIPT.heading("A larger group")
    g, chooser = Group(n, k, d, length), Chooser(1000 * n + length)
    nodes = Nodes(g, length, length < 9)
    for present in presents:
        ids = chooser.falling(n, present)
        larger_list(nodes, ids, chooser)
        two_files(nodes, ids, chooser)
    if (n, length) == (6, 300):
        ends_of_blocks(nodes, list(range(n, 0, -1)))


def larger_groups():
    for length in (1, 5, 130):
        larger(16, 10, 12, length, (12, 13, 16))
    for length in (1, 5, 40):
        larger(16, 2, 15, length, (4, 5, 9, 16))
    larger(16, 14, 15, 2, (16,))
    larger(9, 6, 8, 200, (8, 9))
    for length in (300, 1000):
        larger(6, 3, 4, length, (5, 6))


# refusals. The buffer has letters that aren't zero, so what a refused call wrote would be seen


def asked(numbers, ids, more=0, file=0):
    """A call with the lengths that its numbers give, but for so many letters more. Ids outside have no packets. Zeros that it leaves in the buffer,
    where it isn't refused, are filled again."""
    g = Group(*numbers)
    held = sum(node_letters(g, node) for node in ids if not bad_id(g, node))
    buffer = (0, bounded(file_letters(g) + file))
    odd((0, bounded(held + more)), buffer, g, ids)
    if set(SCRIPT.in_b(buffer)) == {0}:
        SCRIPT.fill(NONE, buffer, 16)


def each_and_pairs():
    """What is right, and what is wrong in one way, in each place of the table: all of them with all others."""
    for numbers, ids, more, file in product(
        ((6, 2, 3, 2), (17, 2, 3, 2), (6, 2, 3, 0)),
        ([6, 4, 3, 1], [6, 4, 3, 0], [6, 4, 4, 1], [6, 4, 1], [0, 4, 6], [4, 4], []),
        (0, -1, 1),
        (0, -1, 8),
    ):
        asked(numbers, ids, more, file)


def numbers_refused():
    every = [5, 4, 3, 2, 1]
    for n, k, d in ((2, 2, 2), (17, 2, 2), (5, 1, 2), (5, 3, 2), (5, 2, 5), (5, 2, 1), (0, 0, 0), (1000000007, 2, 2), (5, 2, 1000000007), (5, 1000000007, 3)):
        asked((n, k, d, 1), every)
    for length in (0, 1048577, 1000000007):
        asked((5, 2, 2, length), every)
        asked((5, 2, 2, length), [])
        asked((17, 2, 2, length), every)
    asked((5, 2, 2, 1048576), every)
    asked((5, 2, 2, 1048576), [])


def ids_refused():
    for ids in (
        [6, 4, 3, 2], [17, 4, 3, 2], [65537, 4, 3, 2], [5, 4, 3, 0], [0, 0, 0, 0], [1, 2, 3, 4], [5, 4, 2, 3], [4, 5, 3, 2], [5, 5, 3, 2], [5, 3, 2, 2],
        [5, 4, 3, 2, 1, 1], [5, 4, 3, 2, 1, 0], [6, 5, 4, 3, 2, 1], [3, 4, 6], [5, 4, 3, 2], [5, 4, 3], [5, 4], [5], [], list(range(19, 0, -1)),
        [5, 4, 3, 2, 1, 5, 4, 3, 2, 1], [1000000007],
    ):
        asked((5, 2, 2, 1), ids)


def lengths_refused():
    for more, file in ((0, 0), (-1, 0), (1, 0), (-24, 0), (-28, 0), (2, 0), (0, -1), (0, 1), (0, -3), (0, 3), (1, 1)):
        asked((5, 2, 2, 1), [5, 4, 3, 2], more, file)
    for more, file in ((0, 0), (1, 0), (0, 1), (1, 1), (0, -3), (28, 0)):
        asked((5, 2, 2, 1), [], more, file)
        asked((5, 2, 2, 1), [5, 4, 3], more, file)
    for more, file in ((-1, 0), (1, 0), (0, -1), (0, 1)):
        asked((16, 2, 3, 2), list(range(16, 0, -1)), more, file)


def too_few_for_ever():
    """Where k is n - 1 there are never k + 2 nodes."""
    for numbers in ((3, 2, 2, 2), (4, 3, 3, 1), (5, 4, 4, 3), (6, 5, 5, 1), (16, 15, 15, 1)):
        every = list(range(numbers[0], 0, -1))
        for ids, more, file in ((every, 0, 0), (every, 0, 1), (every, 0, -1), (every, 1, 0), (every[1:], 0, 0), ([], 0, 0), ([], 1, 0), (every + [1], 0, 0)):
            asked(numbers, ids, more, file)


def refusals():
    SCRIPT.heading("Refusals, each alone and with others")
    SCRIPT.fill((0, 70000), (0, 70000), 13)
    each_and_pairs()
    SCRIPT.heading("Refusals at their boundaries")
    SCRIPT.fill(NONE, (0, 70000), 14)
    numbers_refused()
    ids_refused()
    lengths_refused()
    SCRIPT.heading("One node more than k at most")
    SCRIPT.fill(NONE, (0, 70000), 15)
    too_few_for_ever()


def main():
    refusals()
    groups()
    larger_groups()
    SCRIPT.write("odd_runs")


main()
