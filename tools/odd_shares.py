#!/usr/bin/env python3
"""Shares for the program crates/odd, and what it must say of them, worked out from documents 01 and 02 (docs/SCHEME.md, 3 and 9) alone, without the
library's code. From the root of the repository

    tools/odd_shares.py          makes the files of its test again: crates/odd/args, data/ and stdout
    tools/odd_shares.py FOLDER   makes the situations that tools/try_odd runs, a folder for each: the shares, the arguments (args, one to a line), what comes
                                 on standard input through a pipe (stdin, if anything), and what must come out (stdout, stderr, status)

The letters of a batch are the generator's, what nodes hold are document 01's sums (tools/sums.py), and tools/shares.py has what a share is. A node is odd where
its letters were changed here, so what must be said is known without any comparing: where k+2 nodes or more are there and one of them was changed, no other
file than the batch's fits all but one of them; where two were changed in one letter each, no file does.
"""
import os
import shutil
import sys

sys.dont_write_bytecode = True
from elimination import following
from groups import Group
from shares import Head, head_size, judge, preview_head, share
from sums import file_letters, node_letters, packet_length, packets

BATCH = 7

# the memories of the program: the bytes of a share, the letters of all nodes, and those of the file
SHARE, PACKETS, FILE = 1048576, 3932160, 2457600


# batches and their shares


def file_of(g):
    """The generator's letters after L; of a long file they come again after a while, so that it is made soon."""
    letters, x = bytearray(), g.l
    for _ in range(min(file_letters(g), 50021)):
        x = following(x)
        letters.append(x // 65536 % 256)
    return bytes(letters * (file_letters(g) // len(letters) + 1))[:file_letters(g)]


def held(g, nodes):
    file = file_of(g)
    return {node: packets(g, file, node) for node in nodes}


def changed(letters, place):
    """The letter at a place, from 1, is another."""
    return letters[:place - 1] + bytes([letters[place - 1] ^ 32]) + letters[place:]


def head_of(g, node, batch=BATCH):
    return Head(g.n, g.k, g.d, node, g.l, batch)


def shares_of(g, nodes, wrong=(), batch=BATCH):
    """The shares of these nodes. `wrong` has places that are changed: pairs of a node and a place, from 1 through all its packets."""
    letters = held(g, nodes)
    for node, place in wrong:
        letters[node] = changed(letters[node], place)
    return {node: share(head_of(g, node, batch), letters[node]) for node in nodes}


# what must be said


def odd_line(g, node, place):
    size, before = packet_length(g, node), place - 1
    index = head_size(head_of(g, node).kind) + 65 * (before // 64) + 1 + before % 64
    return (f"node {node} is odd: its first wrong letter is letter {before % size + 1} of packet {before // size + 1}, "
            f"at index {index}, from 0, of this file")


def answer(g, files, wrong):
    """The lines for these files, each with its node, where these places are wrong; and the exit status."""
    first = {}
    for node, place in sorted(wrong, reverse=True):
        first[node] = place
    several = len(first) > 1

    def of(node):
        if several:
            return f"node {node}: can't be told"
        return odd_line(g, node, first[node]) if node in first else f"node {node} agrees"

    if several:
        last, status = "more than one node is wrong: nothing can be said of any of them", 3
    elif first:
        last, status = f"node {min(first)} alone is odd: the {len(files) - 1} others agree", 1
    else:
        last, status = f"all {len(files)} nodes agree", 0
    return "".join(f"{name}: {of(node)}\n" for name, node in files) + last + "\n", status


def batch_words(head):
    return f"[{head.n},{head.k},{head.d}], L = {head.l}, batch {head.batch}"


# situations


class Situation:
    """A folder with files, the arguments, and what must come out."""

    def __init__(self, root, name):
        self.folder = os.path.join(root, name)
        os.makedirs(self.folder)
        self.args, self.piped = [], None

    def write(self, name, data):
        with open(os.path.join(self.folder, name), "wb") as out:
            out.write(data)

    def give(self, name, data):
        """A file that is an argument, too."""
        self.write(name, data)
        self.args.append(name)

    def must(self, stdout, stderr, status):
        self.write("args", "".join(word + "\n" for word in self.args).encode())
        self.write("stdout", stdout.encode())
        self.write("stderr", stderr.encode())
        self.write("status", f"{status}\n".encode())
        if self.piped is not None:
            self.write("stdin", self.piped)

    def answered(self, g, nodes, wrong):
        """The shares of these nodes in this order, some of them wrong."""
        made = shares_of(g, nodes, wrong)
        for node in nodes:
            self.give(f"{node}.share", made[node])
        stdout, status = answer(g, [(f"{node}.share", node) for node in nodes], wrong)
        self.must(stdout, "", status)

    def refused(self, *lines):
        self.must("", "".join(f"odd: {line}\n" for line in lines), 5)


SMALL = Group(6, 3, 4, 21)
MIXED = [3, 6, 1, 5, 2, 4]


def first_of(g, node, column):
    """The place of the first letter of a packet."""
    return (column - 1) * packet_length(g, node) + 1


def answers(root):
    """Where there is an answer."""

    def case(name, g, nodes, wrong=()):
        Situation(root, name).answered(g, nodes, wrong)

    case("all agree", SMALL, MIXED)
    case("all agree, k+2 nodes", SMALL, [2, 5, 1, 6, 4])
    case("one is odd", SMALL, MIXED, [(5, 77), (5, 101)])
    case("one is odd, k+2 nodes", SMALL, [2, 5, 1, 6, 4], [(1, 12)])
    case("two are wrong", SMALL, MIXED, [(5, 29), (2, 3)])
    case("two are wrong, k+2 nodes", SMALL, [2, 5, 1, 6, 4], [(6, 1), (4, 1)])
    for node in MIXED:
        last = node_letters(SMALL, node)
        places = {"first": 1, "second packet": first_of(SMALL, node, 2), "before it": first_of(SMALL, node, 2) - 1, "a block's last": 64,
                  "a block's first": 65, "last": last}
        for where, place in places.items():
            case(f"node {node}, {where}", SMALL, MIXED, [(node, place)])
    case("sixteen nodes", Group(16, 12, 15, 3), list(range(1, 17)), [(16, 1)])
    case("three letters a share", Group(4, 2, 2, 1), [4, 1, 2, 3], [(1, 2)])
    case("kind 1, longest", Group(4, 2, 3, 4096), [4, 1, 2, 3], [(2, 5000)])
    case("kind 6, shortest", Group(4, 2, 3, 4097), [4, 1, 2, 3], [(2, 5000)])
    case("kind 6, two wrong", Group(4, 2, 3, 4097), [4, 1, 2, 3], [(2, 5000), (3, 1)])


def longest(g, nodes):
    """The largest L with which these nodes fit into the program's memories."""
    l = PACKETS
    while True:
        these = g._replace(l=l)
        letters = sum(node_letters(these, node) for node in nodes)
        if letters <= PACKETS:
            assert file_letters(these) <= FILE and max(head_of(these, node).size() for node in nodes) <= SHARE
            return these
        l -= max(1, (letters - PACKETS) // (len(nodes) * g.d))


def limits(root):
    """As long as the program takes it, and one letter in each sequence more."""
    for numbers, nodes in ((Group(6, 3, 4, 0), MIXED), (Group(4, 2, 2, 0), [2, 4, 1, 3]), (Group(16, 6, 15, 0), [3, 16, 5, 8, 9, 1, 2, 12])):
        g = longest(numbers, nodes)
        node = nodes[1]
        name = f"[{g.n},{g.k},{g.d}]"
        Situation(root, f"{name} as long as it goes").answered(g, nodes, [(node, node_letters(g, node))])
        longer = Situation(root, f"{name} longer")
        for node, data in shares_of(g._replace(l=g.l + 1), nodes).items():
            longer.give(f"{node}.share", data)
        longer.refused(f"too long for this program, which takes {PACKETS} letters of all shares together: the library's call takes them")
    just = Situation(root, "a file just short enough")
    just.give("zeros", bytes(SHARE))
    just.refused("zeros: malformed 8 at 0, so no share: copy it anew, or leave it out")
    over = Situation(root, "a file too long")
    over.give("zeros", bytes(SHARE + 1))
    over.refused(f"zeros: too long for this program, which takes {SHARE} bytes: the library's call takes it")


CUT = "unfinished, the beginning of a share and not all of it: copy it anew, or leave it out"


def malformed(data):
    number, at = judge(data)
    assert number >= 8
    return f"malformed {number} at {at}, so no share: copy it anew, or leave it out"


def damaged(root):
    """One of six files isn't what it should be."""
    made = shares_of(SMALL, MIXED)

    def case(name, data, line):
        """The file of node 5 has these bytes instead."""
        these = Situation(root, name)
        for node in MIXED:
            these.give(f"{node}.share", data if node == 5 else made[node])
        these.refused(f"5.share: {line}")

    five = made[5]
    case("cut by one byte", five[:-1], CUT)
    case("cut within the head", five[:4], CUT)
    case("empty", b"", CUT)
    for name, data in (("one byte too many", five + b"\0"), ("two shares in one file", five + made[4]), ("no share at all", b"P6 1920 1080"),
                       ("node 7 of 6", five[:4] + b"\7" + five[5:]), ("a filler that isn't zero", five[:-6] + b"\1" + five[-5:])):
        case(name, data, malformed(data))
    case("a preview's share", share(preview_head(6, 3, 5, 21, BATCH), bytes(preview_head(6, 3, 5, 21, BATCH).total())),
         "a share of previews: leave it out, this compares batches of the repairing code")

    def other(name, head, letters):
        case(name, share(head, letters), f"{batch_words(head)}, but 3.share is of {batch_words(head_of(SMALL, 3))}: give shares of one batch")

    other("another batch", head_of(SMALL, 5, 8), packets(SMALL, file_of(SMALL), 5))
    for name, number in (("another n", {"n": 7}), ("another k", {"k": 2}), ("another d", {"d": 5}), ("another L", {"l": 22}), ("another kind", {"l": 4097})):
        g = SMALL._replace(**number)
        other(name, head_of(g, 5), packets(g, file_of(g), 5))
    case("the same node twice", made[1], "node 1 again, after 1.share: give one share of each node")


def too_few(root):
    few = Situation(root, "too few")
    for node, data in shares_of(SMALL, [6, 2, 3, 1]).items():
        few.give(f"{node}.share", data)
    few.refused("it needs k+2 = 5 nodes and has 4: give more shares of this batch")
    one = Situation(root, "one file")
    one.give("6.share", shares_of(SMALL, [6])[6])
    one.refused("it needs k+2 = 5 nodes and has 1: give more shares of this batch")
    g = Group(5, 4, 4, 3)
    never = Situation(root, "never enough")
    for node, data in shares_of(g, [1, 2, 3, 4, 5]).items():
        never.give(f"{node}.share", data)
    never.refused("it needs k+2 = 6 nodes, and [5,4,4] never has more than 5")


def unread(root):
    """Files that can't be read, or not twice."""
    made = shares_of(SMALL, MIXED)

    def all_of(name):
        these = Situation(root, name)
        for node in MIXED:
            these.give(f"{node}.share", made[node])
        return these

    Situation(root, "no files").refused("no files: give it the shares of one batch, of at least k+2 nodes")
    missing = all_of("a file that isn't there")
    missing.args.insert(2, "none.share")
    missing.refused("none.share: No such file or directory")
    folder = all_of("a folder")
    folder.args.append(".")
    folder.refused(".: Is a directory")
    twice = all_of("a file twice")
    twice.args.append("6.share")
    twice.refused("6.share: node 6 again, after 6.share: give one share of each node")
    long_name = all_of("a name too long")
    long_name.args.append("x" * 4097)
    long_name.refused("argument 7 is too long for the name of a file: at most 4095 bytes")
    name = "x" * 4096
    longer_path = all_of("a name of 4,096 bytes")
    longer_path.args.append(name)
    longer_path.refused(f"{name}: File name too long")
    spaces = Situation(root, "names with spaces")
    for node in MIXED:
        spaces.give(f"the share of node {node}", made[node])
    stdout, status = answer(SMALL, [(f"the share of node {node}", node) for node in MIXED], [])
    spaces.must(stdout, "", status)
    several = all_of("several things at once")
    several.give("cut", made[5][:-1])
    several.give("none", b"")
    several.args.append("gone")
    several.give("other", share(head_of(SMALL, 5, 8), packets(SMALL, file_of(SMALL), 5)))
    several.refused(f"cut: {CUT}", f"none: {CUT}", "gone: No such file or directory",
                    f"other: {batch_words(head_of(SMALL, 5, 8))}, but 3.share is of {batch_words(head_of(SMALL, 3))}: give shares of one batch")
    pipe = Situation(root, "a pipe, which can't be read twice")
    for node in MIXED[1:]:
        pipe.give(f"{node}.share", made[node])
    pipe.args.append("/dev/stdin")
    pipe.piped = made[MIXED[0]]
    pipe.refused("/dev/stdin: not the share any more that it was a moment ago: each is read twice, so give files that stay as they are")


# the test


def test():
    wrong = [(5, 77), (5, 101)]
    made = shares_of(SMALL, MIXED, wrong)
    crate = "crates/odd"
    shutil.rmtree(f"{crate}/data", ignore_errors=True)
    os.mkdir(f"{crate}/data")
    names = [(f"disk{node}.share", node) for node in MIXED]
    for name, node in names:
        with open(f"{crate}/data/{name}", "wb") as out:
            out.write(made[node])
    with open(f"{crate}/args", "w", encoding="utf-8") as out:
        out.writelines(name + "\n" for name, _ in names)
    with open(f"{crate}/stdout", "w", encoding="utf-8") as out:
        out.write(answer(SMALL, names, wrong)[0])


if len(sys.argv) == 1:
    test()
else:
    for make in (answers, damaged, too_few, unread, limits):
        make(sys.argv[1])
