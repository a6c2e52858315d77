"""The store's calls as lines of a script (operations 11 to 19, docs/SCRIPTS.md), with what they answer and leave by document 01 (docs/SCHEME.md, 3 to 8 and
11) alone, for the models whose parts have them: tools/store_model, tools/odd_model.py and tools/longer_model.py.

tools/sums.py has document 01's sums, and solves recovery and repair by elimination. Where that would take too long, what comes out is `known`: then it is
only seen that the buffer comes from it.
"""
from groups import bad_id, bad_ids, bad_length, lowest, named, rising
from script import NONE, SCRIPT, listed
from sums import (
    entry_start, file_letters, helper_piece, node_letters, packet_length, packets, piece_start, recovered, recovery_count, repair_count, repaired
)

# the table of refusals


def of_group(g):
    numbers = 3 <= g.n <= 16 and 2 <= g.k <= g.d <= g.n - 1
    return (1, lambda: not numbers), (2, lambda: bad_length(g))


def bad_place(g, rank, column):
    return not (1 <= rank <= g.k and rank <= column <= g.d)


# the calls: each makes its line, and leaves in B what document 01 says (docs/SCHEME.md, 4 to 8 and 11)


def line(operation, name, a, b, g, words, number, value):
    SCRIPT.line(operation, name, a, b, named(g) + words, f": {number} value {0 if number else value()}")
    return number


def encode(a, b, g, node):
    file, out = SCRIPT.in_a(a), SCRIPT.in_b(b)
    number = lowest(
        *of_group(g),
        (3, lambda: bad_id(g, node)),
        (5, lambda: len(file) != file_letters(g)),
        (6, lambda: len(out) != node_letters(g, node)),
    )
    if not number:
        SCRIPT.into_b(b, packets(g, file, node))
    return line(11, "encode", a, b, g, f" node {node}", number, lambda: 0)


def piece(a, b, g, node, rank, column):
    """The program puts the piece at the start of B's slice, as far as there is room."""
    held, out = SCRIPT.in_a(a), SCRIPT.in_b(b)
    number = lowest(
        *of_group(g), (3, lambda: bad_id(g, node) or bad_place(g, rank, column)), (5, lambda: len(held) != node_letters(g, node))
    )
    if not number:
        start = piece_start(g, node, rank, column)
        SCRIPT.into_b(b, (held[start : start + g.l] + out[g.l :])[: len(out)])
    words = f" node {node} rank {rank} column {column}"
    return line(12, "piece", a, b, g, words, number, lambda: piece_start(g, node, rank, column))


def assist(a, b, g, lost, helper, rank):
    held, out = SCRIPT.in_a(a), SCRIPT.in_b(b)
    number = lowest(
        *of_group(g),
        (3, lambda: bad_id(g, lost) or bad_id(g, helper) or not 1 <= rank <= g.d),
        (4, lambda: lost == helper),
        (5, lambda: len(held) != node_letters(g, helper)),
        (6, lambda: len(out) != packet_length(g, lost)),
    )
    if not number:
        SCRIPT.into_b(b, helper_piece(g, lost, helper, rank, held))
    return line(13, "help", a, b, g, f" lost {lost} helper {helper} rank {rank}", number, lambda: 0)


def recover(b, g, ids, known=None):
    buffer = SCRIPT.in_b(b)
    number = lowest(
        *of_group(g), (3, lambda: bad_ids(g, ids, g.k)), (4, lambda: rising(ids)), (5, lambda: len(buffer) != file_letters(g))
    )
    if not number:
        SCRIPT.into_b(b, recovered(g, ids, buffer, known))
    return line(14, "recover", NONE, b, g, listed(" nodes", ids), number, lambda: recovery_count(g, ids, SCRIPT.in_b(b)))


def repair(b, g, lost, helpers, known=None):
    buffer = SCRIPT.in_b(b)
    number = lowest(
        *of_group(g),
        (3, lambda: bad_id(g, lost) or bad_ids(g, helpers, g.d)),
        (4, lambda: rising(helpers) or lost in helpers),
        (5, lambda: len(buffer) != node_letters(g, lost)),
    )
    if not number:
        SCRIPT.into_b(b, repaired(g, lost, helpers, buffer, known))
    words = listed(f" lost {lost} helpers", helpers)
    return line(15, "repair", NONE, b, g, words, number, lambda: repair_count(g, lost, helpers, SCRIPT.in_b(b)))


def sizes(g, node):
    ids = (3, lambda: bad_id(g, node))
    line(16, "file letters", NONE, NONE, g, "", lowest(*of_group(g)), lambda: file_letters(g))
    line(17, "node letters", NONE, NONE, g, f" node {node}", lowest(*of_group(g), ids), lambda: node_letters(g, node))
    line(18, "piece letters", NONE, NONE, g, f" lost {node}", lowest(*of_group(g), ids), lambda: packet_length(g, node))


def entry(g, rank, column):
    number = lowest(*of_group(g), (3, lambda: bad_place(g, rank, column)))
    return line(19, "entry", NONE, NONE, g, f" rank {rank} column {column}", number, lambda: entry_start(g, rank, column))
