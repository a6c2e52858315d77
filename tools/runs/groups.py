"""What the models of calls on groups share, tools/store_model, tools/odd_model.py and tools/longer_model.py for the repairing code, and tools/preview_model.py for previews: letters that are
moved, the papers' printed sums, the checks that both codes have, letters of which most are zero or none is, and numbers of the generator that are mostly right.
"""
from collections import namedtuple

from elimination import generated

# d is 0 in a group of previews
Group = namedtuple("Group", "n k d l")


# letters that are moved


def moved(letters, right):
    """Letters as one number, its lowest byte the letter at position 1, moved right by so many positions."""
    return int.from_bytes(letters, "little") << (8 * right)


def window(total, start, count):
    """The letters at positions start + 1 to start + count."""
    return (total >> (8 * start) & ((1 << (8 * count)) - 1)).to_bytes(count, "little")


def moved_sum(file, size, moves, length):
    """A sum as a paper prints it: of sequences of so many letters, each with the places that it is moved right by (below zero: left). The answer has
    the letters at positions 1 to length."""
    answer = []
    for p in range(1, length + 1):
        letter = 0
        for x, move in moves.items():
            if 1 <= p - move <= size:
                letter ^= file[(x - 1) * size + p - move - 1]
        answer.append(letter)
    return bytes(answer)


# the table of refusals: each check gives its number, and the lowest that applies is given


def lowest(*checks):
    return next((number for number, wrong in checks if wrong()), 0)


def bad_length(g):
    """Previews have shorter sequences."""
    return not 1 <= g.l <= (4096 if g.d == 0 else 1048576)


def bad_id(g, node):
    return not 1 <= node <= g.n


def bad_ids(g, ids, wanted):
    return len(ids) != wanted or any(bad_id(g, node) for node in ids)


def rising(ids):
    return any(a <= b for a, b in zip(ids, ids[1:]))


# ids that are chosen


def spread(s, first=1):
    """So many ids of first..16, as far apart as they can be."""
    return sorted({first + (16 - first) * i // (s - 1) for i in range(s)}, reverse=True)


# what comes out, for the counts: one letter that isn't zero, a few, or no zero at all


def ends(n):
    """The first of 1..n, a middle one and the last."""
    return sorted({1, (n + 1) // 2, n})


def one_letter(count, n, x, p):
    """So many sequences of n letters, zeros but for letter p of sequence x."""
    letters = bytearray(count * n)
    letters[(x - 1) * n + p - 1] = 16 * (x % 15 + 1) + p % 16
    return bytes(letters)


def everywhere(count, n):
    """One letter: in the first sequence, a middle one and the last, and in each at the first place, a middle one and the last."""
    return [one_letter(count, n, x, p) for x in ends(count) for p in ends(n)]


def in_each(count, n):
    """One letter in each sequence, at these places in turn."""
    places = ends(n)
    return [one_letter(count, n, x, places[x % len(places)]) for x in range(1, count + 1)]


def crossed(count, n):
    """One letter at one of the four corners or in the middle: of the first sequence and of the last, the one end is in the most pieces and the other in
    the fewest."""
    middle = ((count + 1) // 2, (n + 1) // 2)
    return [one_letter(count, n, x, p) for x, p in sorted({(1, 1), (1, n), middle, (count, 1), (count, n)})]


def few(chooser, size, of=8):
    """Letters of which about one in so many isn't zero, and one at least."""
    letters = bytearray(size)
    for at in range(size):
        if chooser.chance(of):
            letters[at] = chooser.within(1, 255)
    letters[chooser.within(0, size - 1)] = chooser.within(1, 255)
    return bytes(letters)


def seed_without_zero(size, answer, seed):
    """The next seed of the generator with whose letters nothing that is answered is zero."""
    while 0 in answer(bytes(generated(size, seed))):
        seed += 1
    return seed


# numbers of the generator, of which some are damaged


def near(chooser, right):
    """A number, mostly the right one."""
    return max(0, right + chooser.one_of([-1, 1, 1, -right, 7])) if chooser.chance(6) else right


def any_ids(chooser, g, wanted, but):
    """Falling ids, mostly; sometimes two of them are swapped or the same, or one is outside, missing, added or the one left out."""
    ids = chooser.falling(g.n, wanted, but)
    if chooser.chance(4) and len(ids) > 1:
        at = chooser.within(0, len(ids) - 2)
        change = chooser.within(1, 6)
        if change == 1:
            ids[at], ids[at + 1] = ids[at + 1], ids[at]
        elif change == 2:
            ids[at] = ids[at + 1]
        elif change == 3:
            ids[at] = chooser.one_of([0, g.n + 1, 17, 65537])
        elif change == 4:
            del ids[at]
        elif change == 5:
            ids.append(chooser.within(0, g.n))
        else:
            ids[at] = but or 1
    return ids


def bounded(count):
    """A length that a wrong group gives may be any."""
    return max(0, min(count, 70000))
