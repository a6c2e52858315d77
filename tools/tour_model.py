#!/usr/bin/env python3
"""What the program `tour` says, from document 01's sums alone (docs/SCHEME.md, 4, 7, 8 and 9; no code is shared with the store), tools/shares.py for the judge:

    tools/tour_model.py > crates/tour/stdout

The two lines that compare letters are what the document promises: a repair and a recovery leave exactly what was lost.
"""
import sys

sys.dont_write_bytecode = True
from elimination import additions, all_additions, all_terms, checked, generated, terms_counted
from shares import judge, short

N, K, D, L = 6, 3, 4, 16


def t(i, j):
    return (i - 1) * (j - 1)


# the batch: `tour` scatters its letters by the generator, seed 7
entries = [(v, u) for u in range(1, D + 1) for v in range(1, min(u, K) + 1)]
file = generated(len(entries) * L, 7)


def m(v, u):
    """An entry of the matrix; zeros in its corner."""
    v, u = min(v, u), max(v, u)
    if (v, u) not in entries:
        return [0] * L
    start = entries.index((v, u)) * L
    return file[start : start + L]


def packets(node):
    """All letters that a disk holds (docs/SCHEME.md, 4)."""
    letters = []
    for j in range(1, D + 1):
        for p in range(1, L + t(node, D) + 1):
            letter = 0
            for u in range(1, D + 1):
                if 1 <= p - t(node, u) <= L:
                    letter ^= m(u, j)[p - t(node, u) - 1]
            letters.append(letter)
    return letters


def recovering(ids):
    """The count of a recovery (docs/SCHEME.md, 8): the columns are solved, and taken out of the earlier ones."""
    count = full = 0
    for u in range(1, D + 1):
        s = min(u, K)
        count += additions(s, L, ids, t, [letter for v in range(1, s + 1) for letter in m(v, u)])
        full += all_additions(s, L, ids, t)
        for v in range(1, min(u - 1, K) + 1):
            for w in range(1, v + 1):
                move = t(ids[w - 1], w) - t(ids[w - 1], u)
                count += terms_counted(m(v, u), move)
                full += all_terms(L, move)
    return checked(count, full, file)


batch = (K * D - K * (K - 1) // 2) * L
print(f"A batch of {batch} letters goes to {N} disks; any {K} give it back, any {D} rebuild a lost one.")
for node in range(1, N + 1):
    letters = D * (L + t(node, D))
    print(f"  disk {node}: {letters} letters in a share of {11 + -(-letters // 64) * 65 + 5} bytes, judged complete")
print("Disk 5 fills up: its share has 145 of 146 bytes, judged unfinished, so it is never read as whole.")
print(f"Disks 2 and 5 are lost: zeros in their place are judged malformed {short(judge([0] * 146))}.")
piece = L + t(2, D)
print(f"Disk 2 is rebuilt from disks 6, 4, 3 and 1: they send {D * piece} letters, where the whole batch has {batch}; "
      f"letters added that are not zero: {additions(D, piece, [6, 4, 3, 1], t, packets(2))}.")
print("  Its packets are letter for letter what they were; its share is judged complete.")
print(f"The batch is recovered from disks 4, 2 and 1: they send {batch} letters, no more than it has; letters added that are not zero: {recovering([4, 2, 1])}.")
print("  It is the batch, letter for letter.")
