#!/usr/bin/env python3
"""README's table of what the code costs and saves, from the formulas of docs/SCHEME.md (3, 4, 5, 7), beside Reed-Solomon of the same n and k:

    tools/costs.py

All numbers are letters for each letter of the file, exactly, at L = 4,096, rounded to two decimals. Stored: the T letters of all n nodes. Rebuild: the d
pieces of L' letters that are sent for the lost node that takes the most, which is the last. Recover: the B pieces of L letters. Reed-Solomon stores n/k, and
reads k parts of 1/k each both to rebuild a node and to recover.
"""
L = 4096
GROUPS = [(4, 2, 3), (6, 3, 4), (6, 3, 5), (9, 6, 8), (14, 10, 13), (16, 12, 15)]


def shift(node, column):
    return (node - 1) * (column - 1)


print("| [n,k,d] | stored | read to rebuild one node | read to recover | Reed-Solomon: stored | to rebuild | to recover |")
print("|---|---|---|---|---|---|---|")
for n, k, d in GROUPS:
    sequences = k * d - k * (k - 1) // 2
    file = sequences * L
    stored = sum(d * (L + shift(node, d)) for node in range(1, n + 1)) / file
    rebuild = d * (L + shift(n, d)) / file
    recover = sequences * L / file
    print(f"| [{n},{k},{d}] | {stored:.2f} | {rebuild:.2f} | {recover:.2f} | {n / k:.2f} | 1.00 | 1.00 |")
