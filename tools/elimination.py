"""What the models share: systems of shifted sums written out, solved by elimination, their terms counted, and the programs' small generator.

Elimination knows nothing of shifts, rounds or delays. A system is a list of rows, one for each letter, each row the
unknowns that the letter is a sum of.
"""


def shift(node, column):
    """The shifts of the repairing code."""
    return (node - 1) * (column - 1)


def preview_shift(node, column):
    """The shifts of previews."""
    return node * (column - 1)


def equations(s, n, ids, t):
    """For each rank and place, in the order of the pieces, the unknowns that the letter is a sum of: letter p of the
    piece of rank b is the sum over a of letter p + t(b,b) - t(b,a) of sequence a, where a letter outside 1..n counts
    as zero. The code says which shifts `t` are."""
    rows = []
    for b in range(1, s + 1):
        for p in range(1, n + 1):
            row = []
            for a in range(1, s + 1):
                q = p + t(ids[b - 1], b) - t(ids[b - 1], a)
                if 1 <= q <= n:
                    row.append((a - 1) * n + (q - 1))
            rows.append(row)
    return rows


def by_gauss(rows, letters):
    """One number a row: its bits over the unknowns, and above them the eight bits of its letter."""
    size = len(rows)
    left = []
    for row, letter in zip(rows, letters):
        bits = letter << size
        for unknown in row:
            bits ^= 1 << unknown
        left.append(bits)
    pivots = []
    for column in range(size):
        at = next(i for i, bits in enumerate(left) if bits >> column & 1)
        pivot = left.pop(at)
        left = [bits ^ pivot if bits >> column & 1 else bits for bits in left]
        pivots = [bits ^ pivot if bits >> column & 1 else bits for bits in pivots]
        pivots.append(pivot)
    return [bits >> size for bits in pivots]


def by_substitution(rows, letters):
    """Of the equations left, any that has a single unknown, whose value is put into all others that have it."""
    value = [None] * len(rows)
    rest = list(letters)
    unknowns = [set(row) for row in rows]
    users = [[] for _ in rows]
    for i, row in enumerate(rows):
        for unknown in row:
            users[unknown].append(i)
    single = [i for i, left in enumerate(unknowns) if len(left) == 1]
    while single:
        i = single.pop()
        if not unknowns[i]:
            continue
        found = unknowns[i].pop()
        value[found] = rest[i]
        for j in users[found]:
            if j != i:
                unknowns[j].remove(found)
                rest[j] ^= value[found]
                if len(unknowns[j]) == 1:
                    single.append(j)
    assert None not in value
    return value


def summed(rows, answer):
    """The letter of every equation, from those of the unknowns."""
    letters = []
    for row in rows:
        letter = 0
        for unknown in row:
            letter ^= answer[unknown]
        letters.append(letter)
    return bytes(letters)


def solved(rows, letters, most=300, both=60):
    """Systems of up to `most` unknowns by Gauss's method, the others by substitution, those of up to `both` by both,
    which must agree. The answer is put back into every equation."""
    if len(rows) <= most:
        answer = by_gauss(rows, letters)
        assert len(rows) > both or answer == by_substitution(rows, letters)
    else:
        answer = by_substitution(rows, letters)
    assert summed(rows, answer) == bytes(letters)
    return answer


# systems of more equations than unknowns: the one answer that satisfies all of them, or none


def any_by_gauss(rows, letters, size):
    """Each equation is added up with those kept, until it has no unknown left or starts with one that none of those kept starts with:
    then it is kept too. Without an unknown it must say that zero is zero."""
    kept, unknowns = {}, (1 << size) - 1
    for row, letter in zip(rows, letters):
        bits = letter << size
        for unknown in row:
            bits ^= 1 << unknown
        while bits & unknowns and bits & -bits in kept:
            bits ^= kept[bits & -bits]
        if bits & unknowns:
            kept[bits & -bits] = bits
        elif bits:
            return None
    answer = [0] * size
    for unknown in reversed(range(size)):
        bits = kept[1 << unknown]
        answer[unknown] = bits >> size
        for later in range(unknown + 1, size):
            if bits >> later & 1:
                answer[unknown] ^= answer[later]
    return answer


def any_by_substitution(rows, letters, size):
    """Any equation that has a single unknown left gives its value, which is taken out of all others that have it. One without an unknown
    must say that zero is zero. Of the unknowns that are left in an equation their number and their sum are kept: a single one is the sum."""
    value, rest = [None] * size, list(letters)
    many, total = [len(row) for row in rows], [sum(row) for row in rows]
    users = [[] for _ in range(size)]
    for i, row in enumerate(rows):
        for unknown in row:
            users[unknown].append(i)
    if any(letter for letter, count in zip(rest, many) if count == 0):
        return None
    single = [i for i, count in enumerate(many) if count == 1]
    while single:
        i = single.pop()
        if many[i] == 0:
            continue
        found, letter = total[i], rest[i]
        value[found] = letter
        for j in users[found]:
            many[j] -= 1
            total[j] -= found
            rest[j] ^= letter
            if many[j] == 1:
                single.append(j)
            elif many[j] == 0 and rest[j]:
                return None
    assert None not in value
    return value


def any_solution(rows, letters, size, most=100, both=45):
    """The answer or none, with up to `most` unknowns by Gauss's method, with more by substitution, with up to `both` by both, which must agree.
    An answer is put back into every equation."""
    if size <= most:
        answer = any_by_gauss(rows, letters, size)
        assert size > both or answer == any_by_substitution(rows, letters, size)
    else:
        answer = any_by_substitution(rows, letters, size)
    assert answer is None or summed(rows, answer) == bytes(letters)
    return answer


# counts (docs/SCHEME.md, 8): one for each term whose letter, in what comes out, isn't zero. Beside each count stands the full sum, of the terms
# whose letter is inside its sequence, whatever it is


def terms_counted(sequence, move):
    """At each place p = 1..n of a piece a term takes letter p + move of a sequence of n letters. It counts where that letter is
    inside the sequence and isn't zero."""
    n, count = len(sequence), 0
    for p in range(1, n + 1):
        q = p + move
        if 1 <= q <= n and sequence[q - 1] != 0:
            count += 1
    return count


def all_terms(n, move):
    """The full sum of such terms."""
    return max(0, n - abs(move))


def additions(s, n, ids, t, solution):
    """Solving's count: over the ordered pairs of two ranks, equation (b,p) takes a letter of sequence a of the solution."""
    assert len(solution) == s * n
    count = 0
    for b in range(1, s + 1):
        for a in range(1, s + 1):
            if a != b:
                count += terms_counted(solution[(a - 1) * n : a * n], t(ids[b - 1], b) - t(ids[b - 1], a))
    return checked(count, all_additions(s, n, ids, t), solution)


def all_additions(s, n, ids, t):
    """The full sum of the same terms."""
    ranks = range(1, s + 1)
    return sum(all_terms(n, t(ids[b - 1], b) - t(ids[b - 1], a)) for b in ranks for a in ranks if a != b)


def others_in(rows, answer):
    """The same count by the equations, each of which stands at the index of the unknown that it is for: its other unknowns that aren't zero."""
    return sum(unknown != own and answer[unknown] != 0 for own, row in enumerate(rows) for unknown in row)


def checked(count, full, solution):
    """A count is never above the full sum, is the full sum where no letter that comes out is zero, and 0 where all are."""
    assert 0 <= count <= full
    assert count == full or 0 in solution
    assert count == 0 or any(solution)
    return count


def following(x):
    """The number after x of the generator."""
    return (x % 2147483648 * 1103515245 + 12345) % 2147483648


def generated(count, seed):
    letters, x = [], seed
    for _ in range(count):
        x = following(x)
        letters.append(x // 65536 % 256)
    return letters


def checksum(letters):
    total = 0
    for letter in letters:
        total = (total * 31 + letter + 1) % 4294967291
    return total
