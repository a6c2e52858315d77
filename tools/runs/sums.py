"""Document 01's lengths, places and sums (docs/SCHEME.md, 3 to 8), which the models of the repairing code share, tools/store_model,
tools/odd_model.py and tools/longer_model.py.

Packets and a helper's piece are sums of moved sequences. Recovery and repair write out, for every letter of a buffer, which unknown letters it is the sum
of, and solve these equations by elimination (tools/elimination.py): all letters of all columns at once, in no order of ours. The counts go term by term
over what comes out. A group is one of tools/groups.py. Nothing is refused here.
"""
from elimination import additions, all_additions, all_terms, checked, equations, shift, solved, terms_counted
from groups import moved, window


def file_letters(g):
    return (g.k * g.d - g.k * (g.k - 1) // 2) * g.l


def packet_length(g, node):
    return g.l + shift(node, g.d)


def node_letters(g, node):
    return g.d * packet_length(g, node)


def sequence(g, v, u):
    """The number of the sequence at m(v,u); none in the zero corner."""
    v, u = min(v, u), max(v, u)
    if v > g.k:
        return None
    return u * (u - 1) // 2 + v if u <= g.k else g.k * (g.k + 1) // 2 + (u - g.k - 1) * g.k + v


def terms(g, node, column, p):
    """The letters of the file, counted from 0, that letter p of a packet is the sum of."""
    found = []
    for u in range(1, g.d + 1):
        number, q = sequence(g, u, column), p - shift(node, u)
        if number and 1 <= q <= g.l:
            found.append((number - 1) * g.l + q - 1)
    return found


def packets(g, file, node):
    size, made = packet_length(g, node), []
    for j in range(1, g.d + 1):
        total = 0
        for u in range(1, g.d + 1):
            number = sequence(g, u, j)
            if number:
                total ^= moved(file[(number - 1) * g.l : number * g.l], shift(node, u))
        made.append(window(total, 0, size))
    return b"".join(made)


def entries(g):
    return [(v, u) for u in range(1, g.d + 1) for v in range(1, min(u, g.k) + 1)]


def entry_start(g, rank, column):
    return entries(g).index((rank, column)) * g.l


def piece_start(g, node, rank, column):
    return (column - 1) * packet_length(g, node) + shift(node, rank)


def packets_sum(g, held, node):
    """Packets added up, packet j moved to the right by t(node,j), the shifts of another node than holds them: one number, as `moved` gives it."""
    size, total = len(held) // g.d, 0
    for j in range(1, g.d + 1):
        total ^= moved(held[(j - 1) * size : j * size], shift(node, j))
    return total


def helper_piece(g, lost, helper, rank, held):
    return window(packets_sum(g, held, lost), shift(helper, rank), packet_length(g, lost))


def buffer_of(g, ids, file):
    """What these nodes send of a file: the piece of every entry at its place."""
    held = {node: packets(g, file, node) for node in ids}
    starts = [(piece_start(g, ids[v - 1], v, u), held[ids[v - 1]]) for v, u in entries(g)]
    return b"".join(letters[start : start + g.l] for start, letters in starts)


def recovered(g, ids, buffer, known):
    """The one file that the buffer comes from. Where a file is `known`, it is only seen that the buffer does come from it."""
    if known is not None:
        assert buffer_of(g, ids, known) == buffer
        return known
    return bytes(solved(recovery_equations(g, ids), buffer, 600, 200))


def recovery_equations(g, ids):
    """For each letter of a buffer the letters of the file that it is the sum of."""
    places = [(v, u, p) for v, u in entries(g) for p in range(1, g.l + 1)]
    return [terms(g, ids[v - 1], u, p + shift(ids[v - 1], v)) for v, u, p in places]


def takings(g, ids):
    """What takes a solved column u out of the earlier ones: place p of piece w of column v takes letter p + move of m(v,u). The move is never above zero."""
    for u in range(2, g.d + 1):
        for v in range(1, min(u - 1, g.k) + 1):
            for w in range(1, v + 1):
                yield v, u, shift(ids[w - 1], w) - shift(ids[w - 1], u)


def recovery_count(g, ids, file):
    """Over the file that comes out: for each column the terms of solving it, and those that take it out of the earlier ones."""

    def m(v, u):
        number = sequence(g, v, u)
        return file[(number - 1) * g.l : number * g.l]

    count = 0
    for u in range(1, g.d + 1):
        s = min(u, g.k)
        count += additions(s, g.l, ids, shift, b"".join(m(v, u) for v in range(1, s + 1)))
    for v, u, move in takings(g, ids):
        count += terms_counted(m(v, u), move)
    return checked(count, all_recovery(g, ids), file)


def all_recovery(g, ids):
    """The full sum of the same terms."""
    solving = sum(all_additions(min(u, g.k), g.l, ids, shift) for u in range(1, g.d + 1))
    return solving + sum(all_terms(g.l, move) for _, _, move in takings(g, ids))


def repair_equations(g, lost, helpers):
    return equations(g.d, packet_length(g, lost), helpers, shift)


def repaired(g, lost, helpers, buffer):
    return bytes(solved(repair_equations(g, lost, helpers), buffer, 600, 200))


def repair_count(g, lost, helpers, made):
    """Over the packets that come out."""
    return additions(g.d, packet_length(g, lost), helpers, shift, made)


def all_repair(g, lost, helpers):
    """The full sum of the same terms."""
    return all_additions(g.d, packet_length(g, lost), helpers, shift)
