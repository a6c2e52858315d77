#!/usr/bin/env python3
"""The picture of the crates, from crates.txt: a box for each, above those that it stands on, with an arrow to each that no other of them reaches already.

    python3 tools/house.py > docs/house.svg

A box has the colour of its room, as README.md has the crates: each table of its section "The crates" is a room, and the list of colours is at the picture's
left. The tests, grey, stand in a row of their own above the house: under each is what it stands on.
"""
import re

COLOURS = ["#f3e3d3", "#f7edc4", "#e6e6c8", "#dff0d8", "#d3ece6", "#e8e0f0", "#d9e6d0", "#f0dede", "#dde8f7"]
TESTS = {"examples", "desk", "marks", "disks", "rescue", "lines", "pages", "script_line", "script", "judged_words", "lending", "calls", "odd_calls", "share_calls",
         "arriving_calls", "arriving_words", "preview_calls", "all_calls", "trials", "store_runs", "odd_runs", "preview_runs", "share_runs", "arriving_runs", "longer_runs",
         "verdict_runs", "bench_runs", "bench_counts"}
WIDTH, HEIGHT, GAP, RISE, LANE = 92, 28, 16, 70, 14
LONGEST = 12  # letters of a name that fit into a box as they are; longer ones are written smaller


def crates():
    deps = {}
    for line in open("crates.txt", encoding="utf-8"):
        line = line.split("#")[0].strip()
        if line:
            name, rest = line.split(":")
            deps[name.split()[0]] = rest.split()
    return {name: [d for d in rest if d in deps] for name, rest in deps.items()}


def rooms():
    """The rooms of README.md, in its order, and the crates of each."""
    text = open("README.md", encoding="utf-8").read()
    section = text[text.index("## The crates") : text.index("**Its tests**")]
    found = {}
    for line in section.splitlines():
        cells = [cell.strip() for cell in line.split("|")]
        if len(cells) > 3 and cells[1] == "crate":
            room = found.setdefault(cells[2], set())
        elif len(cells) > 3:
            room.update(re.findall("`([a-z_0-9]+)`", cells[1]))
    return found


def reached(deps, name):
    seen, todo = set(), list(deps[name])
    while todo:
        d = todo.pop()
        if d not in seen:
            seen.add(d)
            todo += deps[d]
    return seen


def arrows(deps):
    """Each crate's dependencies that are not reached through another of them."""
    return {n: [d for d in ds if not any(d in reached(deps, e) for e in ds if e != d)] for n, ds in deps.items()}


def levels(deps, lines):
    """One more than the highest below; a crate that stands on nothing is drawn right below the first that stands on it, or at the top if none does."""
    level = {}

    def of(n):
        if n not in level:
            level[n] = 1 + max((of(d) for d in deps[n]), default=-1)
        return level[n]

    for n in deps:
        of(n)
    for n in deps:
        above = [level[u] for u in deps if n in lines[u]]
        if not deps[n]:
            level[n] = min(above) - 1 if above else max(level.values())
    return level


def rows_of(level, lines):
    """The boxes of each level, and between two levels that aren't neighbours a bend (a pair of numbers) for the arrow on each level that it passes."""
    rows = [[n for n in level if level[n] == i] for i in range(max(level.values()) + 1)]
    ways = []
    for n, ds in lines.items():
        for d in ds:
            bends = [(len(ways), i) for i in range(level[n] - 1, level[d], -1)]
            for bend in bends:
                rows[bend[1]].append(bend)
            ways.append([n] + bends + [d])
    return rows, ways


def centred(row):
    """Where the middle of each box or bend of a row stands, the row's own middle being 0."""
    sizes = [LANE if isinstance(n, tuple) else WIDTH + GAP for n in row]
    x, place = -sum(sizes) / 2, {}
    for n, size in zip(row, sizes):
        place[n] = x + size / 2
        x += size
    return place


def ordered(rows, ways):
    """Each row by where its neighbours stand, up and down several times, so that arrows cross little. The best order seen is kept."""
    near = {}
    for way in ways:
        for a, b in zip(way, way[1:]):
            near.setdefault(a, []).append(b)
            near.setdefault(b, []).append(a)

    def places():
        return {n: x for row in rows for n, x in centred(row).items()}

    def length():
        at = places()
        return sum(abs(at[a] - at[b]) for way in ways for a, b in zip(way, way[1:]))

    best, kept = length(), [list(row) for row in rows]
    for turn in range(40):
        for row in rows if turn % 2 else reversed(rows):
            at = places()
            row.sort(key=lambda n: sum(at[m] for m in near.get(n, [n])) / len(near.get(n, [n])))
        if length() < best:
            best, kept = length(), [list(row) for row in rows]
    return kept


def box(name, x, y, fill):
    print(f'<rect x="{x - WIDTH / 2:.0f}" y="{y:.0f}" width="{WIDTH}" height="{HEIGHT}" rx="5" fill="{fill}" stroke="#777"/>')
    squeezed = f' font-size="{13 * LONGEST / len(name):.1f}"' if len(name) > LONGEST else ""
    print(f'<text x="{x:.0f}" y="{y + 19:.0f}" text-anchor="middle"{squeezed}>{name}</text>')


def tests(deps, lines, wide, top):
    """The row of the tests, and under each box what it stands on."""
    step = (wide - GAP) / len(TESTS)
    for i, n in enumerate(d for d in deps if d in TESTS):
        x = GAP / 2 + step * (i + 0.5)
        box(n, x, top, "#eeeeee")
        for j, d in enumerate(lines[n]):
            print(f'<text x="{x:.0f}" y="{top + HEIGHT + 14 + 13 * j:.0f}" text-anchor="middle" font-size="11" fill="#666">{d}</text>')


def main():
    deps = crates()
    lines = arrows(deps)
    house = {n: ds for n, ds in deps.items() if n not in TESTS}
    own = arrows({n: [d for d in ds if d in house] for n, ds in house.items()})
    rows, ways = rows_of(levels({n: [d for d in ds if d in house] for n, ds in house.items()}, own), own)
    rows = ordered(rows, ways)
    strip = HEIGHT + 20 + 13 * max(len(lines[n]) for n in TESTS)
    across = {i: centred(row) for i, row in enumerate(rows)}
    wide = max(max((max(r.values()) - min(r.values()) + WIDTH for r in across.values())) + 2 * GAP, len(TESTS) * (WIDTH + 8) + GAP)
    tall = strip + len(rows) * RISE + GAP
    at = {n: (x + wide / 2, tall - (i + 1) * RISE) for i, row in across.items() for n, x in row.items()}
    print(f'<svg xmlns="http://www.w3.org/2000/svg" width="{wide:.0f}" height="{tall}" font-family="sans-serif" font-size="13">')
    print('<defs><marker id="a" markerWidth="8" markerHeight="8" refX="7" refY="4" orient="auto"><path d="M0,0 L8,4 L0,8 z" fill="#888"/></marker></defs>')
    print(f'<rect width="{wide:.0f}" height="{tall}" fill="white"/>')
    for way in ways:
        points = [(at[way[0]][0], at[way[0]][1] + HEIGHT)]
        for bend in way[1:-1]:
            points += [(at[bend][0], at[bend][1]), (at[bend][0], at[bend][1] + HEIGHT)]
        points.append(at[way[-1]])
        print('<polyline fill="none" stroke="#999" marker-end="url(#a)" points="' + " ".join(f"{x:.0f},{y:.0f}" for x, y in points) + '"/>')
    colour = {}
    for i, (room, names) in enumerate(rooms().items()):
        colour.update((name, COLOURS[i % len(COLOURS)]) for name in names)
        y = tall - GAP - 22 * (len(rooms()) - i)
        print(f'<rect x="{GAP}" y="{y}" width="16" height="14" rx="3" fill="{COLOURS[i % len(COLOURS)]}" stroke="#777"/>')
        print(f'<text x="{GAP + 24}" y="{y + 12}">{room}</text>')
    for n in house:
        box(n, *at[n], colour[n])
    tests(deps, lines, wide, GAP / 2)
    print("</svg>")


main()
