#!/usr/bin/env python3
"""Counts the places of docs/DESIGN-PASS.md, point by point, in crates/*/src (and the proof files, for point 8).

  tools/design_counts.py            the counts
  tools/design_counts.py POINT ..   the places of these points, a line for each: file:line and what stands there
  tools/design_counts.py --at COMMIT ..   the same of an earlier commit

A place is a line (points 1, 3, 4, 7), a function that is alike with another one (2), a fact or a group of parameters (5), a parameter list (6) or a file (8).
"""
import collections, os, re, subprocess, sys, tempfile

args = sys.argv[1:]
root = os.path.dirname(os.path.dirname(os.path.abspath(__file__)))
if args[:1] == ["--at"]:
    there = tempfile.mkdtemp()
    tar = subprocess.run(["git", "-C", root, "archive", args[1], "crates"], stdout=subprocess.PIPE, check=True).stdout
    subprocess.run(["tar", "-x", "-C", there], input=tar, check=True)
    root, args = there, args[2:]

sources = {}
for folder, _, names in sorted(os.walk(os.path.join(root, "crates"))):
    parts = os.path.relpath(folder, root).split(os.sep)
    if len(parts) > 2 and parts[2] == "src":
        for name in sorted(names):
            if name.endswith(".rt"):
                path = os.path.join(folder, name)
                sources[os.path.relpath(path, root)] = open(path, encoding="utf-8").read()


def lines(pattern, comments=False):
    found = []
    for path, text in sources.items():
        for n, line in enumerate(text.split("\n"), 1):
            bare = line if comments else line.split("//")[0]
            if re.search(pattern, bare):
                found.append(f"{path}:{n}: {line.strip()}")
    return found


FN = re.compile(r"^ *(?:#\[[^\n]*\n *)?((?:pub )?(?:extern \"C\" )?fn (\w+).*?)^( *)\{\n(.*?)^\3\}", re.M | re.S)


def functions():
    for path, text in sources.items():
        for m in FN.finditer(text):
            yield path, text[: m.start()].count("\n") + 1, m[2], m[1], m[4]


def signature(head):
    return re.split(r"\n *(?:requires|ensures)\b", head)[0]


def parameters(head):
    inside = signature(head)
    inside = inside[inside.index("(") + 1 :] if "(" in inside else ""
    return [(n, t.strip()) for n, t in re.findall(r"(\w+): (&?(?:'\w+ )?(?:mut )?[^,()]+)", inside.split("->")[0])]


def twins():
    """Functions whose text is the same but for names, numbers and types."""
    alike = collections.defaultdict(list)
    for path, n, name, head, body in functions():
        text = re.sub(r"//[^\n]*", "", signature(head) + body)
        words = re.findall(r"b?\"[^\"]*\"|\w+|[^\s\w]", text)
        if len(words) < 20:
            continue
        names, shape = {}, []
        for w in words:
            if re.match(r"[a-z_A-Z]", w) and w not in ("if", "else", "while", "for", "in", "let", "mut", "return", "fn", "pub", "match"):
                w = names.setdefault(w, f"${len(names)}")
            elif re.match(r"\d", w):
                w = "0"
            shape.append(w)
        alike[" ".join(shape)].append(f"{path}:{n}: {name}")
    return [place + f"  (as {len(group) - 1} more)" for group in alike.values() if len(group) > 1 for place in group]


def facts():
    """What the contracts of three functions or more ask of their parameters, and four parameters or more that three functions take together."""
    asked, together = collections.defaultdict(set), collections.defaultdict(set)
    for path, n, name, head, _ in functions():
        for clause in re.findall(r"requires[^{\n]*\{([^\n]*)\}", head):
            for fact in re.findall(r"\(?([A-Z]\w+(?: [\w.]+)+)", clause):
                asked[fact].add(f"{path}:{name}")
        names = tuple(p for p, _ in parameters(head) if p != "self")
        for size in range(4, len(names) + 1):
            for i in range(len(names) - size + 1):
                together[names[i : i + size]].add(f"{path}:{name}")
    out = [f"{fact}: asked by {len(of)} functions" for fact, of in sorted(asked.items()) if len(of) > 2]
    widest = {g: of for g, of in together.items() if len(of) > 2}
    for g, of in sorted(widest.items(), key=lambda x: -len(x[0])):
        if not any(g != h and len(widest[h]) >= len(of) and any(h[i : i + len(g)] == g for i in range(len(h))) for h in widest):
            out.append(f"({', '.join(g)}): together in {len(of)} functions")
    return out


def lengths():
    """A slice with a number of its elements or a place in it beside it."""
    out = []
    for path, n, name, head, _ in functions():
        ps = parameters(head)
        for (a, t), (b, u) in zip(ps, ps[1:]):
            if re.match(r"&(?:'\w+ )?(?:mut )?\[", t) and u == "usize" and b in ("count", "sources", "start", "from", "at", "size", "end", "kept", "wanted", "to"):
                out.append(f"{path}:{n}: {name}({a}: {t}, {b})")
                break
    return out


def proofs():
    out = []
    for folder, _, names in sorted(os.walk(os.path.join(root, "crates"))):
        parts = os.path.relpath(folder, root).split(os.sep)
        if len(parts) > 3 and parts[2] == "proofs":
            out += [os.path.relpath(os.path.join(folder, n), root) for n in names if n in ("Answers.antt", "Invariants.antt")]
    return out


POINTS = {
    "1a": ("own enums of the shape of a Result: their cases by name", lambda: lines(r"\b(Answer|Check|Judgment|Coming)::[A-Z]")),
    "1b": ("flags among values: fields that are a bool", lambda: lines(r"^\s*(pub )?[a-z_]+: bool,$")),
    "1c": ("a number of which 0 says that there is none", lambda: lines(r"//.*\b0 (where|for|if|in)\b.*\b(none|no|nothing|isn't|aren't|hasn't)\b|//.*\belse 0\b", True)),
    "2": ("twins: functions that differ in names, numbers and types alone", twins),
    "3": ("`while` loops", lambda: lines(r"^\s*('\w+: )?while ")),
    "4": ("equality, differences and conversions by hand", lambda: lines(r"fn (same|same_\w+|differ|blank|less_one|past|value|value_of|outcome|byte|lesser|is_between)\(|\.(\w+) != \w+\.\1\b|\.(\w+) == \w+\.\2\b")),
    "5": ("facts in three contracts or more, parameters that travel together", facts),
    "6": ("a slice with a length or a place beside it", lengths),
    "7": ("a switch on a number that says which step to run", lambda: lines(r"match operation|operation (<|==) \d|\d+ < (line\.)?operation")),
    "8": ("answers and invariants: files", proofs),
}

if args:
    for point in args:
        for key, (what, places) in POINTS.items():
            if key == point or key.rstrip("abc") == point:
                print(f"{key}: {what}")
                for place in places():
                    print(f"  {place}")
else:
    for key, (what, places) in POINTS.items():
        print(f"{key:3} {len(places()):4}  {what}")
