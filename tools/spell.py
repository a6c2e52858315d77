#!/usr/bin/env python3
"""Brings the names that this repository's specs/ and proofs/ declare to today's spelling, snake case: fileLetters is file_letters, and mul-assoc mul_assoc.

usage: tools/spell.py [FOLDER]      in place, over FOLDER/crates (default: the checkout); run once, after the kit's port.py. --list prints the table and writes nothing.

A name that begins with a capital keeps it, and its dashes are underscores too. A lemma whose new name another declaration has gets _lem. A name that a file
imports from a library stays there. What a proof file calls a goal is Rattle's name, not this repository's, and stays.
Comments turn where a name stands in backquotes, or is spelled as no English word is.
"""
import collections
import os
import re
import sys

WORD = r'[^\s(){}.;,@"«»`]+'
DECLARED = re.compile(r"(?m)^ *(?:(?:pub|abbrev|unfoldable) )*(" + WORD + r")(?: \{[^{}\n]*\})* :(?= |$)([^\n]*\n?[^\n]*)")
USED = re.compile(r"(?m)^ *(?:ghost )?use (\S+?)\.\{([^}]*)\};?$")
RUST = re.compile(r'//[^\n]*|b?"(?:\\.|[^"\\])*"|b?\'(?:\\.|[^\'\\])\'|[^\s(){}.;,@"«»`\']+|\s+|.', re.S)
# Lemmas that have the name of what they are about once that is in snake case: they give way to it.
GIVES_WAY = {n: n + "_lem" for n in ("stands_at", "low_stands", "below_one")}


def files(root, endings):
    for folder, dirs, names in os.walk(os.path.join(root, "crates")):
        dirs[:] = sorted(d for d in dirs if d != "out")
        for name in sorted(names):
            if name.endswith(endings):
                yield os.path.join(folder, name)


def read(path):
    with open(path, encoding="utf-8") as f:
        return f.read()


def snake(name):
    if name[0].islower():
        name = re.sub(r"(?<=[a-z0-9])([A-Z])", lambda m: "_" + m[1].lower(), name)
    return name.replace("-", "_")


def table(root):
    own = set(os.listdir(os.path.join(root, "crates")))
    declared, library = collections.Counter(), collections.defaultdict(set)
    for path in files(root, (".antt", ".rt")):
        text = re.sub(r"--[^\n]*", "", read(path))
        for m in USED.finditer(text):
            steps = m[1].split(".")
            if not (steps[0] == "Rattle" and len(steps) > 1 and steps[1] in own):
                for item in m[2].split(","):
                    library[path].add(item.split(" as ")[-1].strip())
        if path.endswith(".antt"):
            for m in DECLARED.finditer(text):
                if not m[2].lstrip().startswith("tie."):
                    declared[m[1]] += 1
    turned = {}
    taken = collections.Counter(n for n in declared if snake(n) == n and n not in GIVES_WAY)
    for name in sorted(declared, key=lambda n: ("-" in n, n)):
        new = snake(name)
        if new == name or name.startswith("-"):
            continue
        while new in taken:
            new += "_lem"
        taken[new] += 1
        turned[name] = new
    return turned, library


def turn_code(text, turned, stay, antt=False):
    def one(m):
        word = m[0]
        if word in GIVES_WAY and antt and text[m.start() - 1 : m.start()] != ".":
            return GIVES_WAY[word]
        return word if word in stay else turned.get(word, word)

    return re.sub(WORD, one, text)


def turn_comment(text, turned):
    text = re.sub(r"`([^`\n]+)`", lambda m: "`" + turn_code(m[1], turned, ()) + "`", text)
    return re.sub(r"(?<![\w`'-])[a-z]+[a-z0-9]*[A-Z]\w*(?![\w`'-])", lambda m: turned.get(m[0], m[0]), text)


def turn_antt(text, turned, stay):
    out = []
    for line in text.split("\n"):
        m = re.search(r"(?:^|(?<=\s))--(?=\s|$)", line)
        code, comment = (line, "") if not m else (line[: m.start()], line[m.start():])
        out.append(turn_code(code, turned, stay, True) + turn_comment(comment, turned))
    return "\n".join(out)


def turn_rust(text, turned, stay):
    def one(m):
        t = m[0]
        if t.startswith("//"):
            return turn_comment(t, turned)
        if t[0] in "\"'" or t[:2] in ("b\"", "b'"):
            return t
        return t if t in stay else turned.get(t, t)

    return RUST.sub(one, text)


def main(argv):
    here = os.path.dirname(os.path.dirname(os.path.realpath(__file__)))
    root = next((a for a in argv if not a.startswith("--")), here)
    turned, library = table(root)
    if "--list" in argv:
        for old, new in sorted(turned.items()):
            print(old + "\t" + new)
        return
    count = 0
    for path in files(root, (".antt", ".rt")):
        text = read(path)
        turn = turn_antt if path.endswith(".antt") else turn_rust
        new = turn(text, turned, library[path])
        if new != text:
            count += 1
            with open(path, "w", encoding="utf-8") as f:
                f.write(new)
    print(f"{len(turned)} names turned, {count} files written")


if __name__ == "__main__":
    main(sys.argv[1:])
