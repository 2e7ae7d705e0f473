#!/usr/bin/env python3
"""Spells this repository's own definitions and lemmas as the language's library spells its own.

usage: python3 tools/respell.py [--dry] [KIT]      at the top of the repository; KIT is the toolchain's folder of libraries

Words are in snake case: `firstFault` is `first_fault`. In a lemma's name a dash joins two names, and a plain word hangs on by `_`: `length-drop`, `small_rest`.
A name of the library, of Rust code, of a goal, in a string or in a path of files keeps its spelling. Two names that would fall together stop the script.
"""
import collections
import os
import re
import subprocess
import sys

NAME = r"[^\W\d][\w'\-]*|[+][\w'\-]+"
TOKEN = re.compile(r"(?<![\w'\-])[^\W\d][\w'\-]*")
SIGNATURE = re.compile(r"(?:(?:unfoldable|abbrev|pub|axiom|pattern|record|data)\s+)*([^\s:(){}.,;]+)(?:\s+:|\s+\{|\s*\()")
# Functions and operators of the library that a lemma's name speaks of.
WORDS = set("length take drop append map set get_or replicate filter sum min max eq le lt add mul sub div mod pow suc zero cons reverse fold".split())
# Names that would fall together, and what they are called instead.
OTHERWISE = {
    "wins-in-full": "none_wins_in_full",
    "by-latency": "live_by_latency",
    "passes_of": "passes_of_lem",
    "goesOn": "runs_on",
    "one_more": "one_more_lem",
}
CAMEL = re.compile(r"(?<![\w'\-])[a-z][a-z0-9]*(?:[A-Z][a-z0-9]*)+(?![\w'\-])")
STRING = re.compile(r'"(?:[^"\\\n]|\\.)*"')


def texts(root, ends):
    for folder, dirs, files in os.walk(root):
        dirs[:] = sorted(d for d in dirs if d not in ("out", ".git", "target", "examples"))
        for name in sorted(files):
            if name.endswith(ends):
                yield os.path.join(folder, name)


def read(path):
    with open(path, encoding="utf-8") as f:
        return f.read()


def declared(path):
    for line in read(path).splitlines():
        if not line.startswith(("--", "use ", " ", "\t")):
            m = SIGNATURE.match(line)
            if m:
                yield m.group(1)


def snake(name):
    name = re.sub(r"([a-z0-9'])([A-Z])", lambda m: m.group(1) + "_" + m.group(2).lower(), name)
    return re.sub(r"([_\-])([A-Z])(?=[a-z])", lambda m: m.group(1) + m.group(2).lower(), name)


def dashes(name, names):
    parts = name.split("-")
    out = parts[0]
    for before, part in zip(parts, parts[1:]):
        out += ("-" if before in names and part in names else "_") + part
    return out


def main(argv):
    dry = "--dry" in argv
    rest = [a for a in argv if a != "--dry"]
    # `rt doc` prints the path of a page at the top of the kit, beside its libraries
    page = "" if rest else subprocess.run(["rt", "doc"], capture_output=True, text=True, check=True).stdout.strip()
    kit = rest[0] if rest else os.path.join(os.path.dirname(page), "rattle")
    library = set()
    for path in texts(kit, (".antt",)):
        library.update(declared(path))
    own, goals = collections.defaultdict(set), set()
    camel, seen = set(), collections.defaultdict(set)
    for path in texts("crates", (".antt", ".rt")):
        text = STRING.sub("", read(path))
        for m in TOKEN.finditer(text):
            seen[m.group(0)].add(path)
            if re.match(r"[a-z][\w\-']*?[a-z0-9][A-Z]", m.group(0)):
                camel.add(m.group(0))
        if path.endswith(".antt"):
            kind = goals if os.path.basename(path) in ("Answers.antt", "Invariants.antt", "Proof.antt") and path.count("/") > 3 else own
            for name in declared(path):
                if kind is goals:
                    goals.add(name)
                else:
                    own[name].add(path)
    plain = WORDS | {snake(n) for n, paths in own.items() if "-" not in n and any("/specs/" in p for p in paths)}
    new = {}
    for name in camel:
        new[name] = snake(name)
    for name in own:
        if name in library or name in goals or name[0] == "+":
            continue
        if "-" in name and name[0].islower():
            to = snake(name)
            new[name] = dashes(to, plain)
    new.update(OTHERWISE)
    new = {a: b for a, b in new.items() if a != b}
    # a lemma that would have a definition's name ends in `_lem`
    taken = collections.Counter(new.values())
    for a, b in list(new.items()):
        if "-" in a and (taken[b] > 1 or (b in own and b not in new)):
            new[a] = b + "_lem"
    back = collections.defaultdict(set)
    for a, b in new.items():
        back[b].add(a)
    bad = [f"{b}: {sorted(s)}" for b, s in back.items() if len(s) > 1]
    bad += [f"{b}: there already, and {sorted(s)}" for b, s in sorted(back.items()) if b in own and b not in new]
    both = [f"{b}: beside {sorted(s)} in {sorted(seen[b] & seen[next(iter(s))])}" for b, s in sorted(back.items()) if b in seen and seen[b] & seen[next(iter(s))]]
    print(f"{len(new)} names; fall together: {len(bad)}; stand beside another of the spelling: {len(both)}")
    for line in bad:
        print("together:", line)
    if dry:
        for line in both:
            print("beside:", line)
        for a, b in sorted(new.items()):
            print(a, b)
    if bad:
        return 1
    if dry:
        return 0

    def word(m):
        return new.get(m.group(0), m.group(0))

    def told(text):
        """Prose: what stands between backticks, or has a capital in its middle, is a name."""
        text = TOKEN.sub(lambda m: m.group(0) if "-" in m.group(0) else word(m), text)
        return re.sub(r"`[^`\n]*`", lambda m: TOKEN.sub(word, m.group(0)), text)

    def code(line, mark):
        """A line of code: its strings stay, and what follows the mark of a comment is prose."""
        out, at = [], 0
        for m in STRING.finditer(line):
            if mark in line[at : m.start()]:
                break
            out += [TOKEN.sub(word, line[at : m.start()]), m.group(0)]
            at = m.end()
        head, comment, rest = line[at:].partition(mark)
        return "".join(out) + TOKEN.sub(word, head) + comment + told(rest)

    def edit(line):
        """A line of a must-fail edit, which the kit's script leaves alone: any word with a capital in its middle is a name."""
        if line.startswith("#"):
            return line
        return CAMEL.sub(lambda m: snake(m.group(0)), code(line, "\0"))

    def page(text):
        fenced, out = False, []
        for line in text.splitlines(keepends=True):
            fenced ^= line.startswith("```")
            out.append(TOKEN.sub(word, line) if fenced else told(line))
        return "".join(out)

    def put(path, to):
        if to != read(path):
            with open(path, "w", encoding="utf-8") as f:
                f.write(to)

    for path in texts("crates", (".antt", ".rt")):
        mark = "--" if path.endswith(".antt") else "//"
        put(path, "".join(code(line, mark) for line in read(path).splitlines(keepends=True)))
    for path in texts("crates", (".edit",)):
        put(path, "".join(edit(line) for line in read(path).splitlines(keepends=True)))
    for path in [*texts("docs", (".md",)), "README.md"]:
        put(path, page(read(path)))
    return 0


if __name__ == "__main__":
    raise SystemExit(main(sys.argv[1:]))
