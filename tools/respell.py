"""Brings the names of specs/ and proofs/ to one spelling: words in snake case, facts in upper camel case.

usage: python3 tools/respell.py [--table]     at the top of the repository

A name is turned where a file of specs/ or proofs/ declares it, and then wherever it stands:
  afterPut   becomes after_put, a word of several words;
  sum-more   becomes sum_more; a dash stays between two names that the statement itself has, as in marked-collect;
  why        becomes Why, since it is a fact.
In a clause of a function with a bound, as R: Radio, a ghost member of the trait is written with the parameter, as R.ways.
A name that would fall together with another one, ours or the library's, keeps its dash and is printed. Goals, which Rattle names,
functions of src/, strings, words of comments that are no names, and the page on the move (docs/PORT.md) stay. --table prints old and new, and writes nothing. A second
run writes nothing more.
"""

import os
import re
import sys

WORD = re.compile(r'[^\s(){}.;,:@"«»\[\]`|]+')
OTHER = r'[\s(){};,:@"«»\[\]`|]+'
COMMENT = re.compile(r"(?<![^\s(){}.;,])--[^\n]*")
DECLARED = re.compile(r"^(\s*)((?:abbrev |unfoldable |pub )*)([^\s(){}.;,:]+) : (.*)$")
TYPE = re.compile(r"^\s*(?:abbrev |unfoldable |pub )*(?:record|data) ([^\s(){}.;,:]+)")
CAMEL = re.compile(r"^[a-z][a-z0-9]*(?:[A-Z][a-z0-9]*)+$")
QUIET = re.compile(r'//[^\n]*|"(?:\\.|[^"\\])*"')
GHOST = re.compile(r"ghost use [^;]*;|(?:ensures|requires)[^{\n]*\{.*")
USED = re.compile(r"use (?:Rattle\.std|mathlib|borrow|Prim|native|lib)[\w.'·]*\.\{([^}]*)\}")
FACTS = {"why": "Why"}
# functions of the library that lemmas of ours are named after
KNOWN = set("length take drop append map sum max".split())


def files(*ends):
    for root, folders, names in os.walk("crates"):
        folders[:] = sorted(f for f in folders if f != "out")
        for name in sorted(names):
            if name.endswith(ends):
                yield os.path.join(root, name)


def read(path):
    with open(path, encoding="utf-8") as f:
        return f.read()


def snake(name):
    return re.sub(r"([A-Z])", lambda m: "_" + m.group(1).lower(), name)


def declared():
    """The names that specs/ and proofs/ declare, each with its statements, and those of them that specs/ defines."""
    ours, defined = {}, set(KNOWN)
    for path in files(".antt"):
        text = read(path)
        for line in text.split("\n"):
            found = DECLARED.match(line)
            if found and not found.group(4).startswith("goal."):
                ours.setdefault(found.group(3), []).append(found.group(4))
                if "/specs/" in path:
                    defined.add(snake(found.group(3)) if CAMEL.match(found.group(3)) else found.group(3))
            found = TYPE.match(line)
            if found:
                ours.setdefault(found.group(1), [])
    for path in files(".antt", ".rt"):
        # a name that a file gives to what it imports
        for name in re.findall(r"[{ ]\S+ as (\w+)[,}]", read(path)):
            ours.setdefault(name, [])
    for path in files(".rt"):
        # ghost members and laws of a trait
        for name in re.findall(r"^    ghost (\w+)(?::| = )", read(path), re.M):
            ours.setdefault(name, [])
    return ours, defined


def borrowed():
    """The names that files import from the library."""
    names = set()
    for path in files(".antt", ".rt"):
        for group in USED.findall(read(path)):
            names.update(w.split(" as ")[-1].strip() for w in group.split(","))
    return names


def respelled(name, statements, defined):
    if name in FACTS:
        return FACTS[name]
    if CAMEL.match(name):
        return snake(name)
    if "-" not in name or not re.match(r"^[A-Za-z]", name):
        return name
    parts = [snake(p) if CAMEL.match(p) else FACTS.get(p, p) for p in name.split("-")]
    words = {snake(w) if CAMEL.match(w) else w for s in statements for w in re.split(r"[.]|" + OTHER, s)}
    if parts[0] in FACTS.values() or (len(parts) == 2 and all(p in defined and p in words for p in parts)):
        return "-".join(parts)
    return "_".join(parts)


def table():
    ours, defined = declared()
    library = borrowed()
    turned = {}
    for name in sorted(set(ours) - library, key=lambda n: (not CAMEL.match(n), n)):
        new = respelled(name, ours[name], defined)
        if new == name:
            continue
        if new in library or new in ours or new in turned.values():
            print(f"falls together: {name} with {new}", file=sys.stderr)
            if "-" not in name:
                raise SystemExit(1)
            continue
        turned[name] = new
    return turned


def turn(text, turned, keep=()):
    def word(m):
        w = m.group()
        if m.start() and text[m.start() - 1] == "." and "-" in w:
            return w
        return turned.get(w, w) if w not in keep else w

    return WORD.sub(word, text)


def antt(text, turned, plain):
    parts, last = [], 0
    for m in COMMENT.finditer(text):
        parts += [turn(text[last : m.start()], turned), turn(m.group(), plain)]
        last = m.end()
    return "".join(parts + [turn(text[last:], turned)])


def rust(text, turned, plain):
    """Code and clauses; of comments only names of several words; no string."""
    facts = {a: b for a, b in turned.items() if a in FACTS}
    dashed = {a: b for a, b in turned.items() if "-" in a}
    parts, last = [], 0
    for m in list(QUIET.finditer(text)) + [None]:
        code = turn(text[last : m.start() if m else len(text)], {**plain, **dashed})
        parts.append(GHOST.sub(lambda g: turn(g.group(), facts), code))
        if m:
            parts.append(turn(m.group(), plain) if m.group().startswith("//") else m.group())
            last = m.end()
    return "".join(parts)


def members():
    """The ghost members of each trait of src/."""
    found = {}
    for path in files(".rt"):
        for name, body in re.findall(r"^pub trait (\w+) \{\n(.*?)^\}", read(path), re.M | re.S):
            found[name] = re.findall(r"^    ghost (\w+):", body, re.M)
    return found


def bound(text, traits):
    lines, now = [], None
    for line in text.split("\n"):
        if re.search(r"\bfn \w+", line):
            now = re.search(r"\bfn \w+<(\w+): (\w+)", line)
        if now and re.match(r"\s*(?:requires|ensures)\b", line):
            head, clause = line.split("{", 1)
            for name in traits.get(now.group(2), []):
                clause = re.sub(rf"(?<![\w.'-]){name}(?![\w'-])", f"{now.group(1)}.{name}", clause)
            line = head + "{" + clause
        lines.append(line)
    return "\n".join(lines)


def main():
    turned = table()
    plain = {a: b for a, b in turned.items() if CAMEL.match(a)}
    if "--table" in sys.argv:
        for a, b in sorted(turned.items()):
            print(a, b, sep="\t")
        return
    traits = members()
    for path in files(".antt", ".rt", ".edit"):
        old = read(path)
        new = antt(old, turned, plain) if path.endswith(".antt") else rust(old, turned, plain)
        if path.endswith(".rt"):
            new = bound(new, traits)
        if new != old:
            with open(path, "w", encoding="utf-8") as f:
                f.write(new)
    for name in ["README.md"] + [os.path.join("docs", n) for n in sorted(os.listdir("docs")) if not n.startswith("PORT")]:
        if os.path.exists(name) and name.endswith(".md"):
            old = read(name)
            new = re.sub(r"`[^`\n]+`", lambda m: turn(m.group(), {**plain, **FACTS}), old)
            if new != old:
                with open(name, "w", encoding="utf-8") as f:
                    f.write(new)


main()
