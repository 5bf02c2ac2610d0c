#!/usr/bin/env python3
"""Respells the repository's own definitions, lemmas and fields: snake case in place of camel case and dashes.

usage: python3 tools/respell.py        at the top, once, behind port.py

port.py turns the words of the library and a part of ours. This turns the rest of what specs/ and proofs/ declare: `leAt` to `le_at`, `one-fen` to `one_fen`. Types and modules stay in upper
camel case. Functions of src/, what C sees, strings, inputs and outputs keep their names. Where two names fall together, the definition has the plain name and the lemma the ending `_lem`.
"""
import collections
import os
import re
import sys

ROOT = sys.argv[1] if len(sys.argv) > 1 else "."
# where the plain name is a field of the same file
BY_HAND = {"firstPart": "first_part_of", "secondPart": "second_part_of", "first-part": "first_part", "second-part": "second_part"}
# a local name of one function's proof, which gives way
LOCAL = ("kept_of",)
HEAD = re.compile(r"^((?:(?:unfoldable|abbrev|pub|opaque) )*)(record |data )?([^\s:(){}.,]+)((?: [({][^:]*:.*)?) :(?: |$)")
FIELD = re.compile(r"^\s+(?:(?:unfoldable|abbrev|pub|opaque) )*([a-z][\w'-]*(?: [a-z][\w'-]*)*) :(?: |$)")
WORD = re.compile(r"(?<![\w.'₀-₉-])[A-Za-z_][\w'₀-₉]*(?:-[\w'₀-₉]+)*")
ANY = re.compile(r"(?<![\w'₀-₉-])[A-Za-z_][\w'₀-₉]*(?:-[\w'₀-₉]+)*")


def snake(name):
    name = name.replace("-", "_")
    return re.sub(r"(?<=[a-z0-9'])([A-Z])", lambda m: "_" + m.group(1).lower(), name)


def files(root, *ends):
    for top, dirs, names in os.walk(os.path.join(root, "crates")):
        dirs[:] = sorted(d for d in dirs if d != "out")
        for n in sorted(names):
            if n.endswith(ends):
                yield os.path.join(top, n)


def read(p):
    with open(p, encoding="utf-8") as f:
        return f.read()


def write(p, text):
    with open(p, "w", encoding="utf-8") as f:
        f.write(text)


def is_shared(p):
    """A file of definitions or lemmas, and not one function's proof."""
    return not re.search(r"/proofs/.+/(Proof|Answers|Invariants)\.antt$", p)


def declared(text):
    """The names that a file declares, with the fields of its records."""
    found, inside = [], False
    for line in text.split("\n"):
        if line.strip() == "" or line.startswith("--"):
            continue
        if not line[0].isspace():
            inside = bool(re.search(r"\bwhere$", line))
            m = HEAD.match(line)
            if m:
                found.append(m.group(3))
        elif inside:
            m = FIELD.match(line)
            if m:
                found += m.group(1).split(" ")
    return found


def clauses(text):
    """The spans of a source file that antt reads: the clauses, and the lists of ghost use."""
    spans, at = [], 0
    for m in re.finditer(r"(?m)^\s*(?:requires\*?|ensures\*?|ghost)\b[^{\n]*\{", text):
        if m.start() < at:
            continue
        depth, i = 1, m.end()
        while depth and i < len(text):
            depth += {"{": 1, "}": -1}.get(text[i], 0)
            i += 1
        spans.append((m.end(), i - 1))
        at = i
    return spans


def bare(path, text):
    """The names in a file that stand by themselves, which another name of the file could be mistaken for."""
    if path.endswith(".antt"):
        return set(WORD.findall(re.sub(r"--.*", "", text)))
    found = set()
    for a, b in clauses(text):
        found |= set(WORD.findall(text[a:b]))
    for m in re.finditer(r'(?m)^\s*(?:pub )?(?:unsafe )?(?:extern "C" )?fn \w+(?:<[^>]*>)?\(([^)]*)\)', text):
        found |= set(re.findall(r"(\w+)\s*:", m.group(1)))
    return found


def names(root):
    """The table of old and new names; and the names that stay but would be mistaken for a new one, with theirs."""
    table, own = {}, set()
    for p in files(root, ".antt"):
        if is_shared(p):
            for name in declared(read(p)):
                own.add(name)
                if re.match(r"[a-z]", name) and snake(name) != name:
                    table[name] = BY_HAND.get(name, snake(name))
    used = collections.defaultdict(set)
    for p in files(root, ".antt", ".rt"):
        for w in bare(p, read(p)):
            used[w].add(p)
    table = {o: n for o, n in table.items() if used[o]}
    new, moved = collections.defaultdict(list), {}
    for old in sorted(table):
        new[table[old]].append(old)
    for n, olds in sorted(new.items()):
        takers = list(olds)
        if n not in table and n not in LOCAL and n in used and any(used[n] & used[o] for o in olds):
            takers.append(n)
        # a definition (camel case), then what has the name already, then lemmas (dashes)
        takers.sort(key=lambda o: (o == n) + 2 * ("-" in o))
        if takers[0] != n and n in takers and n not in own:
            takers.remove(n)
            takers.insert(0, n)
        for k, o in enumerate(takers[1:], 1):
            ending = "_lem" if k == 1 else "_lem_%d" % k
            (moved if o == n else table)[o] = n + ending
            print("falls together: %s -> %s, since %s is there" % (o, n + ending, takers[0]))
    return table, moved


def foreign(text):
    """What a file takes from the library under a name that could be one of ours."""
    ours, found = set(os.listdir(os.path.join(ROOT, "crates"))), set()
    for path, names_ in re.findall(r"(?m)^(?:ghost )?use ([\w.'+-]+)\.\{([^}]*)\}", text):
        parts = path.split(".")
        if parts[0] != "Rattle" or parts[1] not in ours:
            found |= {n.strip() for n in names_.split(",")}
    return found


def turned(text, table, moved, steps=False):
    """A text of antt with the new names: each word of the table, and those of moved where they stand by themselves. With steps, a word behind a dot may be a call's, which has no ending."""
    def one(m):
        w = m.group(0)
        behind = m.start() > 0 and text[m.start() - 1] == "."
        if w in moved and not behind:
            return moved[w]
        if w in table and behind and steps:
            return snake(w)
        return table.get(w, w)
    return ANY.sub(one, text)


def source(text, table, moved):
    """A source file with the new names in its clauses, in ghost use, and in comments: camel case anywhere there, names with dashes where they are quoted."""
    spans = [(a, b, True) for a, b in clauses(text)]
    for m in re.finditer(r"(?m)^ghost use [^;]*;", text):
        spans.append((m.start(), m.end(), True))
    for m in re.finditer(r"(?m)(?<!:)//.*$", text):
        spans.append((m.start(), m.end(), False))
    out, at = [], 0
    for a, b, whole in sorted(spans):
        if a < at:
            continue
        out.append(text[at:a])
        out.append(turned(text[a:b], table, moved) if whole else comment(text[a:b], table))
        at = b
    out.append(text[at:])
    return "".join(out)


def comment(text, table):
    text = re.sub(r"`([^`\n]*)`", lambda m: "`" + ANY.sub(lambda w: table.get(w.group(0), w.group(0)), m.group(1)) + "`", text)
    return ANY.sub(lambda w: table[w.group(0)] if w.group(0) in table and "-" not in w.group(0) else w.group(0), text)


def proof(text, table, moved, steps):
    lines = []
    for line in text.split("\n"):
        code, dash, said = line.partition("--")
        if dash and not code.strip():
            lines.append(code + dash + comment(said, table))
        else:
            lines.append(turned(line, table, moved, steps))
    return "\n".join(lines)


def main():
    every, moved = names(ROOT)
    many = 0
    for p in files(ROOT, ".antt", ".rt", ".edit"):
        old = read(p)
        theirs = foreign(old)
        table = {o: n for o, n in every.items() if o not in theirs}
        if p.endswith(".antt"):
            new = proof(old, table, moved, not is_shared(p))
        elif p.endswith(".rt"):
            new = source(old, table, moved)
        else:
            new = "\n".join(l if l.startswith("file:") else comment(l, table) if l.startswith("#") else turned(l, table, {}) for l in old.split("\n"))
        if new != old:
            write(p, new)
            many += 1
    pages = [os.path.join(ROOT, "README.md"), os.path.join(ROOT, "crates/README.md"), os.path.join(ROOT, "bench/README.md"), os.path.join(ROOT, "tests/wrong-programs/list"), os.path.join(ROOT, "tests/wrong-libraries/list")]
    for top in ("docs", "docs/changes"):
        pages += [os.path.join(ROOT, top, n) for n in sorted(os.listdir(os.path.join(ROOT, top))) if n.endswith(".md")]
    table = every
    for p in pages:
        if os.path.exists(p):
            old = read(p)
            new = re.sub(r"`([^`\n]*)`", lambda m: "`" + ANY.sub(lambda w: table.get(w.group(0), w.group(0)), m.group(1)) + "`", old)
            if new != old:
                write(p, new)
                many += 1
    print("respelled: %d names, %d files" % (len(every) + len(moved), many))


if __name__ == "__main__":
    main()
