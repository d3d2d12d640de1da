#!/usr/bin/env python3
"""Brings the repository's own definitions and lemmas to one spelling: words in snake case. usage: spell.py [--dry]

Run once, at the top, after the toolchain's own script. A word in camel case that begins small, as mostValues, is put in
snake case, as most_values. In a lemma's name a dash stays where a definition's name ends, as in has-union and
set_of-lt, and else it becomes a lower bar, as in row_high. It renames what specs/ and proofs/ declare, wherever it is
cited: in specs/, proofs/, contracts, must-fail edits and pages. Functions of src/, exported names, strings, inputs and
outputs keep their names. Names that would fall together are told, and nothing is written.
"""

import os
import re
import sys

IDENT = r"[^\s(){}\[\],;:.λ⌜⌝`\"]+"
DECL = re.compile(r"^\s*(?:(?:abbrev|unfoldable|pub|mutual)\s+)*([A-Za-z_]" + IDENT[:-1] + r"*)\s*:(?:\s|$)")
RECORD = re.compile(r"^\s*(?:(?:abbrev|unfoldable|pub)\s+)*(?:record|data)\s+(\S+)")
IMPORT = re.compile(r"^\s*(?:ghost\s+)?use\s+([^\s{;]+)\.\{([^}]*)\}", re.M)
TOKEN = re.compile(r"(?<![\w'⊎≤≡ℕ.-])((?:[\w'ℕ⊎≤≡-]+\.)*)([A-Za-z_][\w'ℕ⊎≤≡-]*)")


def files(root, tail):
    for folder, dirs, names in os.walk(root):
        dirs[:] = sorted(d for d in dirs if d not in ("out", "target", ".git"))
        for n in sorted(names):
            if n.endswith(tail):
                yield os.path.join(folder, n)


def snake(word):
    """mostValues -> most_values, getD-upTo -> get_d-up_to; what begins with a capital stays."""
    if not word or not word[0].islower() or not re.search(r"[A-Z]", word):
        return word
    return re.sub(r"(?<=[a-z0-9'])([A-Z]+)(?![A-Z])|(?<=[a-z0-9'])([A-Z])", lambda m: "_" + (m[1] or m[2]).lower(), word)


def main(argv):
    texts = {p: open(p, encoding="utf-8").read() for p in files("crates", (".rt", ".antt"))}
    specs, declared, goals, where = set(), set(), set(), {}
    for p, t in texts.items():
        if not p.endswith(".antt"):
            continue
        for line in t.split("\n"):
            m = DECL.match(line)
            if not m or line.lstrip().startswith("--"):
                continue
            if re.search(r":\s*(?:tie|goal)\.", line) or "-spec :" in line or "_spec :" in line:
                goals.add(m[1])
                continue
            declared.add(m[1])
            where.setdefault(m[1], p)
            if "/specs/" in p:
                specs.add(m[1])
    taken = set()
    for p, t in texts.items():
        for m in IMPORT.finditer(t):
            taken |= {n.split(" as ")[0].strip() for n in m[2].split(",")}
    # names after which a dash stays: definitions, own or the library's, in their new spelling
    ends = {snake(n) for n in specs | (taken - declared) if "-" not in n} | {snake(n) for n in declared if "-" not in n}

    def spelt(name):
        # one name is a record's field already; the library's getD is get_or
        if name == "pastEnd":
            return "reads_past_end"
        name = re.sub(r"^getD(?=-)", "get_or", name)
        parts = [snake(x) for x in name.split("-")]
        if any(not x for x in parts):
            return name
        out, since = parts[0], parts[0]
        for x in parts[1:]:
            if since in ends:
                out, since = out + "-" + x, x
            else:
                out, since = out + "_" + x, since + "_" + x
        return out

    table = {n: spelt(n) for n in sorted(declared) if re.search(r"[a-z0-9][A-Z]|-", n) and n[0].islower()}
    table = {a: b for a, b in table.items() if a != b}
    # a lemma that would have the name of a definition
    words = {b for a, b in table.items() if "-" not in a}
    for a, b in list(table.items()):
        if "-" in a and (b in declared or b in words):
            table[a] = b + "_lem"
    table |= {b: b + "_lem" for b in words & declared if b not in specs}
    # names that fall together
    new, bad = {}, []
    for a, b in table.items():
        new.setdefault(b, []).append(a)
    for b, olds in new.items():
        if len(olds) > 1:
            bad.append(f"{' and '.join(olds)} would both be {b}")
    # a word that stands alone in a proof, or is a parameter or a local of code whose clauses cite the name; a function of
    # the name is none, since clauses do not see functions
    for p, t in texts.items():
        there = {}
        for a, b in table.items():
            if a in t and b not in table:
                there.setdefault(b, a)
        if not there:
            continue
        t = re.sub(r"(?m)^\s*(?:--|//).*$", "", t)
        pattern = r"(?<![\w'.-])([A-Za-z_][\w'ℕ⊎≤≡-]*)(?![\w'.-])" if p.endswith(".antt") else r"(?<![\w'.:-])([a-z_]\w*)(?=\s*:(?!:))"
        for w in sorted({m[1] for m in re.finditer(pattern, t)} & set(there)):
            a = there[w]
            if re.search(r"(?<![\w'-])" + re.escape(a) + r"(?![\w'-])", t):
                bad.append(f"{p}: {a} becomes {w}, which stands there already")
    return table, bad, texts, goals


def turn(table, text, source, steps=False):
    """The text with the names of the table respelled. With steps a name with a dash behind a dot is a step of a proof by hand, and stays, unless the path begins with a module."""
    modules = set(re.findall(r"\bas\s+([a-z][\w]*)\s*(?:;|$)", text, re.M))

    def one(m):
        path, name = m[1], m[2]
        first = path.split(".")[0]
        if first in table and ("-" in first or not first.islower()):
            path = table[first] + path[len(first) :]
        if name not in table:
            return path + name
        if "-" not in name and name.islower() and (source or path or m.string[m.end() : m.end() + 1] == "."):
            return path + name
        if path and "-" in name and steps and first not in modules and first != "Rattle":
            return path + name
        return path + table[name]

    if not source:
        return TOKEN.sub(one, text)
    # in code only clauses and imports
    out, clause, depth = [], False, 0
    for line in text.split("\n"):
        s = line.lstrip()
        if re.match(r"(?:pub )?ghost use ", s) or clause or re.match(r"(?:requires|ensures|ghost)\b", s):
            out.append(TOKEN.sub(one, line))
            if re.match(r"(?:pub )?ghost use ", s):
                clause = not s.rstrip().endswith(";")
                depth = -1 if clause else 0
            elif depth == -1:
                clause = not s.rstrip().endswith(";")
            else:
                depth += line.count("{") - line.count("}")
                clause = depth > 0
            if not clause:
                depth = 0
        else:
            out.append(line)
    return "\n".join(out)


if __name__ == "__main__":
    table, bad, texts, goals = main(sys.argv)
    if "--dry" in sys.argv:
        for a, b in table.items():
            print(a, b)
    for b in bad:
        print("together:", b, file=sys.stderr)
    print(f"{len(table)} names, {len(bad)} that fall together", file=sys.stderr)
    if bad or "--dry" in sys.argv:
        raise SystemExit(1 if bad else 0)
    for p, t in texts.items():
        new = turn(table, t, p.endswith(".rt"), p.endswith("/Proof.antt"))
        if new != t:
            open(p, "w", encoding="utf-8").write(new)
    for p in list(files("crates", (".edit",))) + list(files("docs", (".md",))) + ["README.md"]:
        t = open(p, encoding="utf-8").read()
        camel = {a: b for a, b in table.items() if re.search(r"[a-z0-9][A-Z]", a) or p.endswith(".edit")}
        new = turn(camel, t, False)
        if new != t:
            open(p, "w", encoding="utf-8").write(new)
