#!/usr/bin/env python3
"""Counts the places in src/ that are written in an older form: forms.py [COMMIT], by default the files as they stand.

Prints, one place a line as POINT file:line: what, and the number of each point:
  1  enums of the shape of Option or Result, a flag with a value beside it, numbers that stand for a kind or a width
  2  twins: functions of one body but for names, types and numbers, and functions whose name ends in a width
  3  loops that count an index by hand
  4  equality, a number's conversion and the lesser of two written by hand
  5  a fact that stands in the requires of three or more functions of a crate, and two parameters beside each other in
     three or more
  6  an array or a slice with its length beside it, as parameters or as fields
  7  a flag among the parameters, which says what to do
  8  lines of src/, specs/ and proofs/, and the answers in proofs/, after the others
docs/DESIGN-PASS.md names what it does not find."""
import collections
import re
import subprocess
import sys

WORDS = set("let mut if else while for in return match loop true false as".split())


def files(commit, which=r"/src/.*\.rt$"):
    names = ["git", "ls-files", "crates"] if commit is None else ["git", "ls-tree", "-r", "--name-only", commit, "crates"]
    for name in subprocess.run(names, capture_output=True, text=True, check=True).stdout.split("\n"):
        if re.search(which, name):
            if commit is None:
                yield name, open(name).read()
            else:
                yield name, subprocess.run(["git", "show", f"{commit}:{name}"], capture_output=True, text=True, check=True).stdout


def line_of(text, at):
    return text.count("\n", 0, at) + 1


def functions(text):
    for m in re.finditer(r"^( *)(?:pub(?:\(crate\))? )?(?:final )?(?:extern \"C\" )?fn (\w+)(.*?)(?:\n\1| )\{\n(.*?)^\1\}", text, re.S | re.M):
        yield m.start(), m.group(2), m.group(3), m.group(4)


def parts(text, at, opening, closing):
    """The parts of a text between signs that stand in no bracket."""
    depth, out = 0, [""]
    for c in text:
        depth += (c in opening) - (c in closing)
        if c == at and depth == 0:
            out.append("")
        else:
            out[-1] += c
    return [re.sub(r"\s+", " ", x).strip() for x in out if x.strip()]


def facts(head):
    for clause in re.findall(r"^ *requires (?:\w+ )?\{ (.*) \}$", head, re.M):
        for fact in parts(clause, "×", "([{", ")]}"):
            if not re.fullmatch(r"\(\w+ : \S+\)", fact):
                yield re.sub(r"^\((.*)\)$", r"\1", fact)


def parameters(head):
    m = re.match(r"(?:<[^(]*>)?\((.*?)\)\s*(?:->|$|\n)", head, re.S)
    return [x for x in parts(m.group(1), ",", "([<", ")]>") if ":" in x] if m else []


def lines(commit):
    for kind, end in (("src", "rt"), ("specs", "antt"), ("proofs", "antt")):
        texts = [text for name, text in files(commit, rf"/{kind}/.*\.{end}$")]
        print(f"lines of {kind}: {sum(t.count(chr(10)) for t in texts)}")
        if kind == "proofs":
            print(f"answers: {sum(len(re.findall(r'^pub [^ ]+ : goal[.]', t, re.M)) for t in texts)}")


def shape(body):
    body = re.sub(r"//[^\n]*|#\[[^\n]*", "", body)
    out = []
    for t in re.findall(r"\w+|[^\w\s]", body):
        out.append(t if t in WORDS else "#" if t[0].isdigit() else "x" if re.match(r"\w", t) else t)
    return tuple(out)


def main():
    commit = sys.argv[1] if len(sys.argv) > 1 else None
    found = collections.defaultdict(list)
    bodies = collections.defaultdict(list)
    asked, beside = collections.defaultdict(list), collections.defaultdict(list)
    for name, text in files(commit):
        code = re.sub(r"//[^\n]*", lambda m: " " * len(m.group(0)), text)

        def put(point, at, what):
            found[point].append((f"{name}:{line_of(text, at)}", what))

        for m in re.finditer(r"^(?:pub )?enum (\w+) \{\n(.*?)^\}", code, re.S | re.M):
            variants = re.findall(r"^    (\w+)(\([^\n]*\))?[^\n]*,", m.group(2), re.M)
            bare = [v for v, d in variants if not d]
            if len(variants) == 2 and len(bare) == 1 or any("Refusal" in d for _, d in variants):
                put(1, m.start(), f"enum {m.group(1)}")
        for m in re.finditer(r"^(?:pub )?struct (\w+) \{\n(.*?)^\}", code, re.S | re.M):
            if re.search(r": (bool|Option<Refusal>|Fault|Verdict),", m.group(2)):
                put(1, m.start(), f"struct {m.group(1)}, a flag with a value")
        for m in re.finditer(r"\b(form|bits|width|tag|kind|live|answer|refusal): u(?:8|32)\b(?!::)", code):
            put(1, m.start(), f"{m.group(1)}, a number for a kind")
        for at, fn, head, body in functions(code):
            if re.search(r"_(8|16|32)$", fn):
                put(2, at, f"fn {fn}")
            else:
                b = shape(body)
                if len(b) >= 25:
                    bodies[b].append((f"{name}:{line_of(text, at)}", fn))
            for fact in set(facts(head)):
                asked[name.split("/")[1], fact].append(f"{name}:{line_of(text, at)}")
            named = parameters(head)
            for two in set(zip(named, named[1:])):
                beside[name.split("/")[1], ", ".join(two)].append(f"{name}:{line_of(text, at)}")
            for m in re.finditer(r"(\w+): bool", head.split("->")[0].split("requires")[0].split("ensures")[0]):
                put(7, at, f"fn {fn}: {m.group(1)}")
            args = re.sub(r"\s+", " ", head.split("->")[0].split("requires")[0].split("ensures")[0])
            for m in re.finditer(r"(\w+): &?(?:mut )?\[[^\]]*\],? (?:\w+: (?!usize)[^,]*, )?(n|m|k|count|\w*_count|lines|attributes): usize", args):
                put(6, at, f"fn {fn}: {m.group(1)}, {m.group(2)}")
        for m in re.finditer(r"^( *)(?:'\w+: )?(while|loop)\b([^\n]*)\{\n(.*?)^\1\}", code, re.S | re.M):
            test = set(re.findall(r"[a-z_]\w*", m.group(3)))
            counts = set(re.findall(r"^ *(\w+) [+-]= ", m.group(4), re.M))
            if test & counts or (m.group(2) == "loop" and counts):
                put(3, m.start(), f"{m.group(2)}{m.group(3).rstrip()}")
        for at, fn, head, body in functions(code):
            if re.search(r"-> bool", head) and re.match(r"(equal|same)$|no_|is_blank", fn):
                put(4, at, f"fn {fn}, equality")
            if fn in ("least", "greatest", "min", "max"):
                put(4, at, f"fn {fn}, the lesser of two")
            if fn in ("number_of", "of_number", "place", "wide", "byte_of"):
                put(4, at, f"fn {fn}, a conversion")
        for m in re.finditer(r"^(?:pub )?struct (\w+) \{\n(.*?)^\}", code, re.S | re.M):
            if re.search(r"\b(count|lines|attributes|to|length): usize", m.group(2)) and re.search(r": \[", m.group(2)):
                put(6, m.start(), f"struct {m.group(1)}")
    for b, fns in bodies.items():
        if len(fns) > 1:
            for at, fn in fns:
                found[2].append((at, f"fn {fn}, as {', '.join(f for a, f in fns if a != at)}"))
    for what, places in [*asked.items(), *beside.items()]:
        if len(places) > 2:
            found[5].append((places[0], f"{what[1]}, in {len(places)} of {what[0]}"))
    for point in sorted(found):
        for at, what in sorted(found[point]):
            print(f"{point} {at}: {what}")
    for point in sorted(found):
        print(f"point {point}: {len(found[point])} places")
    lines(commit)


main()
