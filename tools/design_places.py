#!/usr/bin/env python3
"""The places of docs/DESIGN-PASS.md, point by point, counted in crates/*/src (and, for point 8, crates/*/proofs):

    python3 tools/design_places.py [TREE] [POINT ..]

It finds candidates by their form; which of them are places, and why one stays, docs/DESIGN-PASS.md says."""
import glob
import os
import re
import sys
from collections import Counter, defaultdict

args = sys.argv[1:]
tree = args.pop(0) if args and not args[0].isdigit() else "."
points = set(args) or set("12345678")


def sources():
    for path in sorted(glob.glob(os.path.join(tree, "crates/*/src/**/*.rt"), recursive=True)):
        yield os.path.relpath(path, os.path.join(tree, "crates")), open(path).read()


def bare(text):
    """Without comments."""
    return re.sub(r"//[^\n]*", "", text)


def line_of(text, at):
    return text.count("\n", 0, at) + 1


def block(text, at):
    """From the first { at or behind `at` to its }."""
    start = text.index("{", at)
    depth = 0
    for i in range(start, len(text)):
        depth += {"{": 1, "}": -1}.get(text[i], 0)
        if depth == 0:
            return text[start + 1:i]
    return text[start + 1:]


def functions():
    """(file, line, name, parameters, clauses, body) of each function."""
    for path, text in sources():
        text = bare(text)
        for m in re.finditer(r"^[ \t]*(?:pub(?:\(crate\))? )?(?:extern \"C\" )?fn (\w+)[^(\n]*\(", text, re.M):
            depth, i = 1, m.end()
            while depth:
                depth += {"(": 1, ")": -1}.get(text[i], 0)
                i += 1
            params = text[m.end():i - 1]
            signed = text.find("\n", i)
            if text[i:signed].rstrip().endswith(("{", "{}")):
                clauses, start = "", text.index("{", i)
            else:
                brace = re.compile(r"\n[ \t]*\{[ \t]*\n").search(text, signed)
                if not brace:
                    continue
                clauses, start = text[i:brace.start()], brace.start()
            body = block(text, start)
            yield path, line_of(text, m.start()), m.group(1), params, clauses, body


def head(n, what):
    print(f"\n== {n}. {what}")


if "1" in points:
    head(1, "enums with their variants; those of the shape of an Option (?) or a Result (!) are marked")
    marked = 0
    for path, text in sources():
        for m in re.finditer(r"^[ \t]*(?:pub )?enum (\w+)", bare(text), re.M):
            body = block(bare(text), m.start())
            flat = re.sub(r"\{[^{}]*\}|\([^()]*\)", "+", body)
            variants = [v.strip() for v in flat.split(",") if v.strip()]
            plain = [v for v in variants if not v.endswith("+")]
            mark = " "
            if len(variants) == 2 and len(plain) == 1:
                mark = "?"
            elif len(variants) == 2 and not plain:
                mark = "!"
            if re.search(r"\b\w+\(Refusal\)", body):
                mark = "!"
            marked += mark != " "
            print(f"{mark} {path}: {m.group(1)}: {', '.join(re.sub(r'[ +]', '', v) for v in variants)}")
    print(f"marked: {marked}")
    head(1, "constants that number kinds")
    kinds = 0
    for path, text in sources():
        for m in re.finditer(r"^[ \t]*(?:pub )?const (\w+): u(?:32|64) = \d+;", bare(text), re.M):
            kinds += 1
            print(f"  {path}: {m.group(1)}")
    print(f"numbers for kinds: {kinds}")
    head(1, "a number compared as a kind, or a refusal by its number")
    found = 0
    for path, text in sources():
        for m in re.finditer(r"[^\n]*(?:number\(\) ==|\bnumber (?:==|<|<=) |kind: u32|\.op [!=]= |\bop == |reply == \d)[^\n]*", bare(text)):
            found += 1
            print(f"  {path}:{line_of(bare(text), m.start())}: {m.group(0).strip()}")
    print(f"compared: {found}")

if "2" in points:
    head(2, "functions of one shape: names, numbers and paths put aside, three lines or more")
    shapes = defaultdict(list)
    for path, line, name, params, clauses, body in functions():
        if body.count("\n") < 4:
            continue
        shape = re.sub(r"\"[^\"]*\"|\b\d+\b", "0", body)
        shape = re.sub(r"\b(?!if|else|match|let|mut|while|loop|for|in|return|break|true|false\b)[A-Za-z_]\w*(?:::\w+)*", "x", shape)
        shape = re.sub(r"\s+", " ", shape)
        shapes[shape].append(f"{path}:{line} {name}")
    groups = [g for g in shapes.values() if len(g) > 1]
    for g in sorted(groups):
        print("  " + "\n    ".join(g))
    print(f"groups: {len(groups)}, functions in them: {sum(map(len, groups))}")

if "3" in points:
    head(3, "while and loop")
    found = 0
    for path, text in sources():
        for m in re.finditer(r"^[ \t]*(?:'\w+: )?(while|loop)\b[^\n]*", bare(text), re.M):
            found += 1
            print(f"  {path}:{line_of(bare(text), m.start())}: {m.group(0).strip()}")
    print(f"loops by hand: {found}")

if "4" in points:
    head(4, "functions that compare, convert, copy or print by hand")
    found = Counter()
    for path, line, name, params, clauses, body in functions():
        why = None
        if "io::" in body:
            why = "prints or reads by io"
        elif re.search(r"^(same|equal|eq|differs|first_difference)$", name):
            why = "compares"
        elif re.search(r"^(of|event|new|none)$|_number$|_numbers$|_in$|^number_of$|^of_", name) and "match" in body + " match" and "ensures" in clauses:
            why = "converts"
        elif re.search(r"% 256\) as u8|\* 0x1", body):
            why = "bytes of a number"
        elif re.search(r"^(copy|lay|name|show|pad|column|hex)", name):
            why = "copies or prints"
        if why:
            found[why] += 1
            print(f"  {path}:{line} {name}: {why}")
    print(f"by hand: {sum(found.values())} {dict(found)}")

if "5" in points:
    head(5, "facts that three or more functions require")
    facts = defaultdict(list)
    for path, line, name, params, clauses, body in functions():
        for m in re.finditer(r"requires[^{]*\{([^}]*)\}", clauses):
            for fact in re.split(r" × ", m.group(1)):
                fact = fact.strip()
                while fact.startswith("(") and fact.endswith(")"):
                    fact = fact[1:-1]
                fact = re.sub(r"\.(now|old)\b", "", fact)
                facts[fact].append(f"{path.split('/')[0]}::{name}")
    many = {f: w for f, w in facts.items() if len(w) >= 3}
    for f, w in sorted(many.items(), key=lambda p: -len(p[1])):
        print(f"  {len(w)} x {f}: {' '.join(w)}")
    print(f"facts in three or more: {len(many)}")
    head(5, "parameters that stand side by side in five or more functions")
    pairs = defaultdict(list)
    for path, line, name, params, clauses, body in functions():
        names = re.findall(r"(\w+): [^,]+", params)
        for a, b in zip(names, names[1:]):
            pairs[a, b].append(f"{path.split('/')[0]}::{name}")
    many = {p: w for p, w in pairs.items() if len(w) >= 5}
    for (a, b), w in sorted(many.items(), key=lambda p: -len(p[1])):
        print(f"  {len(w)} x {a}, {b}: {' '.join(w)}")
    print(f"pairs: {len(many)}")

if "6" in points:
    head(6, "a buffer with a place or a length beside it; fixed rooms; ranges made of two locals")
    found = Counter()
    for path, line, name, params, clauses, body in functions():
        if re.search(r"\[u8\], (?:at|len|i|end): usize", params):
            found["buffer and place"] += 1
            print(f"  {path}:{line} {name}({re.sub(chr(10) + ' *', ' ', params)})")
        if re.search(r"let a = .*;\s*let e = a \+ ", body):
            found["a..e"] += 1
            print(f"  {path}:{line} {name}: a..e")
        if re.search(r"large_buffer|\[0u?8?; \d{3,}\]", body):
            found["room"] += 1
            print(f"  {path}:{line} {name}: a fixed room")
    print(f"buffers: {dict(found)}")

if "7" in points:
    head(7, "chains of if that choose by a number or a kind, tables of functions")
    found = 0
    for path, line, name, params, clauses, body in functions():
        arms = re.findall(r"if (?:\w+\.)?(\w+) == [A-Za-z0-9_:]+ \{", body)
        if len(arms) >= 3 and len(set(arms)) == 1:
            found += 1
            print(f"  {path}:{line} {name}: {len(arms)} tests of {arms[0]}")
    print(f"switches: {found}")

if "8" in points:
    head(8, "proofs: files of answers, and lines, by crate")
    total = [0, 0, 0]
    for crate in sorted(os.listdir(os.path.join(tree, "crates"))):
        files = glob.glob(os.path.join(tree, "crates", crate, "proofs/**/*.antt"), recursive=True)
        answers = [f for f in files if f.endswith(("Answers.antt", "Invariants.antt"))]
        lines = sum(len(open(f).read().splitlines()) for f in files)
        inside = sum(len(open(f).read().splitlines()) for f in answers)
        if files:
            print(f"  {crate}: {len(answers)} files of answers with {inside} lines, {lines} lines in all")
        total = [total[0] + len(answers), total[1] + inside, total[2] + lines]
    print(f"answers: {total[0]} files, {total[1]} lines; proofs: {total[2]} lines")
