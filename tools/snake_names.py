#!/usr/bin/env python3
"""Brings the repository's own definitions and lemmas to snake case: run once, after the kit's port.py, at the top.

usage: python3 tools/snake_names.py [--list]     (--list prints the map and writes nothing)

Turned are the names that files of specs/ and proofs/ declare (not those of a function's own proof, which are made anew): camel case and
dashes become underscores. A dash stays where it joins two names of functions, as in `length-written`. Where a definition and a lemma would
fall together, the lemma ends in `_lem`. Types, modules, names from Rust and strings are left alone; in comments and pages only what stands in
backticks is turned.
"""

import os
import re
import sys

ROOT = os.path.dirname(os.path.dirname(os.path.realpath(__file__)))
TOKEN = re.compile(r"[^\s(){}\[\].,;|\"`]+")
DECLARED = re.compile(r"^\s*((?:pub |abbrev |unfoldable |ruleset )*)([^\s(){}\[\].,;|\"`]+(?: [^\s(){}\[\].,;|\"`]+)*) : ")
# Names of the library that a lemma's name may join by a dash.
LIBRARY = {"length", "take", "drop", "set", "sets", "append", "get_or", "replicate"}
# What port.py turned itself, in the crates and not in the pages, as it said.
TURNED_BY_PORT = """
    a-read a-write add-at add-body add-r add-start aimOf all-done all-hold all-listed all-read all-rest all-small and-assoc answer-
    back answerIn answerOf as-long asks-none asks-read at-lt at-most at-none at-once at-rest blank-none buffer-lent by-place by-size
    by-state byte-inside byte-of byte-step bytes-take bytesAt bytesOf call-asks callOf comes-back cond-same count-held count-small
    digits-are digits-in end-back end-is end-none end-same end-short endOf ends-with entryAt entryOf enum-told every-of every-take
    fill-spec find-spec first-fine first-fits first-found first-live first-rest firstOf fits-kept follows-of found-at freshOf from-
    first from-start give-spec goes-down goes-on header-at header-is held-of in-end in-head in-one is-found is-get is-plain is-removed
    itemOf itemsIn key-here keyAt keyOf laid-in left-back left-end left-false left-less left-over len-is length-most lengthAt lent-
    back lent-fits lent-is lent-length lent-same lentOf line-reads lineOf linesOf long-of look-none look-spec needOf next-low next-of
    nextAt no-answer no-bytes no-more no-room noSlot none-ahead none-done none-from none-left none-passes not-end not-gives not-live
    not-there not-through nothing-left nothing-lent number-is numberAt numberIn one-answer one-fewer one-list one-place only-one only-
    two onward-near or-assoc others-same outOf own-fresh part-length partAt pass-step passed-is place-is place-of placeOf placed-at
    placed-of probe-found read-back read-low read-none read-spec reads-all reads-first reads-live reads-then record-same rest-of room-
    at roomAt roomFor run-end run-ends run-fits run-of same-key same-length same-next same-or-not same-s same-spec shift-fits shifts-
    fit size-is size-small sizeOf slotAt slotOf so-far span-none stands-from start-fine start-is startOf step-keeps step-of step-spec
    stores-at sum-same sumAt swept-of textOf to-end too-large too-short turnOf two-is typed-one value-lent value-same valueOf wait-
    spec word-at write-low write-spec written-none written-one zero-flag zero-is zero-rest
""".split()
SNAKE = re.compile(r"[a-z0-9_']+")
# A lemma and a definition that fall together, and two that differ only in case or sign.
APART = {
    "append-by": "append_by_lem", "append-of": "append_of_lem", "bad-call": "bad_call_lem", "blank-at": "blank_at_lem",
    "collect-services": "collect_services_lem", "erased-by": "erased_by_lem", "first-room": "first_room_lem",
    "image-after-all": "image_after_all_lem", "initialise-by": "initialise_by_lem", "is-wanted": "is_wanted_lem",
    "kill-bytes": "kill_bytes_lem", "kill-length": "kill_length_lem", "lent-buffer": "lent_buffer_lem",
    "lent-length": "lent_length_lem", "own-aim": "own_aim_lem", "own-edit": "own_edit_lem", "own-next": "own_next_lem",
    "own-lent": "own_lent_lem", "place-fits": "place_fits_lem", "plan-fits": "plan_fits_lem",
    "reads-and-edits": "reads_and_edits_lem", "record-bytes": "record_bytes_lem", "record-fits": "record_fits_lem",
    "refused-by": "refused_by_lem", "refused-line": "refused_line_lem", "reply-fits": "reply_fits_lem", "start-few": "start_few_lem",
    "start-of": "start_of_lem", "value-short": "value_short_lem", "wait-fits": "wait_fits_lem", "first_fits": "first_fits_lem",
    "in-region": "in_region_lem", "zero-bytes": "zero_bytes_lem", "blankAt": "is_blank_at",
}
# The same, where the name is another thing in another file: a constructor or a field keeps it, or it is the lemma of these files alone.
APART_IN = {
    "buffer_lent": ("buffer_lent_lem", ["exports/proofs/Read", "exports/proofs/Called", "rule/proofs/Calls"]),
    "value_lent": ("value_lent_lem", ["exports/proofs/Read", "exports/proofs/Called", "rule/proofs/Calls", "stepwise/proofs/Lays", "runs/proofs/Rests"]),
    "own_fresh": ("own_fresh_lem", ["numbers/proofs/Own", "exports/proofs/Read"]),
    "laid_in": ("laid_in_lem", ["runs/proofs/Rests"]),
}


def antt_files():
    for folder, dirs, files in os.walk(os.path.join(ROOT, "crates")):
        dirs[:] = sorted(d for d in dirs if d not in ("out", "must-fail"))
        for f in sorted(files):
            if f.endswith(".antt"):
                yield os.path.join(folder, f)


def snake(name):
    return re.sub(r"(?<=[a-z0-9])([A-Z])", lambda m: "_" + m.group(1).lower(), name)


def declared():
    """The names that specs/ and proofs/ declare, and those of them that are functions of specs/."""
    names, functions = set(), set()
    for path in antt_files():
        if os.path.basename(path) in ("Proof.antt", "Answers.antt", "Invariants.antt"):
            continue
        for line in open(path, encoding="utf-8"):
            if line.lstrip().startswith("--"):
                continue
            m = DECLARED.match(line)
            if m:
                words = m.group(2).split()
                names.update(words)
                if "/specs/" in path and re.search("abbrev|unfoldable", m.group(1)):
                    functions.update(snake(w) for w in words)
    return names, functions


def table():
    names, functions = declared()
    known = functions | LIBRARY
    to = {}
    for n in sorted(names):
        if n in APART:
            to[n] = APART[n]
            continue
        if n[0].isupper():
            new = n if "-" not in n else n.replace("-", "_")
        else:
            new = snake(n)
            parts = new.split("-")
            if len(parts) > 1 and not (all(p in known for p in parts) and any(p in LIBRARY - {"append", "set"} for p in parts)):
                new = "_".join(parts)
        if new != n:
            to[n] = new
    return to, names


def turn_code(text, to):
    return TOKEN.sub(lambda m: to.get(m.group(0), m.group(0)), text)


def turn_ticks(text, to):
    return re.sub(r"`[^`\n]*`", lambda m: turn_code(m.group(0), to), text)


def turn_line(line, to, mark):
    at = line.find(mark)
    while at > 0 and not line[at - 1].isspace():
        at = line.find(mark, at + 1)
    if at < 0:
        return turn_strings(line, to)
    return turn_strings(line[:at], to) + turn_ticks(line[at:], to)


def turn_strings(line, to):
    parts = re.split(r'("(?:[^"\\]|\\.)*")', line)
    return "".join(p if i % 2 else turn_code(p, to) for i, p in enumerate(parts))


def turned(path, text, to):
    lines = text.split("\n")
    if path.endswith(".antt"):
        return "\n".join(turn_line(l, to, "--") for l in lines)
    if path.endswith(".rt"):
        return "\n".join(turn_line(l, to, "//") for l in lines)
    if path.endswith(".edit"):
        return "\n".join(turn_code(l, to) if l.startswith(("old:", "new:")) else turn_ticks(l, to) for l in lines)
    return turn_ticks(text, to)


def pages():
    for folder, dirs, files in os.walk(ROOT):
        dirs[:] = sorted(d for d in dirs if d not in (".git", "out", "target", "node_modules", "tools"))
        for f in sorted(files):
            if f.endswith((".antt", ".rt", ".edit", ".md")):
                yield os.path.join(folder, f)


def main(argv):
    to, names = table()
    back = {}
    for n, new in to.items():
        back.setdefault(new, []).append(n)
    for new, olds in sorted(back.items()):
        if len(olds) > 1 or (new in names and new not in to):
            print("falls together:", new, "from", ", ".join(olds), "and itself" if new in names and new not in to else "")
    if argv[:1] == ["--list"]:
        for n, new in sorted(to.items()):
            print(n, new)
        kept = sorted(n for n in names if "-" in n and "-" in to.get(n, n))
        print("kept:", " ".join(to.get(n, n) for n in kept))
        return 0
    changed = 0
    for path in pages():
        old = open(path, encoding="utf-8").read()
        here = dict(to)
        if path.endswith((".rt", ".md")):
            here = {n: new for n, new in to.items() if not SNAKE.fullmatch(n)}
        if path.endswith(".md"):
            here.update({n: snake(n).replace("-", "_") for n in TURNED_BY_PORT})
        for n, (new, files) in APART_IN.items():
            if any(path.endswith(f"crates/{f}.antt") for f in files):
                here[n] = new
        new = turned(path, old, here)
        if new != old:
            open(path, "w", encoding="utf-8").write(new)
            changed += 1
    print(len(to), "names,", changed, "files")
    return 0


if __name__ == "__main__":
    raise SystemExit(main(sys.argv[1:]))
