#!/usr/bin/env python3
"""Says which must-fail edits can't be applied.

usage: python3 tools/edits_apply.py [ROOT]          ROOT: a repository with crates/ (default: this one)
       python3 tools/edits_apply.py --to DIR [ROOT]   writes each edited file too, as DIR/CRATE/EDIT/FILE

An edit is `file:` with pairs `old:`, `new:`, each of one line. A pair applies to what the pairs before it made, and its old text must stand there exactly
once. It prints each edit of which that is not so, and a count. Exit status 1 if there is one.
"""

import os
import sys


def read(path):
    with open(path, encoding="utf-8", newline="") as f:
        return f.read()


def pairs_of(text):
    """The pairs (file, old, new) of an edit; a ValueError where a line is none of an edit's."""
    name = old = None
    found = []
    for line in text.split("\n"):
        if line.startswith("#") or not line.strip():
            continue
        word, _, rest = line.partition(":")
        rest = rest[1:] if rest.startswith(" ") else rest
        if word == "file" and old is None:
            name = rest.strip()
        elif word == "old" and name is not None and old is None and rest:
            old = rest
        elif word == "new" and old is not None:
            found.append((name, old, rest))
            old = None
        else:
            raise ValueError(f"a line that is not an edit's: {line}")
    if old is not None or not found:
        raise ValueError("no new text" if old is not None else "no pair of old and new")
    return found


def applied(crate, pairs):
    """The files as the pairs make them, by name; a ValueError where one can't be applied."""
    files = {}
    for name, old, new in pairs:
        if name not in files:
            path = os.path.join(crate, name)
            if not os.path.isfile(path):
                raise ValueError(f"no file {name}")
            files[name] = read(path)
        n = files[name].count(old)
        if n != 1:
            raise ValueError(f"{name}: the old text stands {n} times: {old}")
        if old == new:
            raise ValueError(f"{name}: old and new are the same: {old}")
        files[name] = files[name].replace(old, new)
    return files


def main(argv):
    to = None
    if argv[:1] == ["--to"] and len(argv) > 1:
        to, argv = argv[1], argv[2:]
    if len(argv) > 1 or argv[:1] in (["-h"], ["--help"]):
        print(__doc__)
        return 2
    root = argv[0] if argv else os.path.dirname(os.path.dirname(os.path.realpath(__file__)))
    good = bad = 0
    for crate in sorted(os.listdir(os.path.join(root, "crates"))):
        folder = os.path.join(root, "crates", crate, "must-fail")
        if not os.path.isdir(folder):
            continue
        for edit in sorted(os.listdir(folder)):
            if not edit.endswith(".edit"):
                continue
            try:
                files = applied(os.path.join(root, "crates", crate), pairs_of(read(os.path.join(folder, edit))))
            except ValueError as e:
                print(f"crates/{crate}/must-fail/{edit}: {e}")
                bad += 1
                continue
            good += 1
            for name, text in files.items() if to else ():
                path = os.path.join(to, crate, edit[:-5], name)
                os.makedirs(os.path.dirname(path), exist_ok=True)
                with open(path, "w", encoding="utf-8", newline="") as f:
                    f.write(text)
    print(f"{good + bad} edits: {good} can be applied, {bad} can't")
    return 1 if bad else 0


if __name__ == "__main__":
    raise SystemExit(main(sys.argv[1:]))
