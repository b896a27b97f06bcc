#!/usr/bin/env python3
"""What tools/snake_names.py left: the names that files named Answers.antt in specs/ and proofs/ declare. Run once, after it."""

import importlib.util
import os

here = os.path.dirname(os.path.realpath(__file__))
spec = importlib.util.spec_from_file_location("snake_names", os.path.join(here, "snake_names.py"))
first = importlib.util.module_from_spec(spec)
spec.loader.exec_module(first)

TO = {n: first.snake(n).replace("-", "_") for n in "numberStartsAnew startsAnew answerNumbers serviceNumbers requestNumbers beginsAt fine-first value-long append-no bad-done bad-line by-hit early-left early-refusing get-bound get-fine get-no get-succeeds get-unbound hit-bound reads-if reads-why reason-number refused-when remove-no succeeds-by".split()}
for path in first.pages():
    old = open(path, encoding="utf-8").read()
    new = first.turned(path, old, TO)
    if new != old:
        open(path, "w", encoding="utf-8").write(new)
