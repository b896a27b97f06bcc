#!/usr/bin/env python3
"""convert_proofs.py CRATE_FOLDER NAMES_JSON [--remove] [--only F]

Turns each proofs/**/Proof.antt by hand into Invariants.antt and Answers.antt, by the names that
`rattle check --generated DIR --old-names` writes. The old file goes to $OLD_PROOFS (default target/old-proofs)/CRATE/.., or with --remove nowhere.
Prints for each function what it could not turn. Lines with TODO in the files are for hand work.
"""
import json, os, re, sys

NAME = r"[^\s(){}\[\],.;:=→λ∀×≡∷∙+*/<>≤≢|]+"  # a part of an identifier (dashes allowed)
ID = r"(?<![^\s(){}\[\],;←λ/+*^.])"


def norm(s):
    return s.replace("_", "-")


class Fn:
    """What names.json says of one function."""

    def __init__(self, key, data):
        self.key, self.d = key, data
        self.places = data["places"]
        self.index = {norm(p[0]): i for i, p in enumerate(self.places)}
        self.new_place = data["places_by_name"]
        self.said = []

    def whole_arm(self, i):
        """The last place of an arm, where the place is an inner one of it."""
        arm = self.d["arms"][i] if i is not None else None
        if not arm:
            return i
        return max((j for j, it in enumerate(self.d["arms"]) if it and it[0] == arm[0]), key=lambda j: self.d["arms"][j][1])

    def chain(self, i):
        while i is not None:
            yield i
            parent = self.places[i][1]
            i = self.index[norm(parent)] if parent else None

    def resolve(self, at, tokens, up=None):
        """The new path below c of an old one, its `before`s left out, at the place of that index; None if unknown."""
        step, rest = tokens[0], tokens[1:]
        if step in ("args", "requires", "ranges", "lifetimes", "well_formed", "well-formed"):
            return [step] + rest
        here = list(self.chain(at))
        for i in here:
            if norm(self.places[i][2][0]) == norm(step) and self.places[i][2][0]:
                break
        else:
            # the old walk counted some steps otherwise, as fits2: the one step of that name, or the one so many steps up
            base = lambda s: norm(re.sub(r"[0-9]+$", "", s))
            near = [j for j in here if self.places[j][2][0] and base(self.places[j][2][0]) == base(step)]
            if len(near) > 1 and up is not None and up < len(here) and here[up] in near:
                near = [here[up]]
            if len(near) != 1:
                return None
            i = near[0]
        old, new = self.places[i][2]
        typed = [v for v, s in self.d["typed"][at] + self.d["typed"][i] if norm(s) == norm(old)]
        # the arms, the deepest place first: what is bound there stands in the arm's step
        for j in here:
            arm = self.d["arms"][j]
            if not arm:
                continue
            for field, s, path in arm[2]:
                if norm(s) == norm(old) and path and rest[: len(path)] == path:
                    return [arm[0], field] + rest[len(path):]
        # an arm of several parts: `.given.0` names the parts; only its whole is lost
        if rest[:1] == ["given"]:
            return ["type_inv", typed[0]] + rest[1:] if typed else None
        if any(arm and any(norm(s) == norm(old) for _, s, _p in arm[2]) for arm in (self.d["arms"][j] for j in here)):
            return None
        for was, now in self.places[i][4] or []:
            if rest[:1] == [was]:
                rest = [now] + rest[1:]
                break
        return [new] + rest


def split_blocks(text):
    """The file's use lines, and its other blocks, each with its comments."""
    uses, blocks, now = [], [], []
    for line in text.splitlines():
        if line.startswith("use "):
            uses.append(line)
        elif not line.strip():
            if now:
                blocks.append(now)
            now = []
        else:
            now.append(line)
    if now:
        blocks.append(now)
    return uses, blocks


class Decl:
    def __init__(self, lines):
        self.comments = []
        while lines and lines[0].startswith("--"):
            self.comments.append(lines.pop(0))
        self.name = None
        self.lines = lines
        if not lines:
            return
        m = re.match(r"((?:abbrev |pub |unfoldable )*)(\S+) :( |$)", lines[0])
        if not m:
            return
        self.marks, self.name = m[1], m[2]
        sig = [lines[0][m.end(2):]]
        k = 1
        while k < len(lines) and lines[k].startswith(" "):
            sig.append(lines[k])
            k += 1
        self.sig = "\n".join(sig)[2:].lstrip(" ") if sig[0].startswith(" : ") else "\n".join(sig)[2:]
        self.unfolding = []
        while k < len(lines) and re.match(r"unfolding |reducing ", lines[k]):
            self.unfolding.append(lines[k])
            k += 1
        self.clauses = []  # [head args text, body]
        for line in lines[k:]:
            if line.startswith(" ") and self.clauses:
                self.clauses[-1] += "\n" + line
            else:
                self.clauses.append(line)

    def heads(self):
        for text in self.clauses:
            head, eq, body = text.partition("=")
            yield head.split()[1:], body.lstrip(" ") if not body.startswith("\n") else body


def names_in(text):
    return set(re.findall(r"[^\s(){}\[\],;.]+", text))


def keep_uses(uses, text, drop=()):
    out = []
    words = names_in(text)
    flat = text
    for line in uses:
        if re.search(r"\.Statement\.\{|\.Tie as |\.Tie$", line):
            continue
        m = re.match(r"use (\S+)\.\{(.*)\}$", line)
        if m:
            kept = []
            for it in [x.strip() for x in m[2].split(",")]:
                shown = it.split(" as ")[-1]
                parts = [p for p in shown.split("◌") if p]
                if "◌" in shown:
                    if all(p in flat for p in parts):
                        kept.append(it)
                elif shown in words:
                    kept.append(it)
            if kept:
                out.append(f"use {m[1]}.{{{', '.join(kept)}}}")
            continue
        m = re.match(r"use (\S+)(?: as (\S+))?$", line)
        short = m and (m[2] or m[1].split(".")[-1])
        if not m or re.search(rf"(?<![\w-]){re.escape(short)}\.", flat):
            out.append(line)
    return out


class Turn:
    def __init__(self, crate, fn, folder, module):
        self.crate, self.fn, self.folder, self.module = crate, fn, folder, module
        self.d = fn.d
        self.needs = {}
        for old, new in self.d["needs"]:
            self.needs[norm(old)] = new
        self.at = {new: fn.index.get(norm(a[0])) for (_, new), a in zip(self.d["needs"], self.d["asked_at"])}
        self.settled = [norm(s) for s in self.d["settled"]]
        self.said = []

    def say(self, text):
        self.said.append(text)

    def need(self, old, answer):
        """The new goal for `tie.Need-OLD`; None if it is gone."""
        tries = [norm(old)]
        for prefix in ("overflow-", "nonzero-", "slice-bounds-", "slice-read-", "shared-slice-", "bounds-", "shape-of-"):
            if norm(old).startswith(prefix):
                tries.append(norm(old)[len(prefix):])
                if prefix == "slice-bounds-":
                    tries.append("part-" + norm(old)[len(prefix):])
                    tries.append("slice-part-" + norm(old)[len(prefix):])
                    tries.append("shared-slice-part-" + norm(old)[len(prefix):])
        tries.append(norm(answer))
        for it in tries:
            if it in self.needs:
                return self.needs[it]
        return None

    # paths
    def turn_text(self, text, places, goal):
        """text with each path from a variable of places {var: place index} turned; goal names the goal (or place) of each variable."""
        if not places:
            return text
        alias = {}  # var -> (root var, tokens or [] for a place)
        path = r"((?:\.[A-Za-z0-9_'′₀-₉-]+)*)"

        def tokens_of(p):
            return [t for t in p.split(".")[1:]]

        def new_path(root, tokens):
            left = [t for t in tokens if t != "before"] if tokens else []
            # `before` only leads to places
            if not left:
                return None
            return self.fn.resolve(places[root], left, tokens.count("before"))

        # lets of plain paths: kept where each use agrees, else put in place
        out_text = text
        while True:
            roots = {**{v: (v, []) for v in places}, **alias}
            m = None
            for m_ in re.finditer(r"\blet (?:\(?)([^\s():]+)(?: : [^=\n]*)? = ([^\s().,;:]+)" + path + r" in(?=\s)[ ]?", out_text):
                if m_[2] in roots and not m_[0].startswith("let ("):
                    m = m_
                    break
            if not m:
                break
            root, toks = roots[m[2]]
            alias[m[1]] = (root, toks + tokens_of(m[3]))
            # the let goes; a mark keeps its place
            start = m.start()
            out_text = out_text[:start] + f"\x00{m[1]}\x03" + out_text[m.end():]
        roots = {**{v: (v, []) for v in places}, **alias}
        used = {v: [] for v in alias}

        def full(var, p):
            root, toks = roots[var]
            return root, toks + tokens_of(p)

        names = sorted(roots, key=len, reverse=True)
        pattern = re.compile(r"(?<![\w'′.₀-₉\x00-])(" + "|".join(map(re.escape, names)) + r")" + path + r"(?![\w'′₀-₉-])")
        # 1: which lets can stay
        stays = {}
        for v, (root, toks) in alias.items():
            base = new_path(root, toks)
            ok = base is not None
            if ok:
                for m in pattern.finditer(out_text):
                    if m[1] == v:
                        a = new_path(*full(v, m[2]))
                        if a != base + tokens_of(m[2]):
                            ok = False
            stays[v] = base if ok else None

        def put(m):
            var, p = m[1], m[2]
            if not p and re.match(r" : (\x02|goal\.)", out_text[m.end():m.end() + 8]):
                return var
            if var in stays and stays[var] is not None:
                return var + p
            root, toks = full(var, p)
            left = [t for t in toks if t != "before"]
            if not left:
                return f"\x01{root}\x01"
            new = self.fn.resolve(places[root], left, toks.count("before"))
            if new is None:
                self.say(f"{goal}: no new name for {root}.{'.'.join(toks)}")
                self.todo = True
                return f"{root}.TODO.{'.'.join(toks)}"
            return ".".join([root] + new)

        out_text = pattern.sub(put, out_text)

        def put_let(m):
            v = m[1]
            if stays.get(v) is not None:
                return f"let {v} = {'.'.join([alias[v][0]] + stays[v])} in "
            return ""

        out_text = re.sub("\x00([^\x00\x03]*)\x03", put_let, out_text)
        # a whole place passed to a lemma over a place
        def place(m):
            before = out_text[: m.start()].rstrip(" (").split()
            last = before[-1].lstrip("(") if before else ""
            want = self.helpers.get(last)
            root = m[1]
            if want is None:
                self.say(f"{goal}: a place is used whole, behind '{last}'")
                self.todo = True
                return root
            if goal == self.fn.new_place[want] and root in places:
                return root
            return f"(goal.at.{goal} {root}).{self.fn.new_place[want]}"

        out_text = re.sub("\x01([^\x01]*)\x01", place, out_text)
        out_text = re.sub(r"(?m)^[ ]+$\n?", "", out_text)
        out_text = re.sub(r"[ ]+\n", "\n", out_text)
        return out_text

    def invariant(self, decl):
        m = re.match(r"(invariant|decreases)-(.*)$", decl.name)
        kind, loop = m[1], m[2]
        for k, (name, variables) in enumerate(self.d["loops"]):
            if norm(name[0]) == norm(loop):
                break
        else:
            self.say(f"{decl.name}: no such loop")
            return None
        changed = self.d["changed"][k]
        new = f"{kind}-{name[1]}"
        out = [*decl.comments, f"abbrev pub {new} : goal.{new}", *decl.unfolding]
        for args, body in decl.heads():
            now = [v for v, c in zip(variables, changed) if c]
            if len(args) != len(variables) + len(now):
                self.say(f"{decl.name}: {len(args)} binders, but variables {variables} changed {now}")
                return None
            to = [f"l.initial.{v}" if c else f"l.{v}" for v, c in zip(variables, changed)] + [f"l.{v}" for v in now]
            said = dict(zip(args, to))
            said.pop("_", None)
            for a in said:
                if re.search(rf"λ[^.]*(?<![\w'-]){re.escape(a)}(?![\w'-])[^.]*\.\s|\({re.escape(a)} :", body):
                    self.say(f"{decl.name}: {a} is bound again inside; look")
            pattern = re.compile(r"(?<![\w'′.₀-₉-])(" + "|".join(sorted(map(re.escape, said), key=len, reverse=True)) + r")(?![\w'′₀-₉-])")
            body = pattern.sub(lambda m: said[m[1]], body) if said else body
            sep = "" if body.startswith("\n") else " "
            out.append(f"{new} l ={sep}{body}")
        return "\n".join(out)

    def turn(self, text):
        uses, blocks = split_blocks(text)
        decls = [Decl(list(b)) for b in blocks]
        head = []
        if decls and decls[0].name is None and not decls[0].lines:
            head = decls.pop(0).comments
        elif decls and decls[0].name is None:
            pass
        # a file's first comment lines stand directly above its use lines
        self.helpers = {}
        inv, ans, keep = [], [], []
        rename = {}
        kinds = {}
        for d in decls:
            if d.name is None:
                continue
            m = re.match(r"tie\.Need-(\S+)", d.sig.strip())
            if re.match(r"tie\.(invariant|decreases)-", d.sig.strip()):
                kinds[id(d)] = "inv"
            elif m:
                new = self.need(m[1], d.name)
                kinds[id(d)] = ("answer", m[1], new)
                if new:
                    rename[d.name] = new
            elif re.search(r"tie\.(close|spec)", "\n".join(d.clauses)):
                kinds[id(d)] = "spec"
            elif "tie." in d.sig:
                kinds[id(d)] = "place"
                b = re.search(r"tie\.([^\s()]+)", d.sig)
                p = self.fn.whole_arm(self.fn.index.get(norm(b[1])))
                if p is not None:
                    self.helpers[d.name] = p
                else:
                    self.say(f"{d.name}: no place {b[1]}")
            else:
                kinds[id(d)] = "lemma"
        invs = []
        for d in decls:
            if d.name is None:
                if d.lines:
                    self.say(f"a block that was not read: {d.lines[0][:60]}")
                    ans.append("\n".join(["-- TODO", *d.comments, *d.lines]))
                continue
            kind = kinds[id(d)]
            self.todo = False
            if kind == "inv":
                it = self.invariant(d)
                if it:
                    invs.append(it)
            elif kind == "spec":
                continue
            elif kind == "lemma":
                keep.append(d)
                ans.append("\n".join([*d.comments, *d.lines]))
            elif kind == "place":
                ans.append(self.place_lemma(d))
            else:
                _, old, new = kind
                bodies = [b.strip() for _, b in d.heads()]
                trivial = all(re.fullmatch(r"search \(?rules\)?", b) for b in bodies)
                if trivial and not d.unfolding:
                    continue
                if new is None:
                    if not trivial:
                        self.say(f"{d.name}: goal {old} is gone{' (settled)' if norm(old) in self.settled else ''}; its answer was dropped: {' '.join(bodies[0].split())[:100]}")
                    continue
                out = []
                for args, body in d.heads():
                    var = args[0]
                    if len(args) > 2 or len(args) == 2 and args[1] != "κs":
                        self.say(f"{d.name}: arguments {args}")
                    at = self.at.get(new)
                    if at is None:
                        self.say(f"{d.name}: no place for {new}")
                        self.todo = True
                    else:
                        if var != "_":
                            body = self.turn_text(body, {var: at}, new)
                    for a, b in rename.items():
                        if a != b and a != d.name:
                            again = re.sub(rf"(?<![\w'′.₀-₉-]){re.escape(a)}(?![\w'′₀-₉.-])", b, body)
                            if again != body:
                                self.say(f"{d.name}: cites the answer {a}, now {b}; look")
                                body = again
                    sep = "" if body.startswith("\n") else " "
                    out.append(f"{new} {var} ={sep}{body}")
                todo = ["-- TODO"] if self.todo else []
                ans.append("\n".join([*todo, *d.comments, f"pub {new} : goal.{new}", *d.unfolding, *out]))
        files = {}
        heads = [l for l in text.splitlines()[: len(text.splitlines()) - 1]]
        note = []
        for l in heads:
            if not l.startswith("--"):
                break
            note.append(l)
        if invs:
            body = "\n\n".join(invs)
            us = keep_uses(uses, body)
            # lemmas that the invariants cite
            files["Invariants.antt"] = "\n".join(note + us + [f"use {self.module}.Given as goal"]) + "\n\n" + body + "\n"
            for d in keep:
                if d.name in names_in(body):
                    self.say(f"an invariant cites {d.name} of this file: move it")
        # lemmas that nothing cites any more go
        if any("goal." in a for a in ans):
            live = True
            body = "\n\n".join(ans)
            changed = True
            while changed:
                changed = False
                for d in list(keep):
                    own = "\n".join([*d.comments, *d.lines])
                    others = [a for a in ans if a != own]
                    if d.name not in names_in("\n".join(others)):
                        if own in ans:
                            ans.remove(own)
                        keep.remove(d)
                        changed = True
            body = "\n\n".join(ans)
            if "goal." in body:
                us = keep_uses(uses, body)
                named = sorted({self.fn.new_place[i] for i in self.helpers.values() if self.fn.new_place[i] in names_in(body)})
                more = [f"use {self.module}.Goals.{{{', '.join(named)}}}"] if named else []
                files["Answers.antt"] = "\n".join(note + us + [f"use {self.module}.Goals as goal"] + more) + "\n\n" + body + "\n"
        return files

    def place_lemma(self, d):
        sig = d.sig
        places, order = {}, []
        if d.name not in self.helpers:
            return "\n".join(["-- TODO", *d.comments, *d.lines])
        def put(m):
            i = self.fn.whole_arm(self.fn.index.get(norm(m[2])))
            if i is None:
                self.say(f"{d.name}: no place {m[2]}")
                self.todo = True
                return m[0]
            places[m[1]] = i
            order.append((m[1], i))
            return f"({m[1]} : \x02{self.fn.new_place[i]})"
        sig = re.sub(r"\((\S+) : tie\.([^\s()]+)((?: [^\s()]+)*)\)", put, sig)
        # a function's type without a binder
        def bare(m):
            i = self.fn.whole_arm(self.fn.index.get(norm(m[1])))
            if i is None:
                return m[0]
            order.append((None, i))
            return f"\x02{self.fn.new_place[i]}"
        sig = re.sub(r"(?<![^\s(])tie\.([^\s()]+)((?: (?:invariant|decreases)-[^\s()]+)*)(?= →)", bare, sig)
        if "tie." in sig:
            self.say(f"{d.name}: its type is not read: {sig[:80]}")
            return "\n".join(["-- TODO", *d.comments, *d.lines])
        here = self.fn.new_place[order[0][1]]
        sig = self.turn_text(sig, places, here)
        sig = sig.replace("\x02", "")
        out = []
        binders = re.findall(r"[({]([^(){}:]+) :", sig.split("→ let")[0])
        names = [b for g in binders for b in g.split()]
        for args, body in d.heads():
            vars_ = {}
            for v, i in order:
                k = names.index(v) if v in names else 0
                if k < len(args):
                    vars_[args[k]] = i
            body = self.turn_text(body, vars_ or {"c": order[0][1]}, here)
            sep = "" if body.startswith("\n") else " "
            out.append(f"{' '.join([d.name, *args])} ={sep}{body}")
        todo = ["-- TODO"] if self.todo else []
        return "\n".join([*todo, *d.comments, f"{d.name} : {sig}", *d.unfolding, *out])


def main():
    args = [a for a in sys.argv[1:] if not a.startswith("--")]
    remove = "--remove" in sys.argv
    folder, names = os.path.abspath(args[0]), args[1]
    only = sys.argv[sys.argv.index("--only") + 1] if "--only" in sys.argv else None
    crate = os.path.basename(folder)
    data = json.load(open(names))
    old_home = os.environ.get("OLD_PROOFS", os.path.join(os.path.dirname(os.path.dirname(folder)), "target", "old-proofs"))
    done = left = 0
    for at, _, found in sorted(os.walk(f"{folder}/proofs")):
        if "Proof.antt" not in found:
            continue
        rel = os.path.relpath(at, f"{folder}/proofs")
        if only and only != rel:
            continue
        parts = rel.split("/")
        key = f"Rattle-{crate}-proofs.{'.'.join(parts)}.Lts"
        text = open(f"{at}/Proof.antt").read()
        if not re.search(r"\.Tie as tie", text):
            print(f"{rel}: no walk by tie; left as it is")
            left += 1
            continue
        if key not in data:
            near = [k for k in data if norm(k) == norm(key)]
            if not near:
                print(f"{rel}: not in names.json; left as it is")
                left += 1
                continue
            key = near[0]
        module = f"Rattle.{crate}.proofs.{'.'.join(parts)}"
        turn = Turn(crate, Fn(key, data[key]), at, module)
        try:
            files = turn.turn(text)
        except Exception as error:  # noqa
            print(f"{rel}: FAILED {type(error).__name__}: {error}; left as it is")
            if "--trace" in sys.argv:
                raise
            left += 1
            continue
        if remove:
            os.remove(f"{at}/Proof.antt")
        else:
            to = f"{old_home}/{crate}/{rel}"
            os.makedirs(to, exist_ok=True)
            os.replace(f"{at}/Proof.antt", f"{to}/Proof.antt")
        for name, body in files.items():
            with open(f"{at}/{name}", "w") as it:
                it.write(body)
        if not files:
            try:
                os.rmdir(at)
            except OSError:
                pass
        done += 1
        print(f"{rel}: {', '.join(files) or 'no file needed'}")
        for it in turn.said:
            print(f"    {it}")
    print(f"{crate}: turned {done}, left {left}")


if __name__ == "__main__":
    main()
