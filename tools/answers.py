#!/usr/bin/env python3
"""Turns the proof files of crates to today's: usage: tools/answers.py CRATE.., at the top, once for each crate, those below it being proved.

Each proofs/F/Proof.antt that closes over a `Tie` becomes proofs/F/Invariants.antt and proofs/F/Answers.antt, with today's names of goals, places, steps and
clauses. The names are those of `rt check --generated DIR --old-names`.
"""
import json
import os
import re
import shutil
import subprocess
import sys
import tempfile

NAME = r"[^\s(){}.;,@\"«»\[\]]+"


def norm(s):
    s = s.replace("_", "-")
    return s[len("overflow-") :] if s.startswith("overflow-") else s


def read(p):
    with open(p, encoding="utf-8") as f:
        return f.read()


def clauses_of_sources():
    """Function's path below its crate -> kind -> the names of its clauses, in order."""
    table = {}
    for crate in sorted(os.listdir("crates")):
        src = f"crates/{crate}/src"
        for folder, _, files in os.walk(src):
            for f in sorted(files):
                if not f.endswith(".rt"):
                    continue
                rel = os.path.relpath(os.path.join(folder, f), src)[:-3]
                mods = [] if rel in ("lib", "main") else rel.replace("/mod", "").split("/")
                impl, fn = None, None
                for line in read(os.path.join(folder, f)).split("\n"):
                    m = re.match(r"impl(?:<[^>]*>)? (\w+)", line)
                    if m:
                        impl = m[1]
                    if line.startswith("}"):
                        impl = None
                    m = re.match(r"\s*(?:pub(?:\([a-z]+\))? )?(?:unsafe )?(?:extern \"C\" )?fn (\w+)", line)
                    if m:
                        fn = "::".join([crate, *mods, *([impl] if impl and line.startswith(" ") else []), m[1]])
                        head = read(os.path.join(folder, f)).split(line, 1)[1]
                        whole = line + head[: head.find("{")]
                        given = re.findall(r"(?:mut )?(\w+): ", whole.split("requires")[0].split("ensures")[0])
                        table[fn] = {"requires": [], "ensures": [], "new": given}
                    m = re.match(r"\s+(requires|ensures)\*?(?: (\w+))? ?\{", line)
                    if m and fn:
                        table[fn][m[1]].append(m[2])
    return table


CLAUSES = {}
# steps at which an older Rattle had no place of its own
NEW_PLACES = re.compile(r"way_told")


def blocks(text):
    """The text cut at lines that begin at the margin: (comment lines before, lines of the block)."""
    out, comment, now = [], [], None
    for line in text.split("\n"):
        if line.startswith("-- ") or line == "--":
            if now is not None:
                out.append(now)
                now = None
            comment.append(line)
        elif line.strip() == "":
            if now is not None:
                now[1].append(line)
            elif comment:
                out.append((comment, []))
                comment = []
        elif line[0] not in " )]}":
            if now is not None:
                out.append(now)
            now = (comment, [line])
            comment = []
        else:
            now[1].append(line)
    if now is not None:
        out.append(now)
    elif comment:
        out.append((comment, []))
    # a signature, its `unfolding` line and its equations are one block
    joined = []
    for c, b in out:
        first = b[0] if b else ""
        if joined and b and not c:
            m = re.match(rf"(?:(?:abbrev|unfoldable|pub)\s+)*({NAME})\s*:", joined[-1][1][0] if joined[-1][1] else "")
            if m and (first.startswith("unfolding ") or re.match(rf"{re.escape(m[1])}(?=[\s(])", first)):
                while joined[-1][1][-1].strip() == "":
                    joined[-1][1].pop()
                joined[-1] = (joined[-1][0], joined[-1][1] + b)
                continue
        joined.append((c, b))
    return [(c, "\n".join(b).rstrip("\n")) for c, b in joined]


def top_split(s, sep=","):
    parts, deep, last = [], 0, 0
    i = 0
    while i < len(s):
        c = s[i]
        if c in "([{":
            deep += 1
        elif c in ")]}":
            deep -= 1
        elif deep == 0 and s.startswith(sep, i):
            parts.append(s[last:i])
            last = i + len(sep)
        i += 1
    parts.append(s[last:])
    return parts


def lets_and_end(body):
    """A body as its leading `let .. in`s and what follows them."""
    i, n = 0, len(body)
    head = 0
    while True:
        m = re.compile(r"\s*let\s").match(body, i)
        if not m:
            return body[:head], body[head:]
        deep, nest, j = 0, 1, m.end()
        while j < n:
            c = body[j]
            if c in "([{":
                deep += 1
            elif c in ")]}":
                deep -= 1
            elif deep == 0 and re.compile(r"let\s").match(body, j) and body[j - 1] in " \n(":
                nest += 1
            elif deep == 0 and re.compile(r"in(?=[\s(])").match(body, j) and body[j - 1] in " \n)":
                nest -= 1
                if nest == 0:
                    break
            j += 1
        i = head = j + 2


def to_record(body, names):
    head, end = lets_and_end(body)
    e = end.strip()
    k = re.match(r"elim\b|search\b", e)
    if e.startswith("(") and e.endswith(")"):
        deep = 0
        for i, c in enumerate(e):
            deep += (c in "([{") - (c in ")]}")
            if deep == 0:
                break
        if i == len(e) - 1:
            parts = [p.strip() for p in top_split(e[1:-1])]
            if parts and parts[-1] == "":
                parts.pop()
            if len(parts) == len(names):
                return head + (" " if head else "") + "record { " + "; ".join(f"{n} = {p}" for n, p in zip(names, parts)) + " }"
    if k:
        return body
    return head + (" " if head else "") + f"let all = {e} in record {{ " + "; ".join(f"{n} = all.{i}" for i, n in enumerate(names)) + " }"


class Function:
    def __init__(self, crate, path, names):
        self.crate, self.path, self.names = crate, path, names
        self.places = names["places"]
        self.by_old = {norm(p[0]): i for i, p in enumerate(self.places)}
        self.new_place = {norm(p[0]): names["places_by_name"][i] for i, p in enumerate(self.places)}
        self.parent = {norm(p[0]): norm(p[1]) if p[1] else None for p in self.places}
        self.loops = names["loops"]
        self.problems = []
        self.own_places = {}
        self.views, self.parameters, self.plain = set(), None, set()

        arms = names.get("arms", [])
        self.arm_of = {norm(p[0]): arms[i] for i, p in enumerate(self.places) if i < len(arms) and arms[i]}
        self.final, self.first = {}, {}
        for q, a in self.arm_of.items():
            f = q
            while self.parent[f] in self.arm_of and self.arm_of[self.parent[f]][:2] == [a[0], self.arm_of[f][1] - 1]:
                f = self.parent[f]
            self.first[q] = f
        for q in self.arm_of:
            end = [r for r in self.arm_of if self.first[r] == self.first[q] and self.arm_of[r][0] == self.arm_of[q][0]]
            self.final[q] = max(end, key=lambda r: self.arm_of[r][1])

    def is_past(self, q):
        return q in self.arm_of and self.final[q] == q and self.arm_of[q][1] > 1

    def up(self, q):
        """The place one step back in today's records: past the whole of an arm."""
        return self.parent[self.first[q]] if self.is_past(q) else self.parent[q]

    def back(self, place, steps):
        """The place that an older file meant by so many steps back, and how many they are today."""
        t = place
        for _ in range(steps):
            t = self.parent[t] if t else None
            while self.is_new(t):
                t = self.parent[t]
        if t is None:
            return None, steps
        q, n = place, 0
        while q is not None:
            if q == t or (self.is_past(q) and t in self.arm_of and self.final[t] == q):
                return q, n
            q, n = self.up(q), n + 1
        return t, steps

    def read_goals(self, text):
        """Which places have a view of their own, and with what parameters records are told."""
        for m in re.finditer(r"(?m)^abbrev pub (\S+) : Type 0\n\S+ =((?:\s+\S+)+?)\n\n", text):
            words = m[2].split()
            if words[0].startswith("View.In-"):
                self.views.add(m[1])
            elif words[0].startswith("Lts.") and not words[0].startswith("Lts.Need-"):
                self.plain.add(m[1])
            else:
                continue
            self.parameters = [("goal." + w if w.startswith("the-") else w) for w in words[1:]]

    def step(self, place, old):
        """The new name of the step with this old name that place can see, and its callee."""
        q = place
        while q is not None:
            p = self.places[self.by_old[q]]
            if norm(p[2][0]) == norm(old):
                return p[2][1], p[3]
            if norm(p[2][1]) == norm(old):
                return p[2][1], p[3]
            q = self.parent[q]
        return None

    def any_step(self, old):
        found = {(p[2][1], p[3]) for p in self.places if p[2][0] and norm(p[2][0]) == norm(old)}
        return found.pop() if len(found) == 1 else None

    def clause(self, callee, kind, number):
        names = CLAUSES.get(callee, {}).get(kind, [])
        if len(names) > 1 and number < len(names) and names[number]:
            return names[number]
        return None

    def is_new(self, place):
        """A place that an older Rattle did not have: steps back went past it."""
        return place is not None and bool(NEW_PLACES.match(self.places[self.by_old[place]][2][0]))

    def arm(self, place, rest):
        """What an arm has in place of a step's field: the new path, and how many words it stands for."""
        q = place
        while q is not None:
            a = self.names["arms"][self.by_old[q]]
            if a:
                for field, step, path in a[2]:
                    if path and [norm(w) for w in rest[: 1 + len(path)]] == [norm(step), *[norm(w) for w in path]]:
                        return [a[0], field], 1 + len(path)
            q = self.parent[q]
        return None

    def rename_path(self, path, env):
        """A path x.f.g.., with x bound to a place: today's spelling of it."""
        head, *rest = path
        place = env[head]
        i = 0
        while i < len(rest) and rest[i] == "before":
            i += 1
        if place is not None:
            start = 0
            while self.is_new(place):
                place, start = self.up(place), start + 1
            place, n = self.back(place, i)
            out = [head] + ["before"] * (n + start + (head in self.at_view))
        else:
            out = [head] + ["before"] * i
        callee = None
        if i < len(rest):
            word = rest[i]
            new = None
            out = [self.alias.get(head, head)]
            arm = self.arm(place, rest[i:])
            if arm:
                return ".".join([self.alias.get(head, head)] + arm[0] + rest[i + arm[1] :]), place, i
            if word not in ("args", "requires", "ranges", "lifetimes"):
                new = (self.step(place, word) if place is not None else None) or self.any_step(word)
            if new:
                out.append(new[0])
                callee = new[1]
            else:
                out.append(word)
                if word == "requires" and i + 1 < len(rest) and rest[i + 1].isdigit():
                    c = self.clause("::".join([self.crate] + self.path), "requires", int(rest[i + 1]))
                    if c:
                        rest[i + 1] = c
            i += 1
            rest = rest[:i] + self.news(callee, rest[i:])
        while i < len(rest):
            w = rest[i]
            if w.isdigit() and rest[i - 1] == "ensures" and callee:
                c = self.clause(callee, rest[i - 1], int(w))
                if c:
                    w = c
            if w.isdigit() and rest[i - 1] == "requires" and not callee:
                pass
            out.append(w)
            i += 1
        return ".".join(out), place, i

    def rename(self, text, env):
        """All paths of a term; `let x = PATH in` with only steps back binds x to a place."""
        env = dict(env)
        kind = {}
        self.alias = {}
        out, last = [], 0
        token = re.compile(rf"(?<![^\s(){{}};,@\[\]])({NAME})((?:\.{NAME})+)|(?<![\w-])let\s+({NAME})\s*=\s*({NAME})((?:\.{NAME})*)\s+in(?![\w-])|(?<![^\s(){{}};,\[\]])({NAME})(?=[\s(){{}};,\[\]]|$)")
        for m in token.finditer(text):
            out.append(text[last : m.start()])
            last = m.end()
            if m[6]:
                w = m[6]
                out.append(w + (".before" if w in env and w in self.at_view else "") + (".before" if w in env and self.is_new(env[w]) else ""))
                continue
            if m[3]:
                x, h, rest = m[3], m[4], [w for w in m[5].split(".") if w]
                later = text[m.end() :]
                bare = re.search(rf"(?<![^\s(){{}};,@\[\]]){re.escape(x)}(?=[\s(){{}};,\[\]]|$)|(?<![^\s(){{}};,@\[\]]){re.escape(x)}(?:\.before)+(?=[\s(){{}};,\[\]]|$)", later)
                if h in env and rest and all(w == "before" for w in rest) and not bare:
                    env[x] = self.rename_path([h, *rest], env)[1]
                    self.alias[x] = self.alias.get(h, h)
                    self.at_view.discard(x)
                    while last < len(text) and text[last].isspace():
                        last += 1
                    continue
                step = self.arm_step(env[h], rest) if h in env else None
                if step:
                    kind[x] = ("arm", step)
                    env.pop(x, None)
                    out.append(m[0][: m.start(4) - m.start()] + self.alias.get(h, h) + "." + step[0] + m[0][m.end(5) - m.start() :])
                elif h in env:
                    new, place, _ = self.rename_path([h, *rest], env)
                    if all(w == "before" for w in rest):
                        self.at_view.discard(x)
                        env[x] = place
                    elif rest[-1] == "requires" or rest[-1] == "ensures":
                        kind[x] = (rest[-1], self.callee_of([h, *rest], env))
                    elif x in env:
                        del env[x]
                    if rest and rest[-1] not in ("requires", "ensures") and not all(w == "before" for w in rest):
                        s = self.callee_of([h, *rest, "ensures"], env)
                        if s:
                            kind[x] = ("step", s)
                    out.append(m[0][: m.start(4) - m.start()] + new + m[0][m.end(5) - m.start() :])
                elif h in kind and rest:
                    out.append(m[0][: m.start(4) - m.start()] + ".".join([h, *self.of_kind(kind[h], rest)]) + m[0][m.end(5) - m.start() :])
                else:
                    out.append(m[0])
                continue
            h, rest = m[1], m[2][1:].split(".")
            if h in env:
                out.append(self.rename_path([h, *rest], env)[0])
            elif h in kind:
                rest = self.of_kind(kind[h], rest)
                out.append(".".join([h, *rest]))
            else:
                out.append(m[0])
        out.append(text[last:])
        # a test of !f(x) says of the call's answer what the other outcome says
        out = re.sub(rf"not-(?:true|false) _ ({NAME}(?:\.{NAME})*\.if-not-{NAME}\.(?:true|false))", r"\1", "".join(out))
        return re.sub(rf"\)\.({NAME})((?:\.{NAME})*)", self.of_call, out)

    def of_call(self, m):
        """A step of what a helper of the file answers, as (read k).read_byte.ensures."""
        rest = m[2].split(".")[1:]
        new = self.any_step(m[1]) if m[1] not in ("args", "requires", "before") else None
        if new is None:
            if m[1] == "requires" and rest and rest[0].isdigit():
                rest[0] = self.clause("::".join([self.crate] + self.path), "requires", int(rest[0])) or rest[0]
            return ")." + ".".join([m[1], *rest])
        rest = self.news(new[1], rest)
        if len(rest) > 1 and rest[0] == "ensures" and rest[1].isdigit():
            rest[1] = self.clause(new[1], rest[0], int(rest[1])) or rest[1]
        return ")." + ".".join([new[0], *rest])

    def news(self, callee, rest):
        """What a call left in an argument: an older file counts every argument, .new.1.1.0 for the third."""
        if "new" in rest and callee:
            i = rest.index("new") + 1
            j = i
            while j < len(rest) and rest[j] == "1":
                j += 1
            names = CLAUSES.get(callee, {}).get("new", [])
            if j < len(rest) and rest[j] == "0" and j - i < len(names):
                return rest[:i] + [names[j - i]] + rest[j + 1 :]
        return rest

    def of_kind(self, kind, rest):
        k, callee = kind
        if k == "step":
            rest = self.news(callee, rest)
        if k == "arm":
            for field, path in callee[1]:
                if [norm(w) for w in rest[: len(path)]] == [norm(w) for w in path]:
                    return [field, *rest[len(path) :]]
            return rest
        at = 1 if k == "step" and rest[0] == "ensures" else 0
        if len(rest) > at and rest[at].isdigit() and (at or k != "step"):
            c = self.clause(callee, rest[0] if k == "step" else k, int(rest[at]))
            if c:
                rest[at] = c
        return rest

    def arm_step(self, place, rest):
        """Where a path ends in a step that an arm stands for: the arm, and its fields for the step's."""
        steps = [w for w in rest if w != "before"]
        if len(steps) != 1:
            return None
        q = place
        while q is not None:
            a = self.arm_of.get(q)
            if a:
                found = [(field, path) for field, step, path in a[2] if norm(step) == norm(steps[0]) and path]
                if found:
                    return a[0], found
            q = self.parent[q]
        return None

    def callee_of(self, path, env):
        if path[-1] == "requires":
            return "::".join([self.crate] + self.path)
        place = env.get(path[0])
        for w in path[1:-1]:
            if w == "before":
                place = self.parent.get(place) if place else None
            else:
                s = (self.step(place, w) if place else None) or self.any_step(w)
                return s[1] if s else None
        return None

    def types(self, text):
        """tie.PLACE inv dec ..  as goal.PLACE; and the places that binders have."""
        env = {}
        loops = "|".join(re.escape(n) for n in self.told) or "(?!x)x"

        def place(m):
            new = self.new_place.get(norm(m[1]))
            if new is None:
                self.problems.append(f"no place {m[1]}")
                return m[0]
            q = self.final.get(norm(m[1]), norm(m[1]))
            new = self.new_place[q]
            self.own_places[new] = ("Past-" if self.is_past(q) else "") + self.places[self.by_old[q]][0]
            return new

        for m in re.finditer(rf"\(({NAME})\s*:\s*tie\.({NAME})", text):
            if norm(m[2]) in self.by_old:
                env[m[1]] = self.final.get(norm(m[2]), norm(m[2]))
        text = re.sub(rf"tie\.({NAME})((?:\s+(?:{loops})(?![\w-]))*)", place, text)
        return text, env

    def run(self, folder):
        text = read(os.path.join(folder, "Proof.antt"))
        if any("kept" in l[1] for l in self.loops):
            text = re.sub(r"\.auto(?![\w-])", ".kept", text)
        bs = blocks(text)
        uses, invariants, answers, doc = [], [], [], []
        needs = self.names["needs"]
        at = self.names["asked_at"]
        asked = self.names["asked"]
        need_index = {norm(n[0]): i for i, n in enumerate(needs)}
        self.told = [m[1] for m in re.finditer(rf"(?m)^abbrev (\S+) : tie\.(?:invariant|decreases)-", text)]
        goals = {}
        last = bs[-1][1] if bs else ""
        spec = re.search(r"\(tie\.spec\b(.*)\)\s*$", last, re.S)
        if not spec:
            return False
        listed = []
        s, i = spec[1], 0
        while i < len(s):
            if s[i].isspace():
                i += 1
                continue
            j, deep = i, 0
            while j < len(s) and (deep or not s[j].isspace()):
                deep += (s[j] in "([{") - (s[j] in ")]}")
                j += 1
            listed.append(s[i:j])
            i = j
        listed = [a for a in listed if a not in self.told]
        for c, b in bs:
            for m in re.finditer(rf"(?m)^({NAME}) :\s*tie\.Need-({NAME})", b):
                goals[m[1]] = m[2]
        renamed = {}
        for n, old in goals.items():
            k = need_index.get(norm(old))
            if k is None and listed.count(n) == 1 and len(listed) == len(needs):
                k = listed.index(n)
            if k is None:
                self.problems.append(f"no goal for {n} : {old}")
            else:
                renamed[n] = k
        inline = []
        if len(listed) == len(needs):
            for k, a in enumerate(listed):
                if a.startswith("(") and not re.fullmatch(r"\(λ c( κs)?\. search rules\)", a):
                    inline.append((k, a))
        else:
            self.problems.append(f"{len(listed)} answers were listed, {len(needs)} goals are there")
            # by neighbours
            pos = -1
            for a in listed:
                if a in renamed:
                    pos = renamed[a]
                elif a.startswith("("):
                    pos += 1
                    if not re.fullmatch(r"\(λ c( κs)?\. search rules\)", a):
                        inline.append((min(pos, len(needs) - 1), a))
        new_names = {n: needs[k][1] for n, k in renamed.items()}

        def names_in(t):
            for n, w in new_names.items():
                if n != w:
                    t = re.sub(rf"(?<![^\s(){{}};,\[\]]){re.escape(n)}(?![^\s(){{}};,.\[\]])", w, t)
            return t

        for n_block, (c, b) in enumerate(bs):
            if b.startswith("use "):
                if ".Statement." in b or b.endswith(" as tie"):
                    continue
                uses.append(b)
                if c and not uses[1:]:
                    doc += c
                continue
            if not b:
                doc += c
                continue
            if n_block == len(bs) - 1:
                continue
            m = re.match(rf"abbrev (\S+) : tie\.(invariant|decreases)-({NAME})\n", b)
            if m:
                loop = next((k for k, l in enumerate(self.loops) if norm(l[0][0]) == norm(m[3])), None)
                if loop is None:
                    self.problems.append(f"no loop {m[3]}")
                    invariants.append((c, b))
                    continue
                (old, new), variables = self.loops[loop]
                changed = self.names["changed"][loop]
                eq = b[m.end() :]
                e = re.match(rf"(unfolding [^\n]*\n)?({NAME})((?:\s+(?:{NAME}))*)\s*=", eq)
                params = e[3].split()
                wanted = [(v, True) for v in variables] + [(v, False) for v, ch in zip(variables, changed) if ch]
                body = eq[e.end() :]
                if len(params) != len(wanted) and {v for v, _ in wanted} <= {q.rstrip("₀") for q in params}:
                    sub = {q: f"l.{q}" for q in params} | {q: f"l.initial.{q[:-1]}" for q in params if q.endswith("₀")}
                    body = re.sub(rf"(?<![^\s(){{}};,\[\]])({NAME})(?=[\s(){{}};,.\[\]]|$)", lambda k: sub.get(k[1], k[1]), body)
                elif len(params) != len(wanted):
                    self.problems.append(f"loop {new}: {len(params)} parameters for {len(wanted)}")
                else:
                    sub = {}
                    for p, (v, first) in zip(params, wanted):
                        ch = changed[variables.index(v)]
                        sub[p] = f"l.initial.{v}" if first and ch else f"l.{v}"
                    body = re.sub(rf"(?<![^\s(){{}};,\[\]])({NAME})(?=[\s(){{}};,.\[\]]|$)", lambda k: sub.get(k[1], k[1]), body)
                name = f"{m[2]}-{new}"
                invariants.append((c, f"abbrev pub {name} : goal.{name}\n{e[1] or ''}{name} l ={body}"))
                continue
            g = re.match(rf"({NAME}) :\s*tie\.Need-({NAME})[^\n]*(?:\n(?!\S)[^\n]*)*\n", b)
            if g and g[1] in renamed:
                k = renamed[g[1]]
                new = needs[k][1]
                rest = b[g.end() :]
                e = re.match(rf"(unfolding [^\n]*\n)?{re.escape(g[1])} ({NAME})((?: {NAME})*?) ?=", rest)
                if not e:
                    self.problems.append(f"{g[1]}: its equation was not read")
                    answers.append((c, b))
                    continue
                body = rest[e.end() :]
                if re.fullmatch(r"\s*search rules\s*", body) and not e[1]:
                    continue
                if "κs" in body:
                    self.problems.append(f"{g[1]}: κs is used")
                env = {e[2]: norm(at[k][0])}
                body, env2 = self.types(body)
                self.at_view = {e[2]} if at[k][1] in self.views else set()
                body = names_in(self.rename(body, env | env2))
                clauses = asked.get(new) or asked.get(needs[k][0])
                if clauses:
                    body = " " + to_record(body, clauses)
                answers.append((c, f"pub {new} : goal.{new}\n{e[1] or ''}{new} {e[2]}{(e[3] or '').replace(' κs', '')} ={body}"))
                continue
            t, env = self.types(b)
            self.at_view = set()
            t = names_in(self.rename(t, env))
            answers.append((c, t))
        for k, a in inline:
            new = needs[k][1]
            m = re.fullmatch(r"\(λ (\S+?)( κs)?\. (.*)\)", a, re.S)
            if not m:
                self.problems.append(f"{new}: {a} was not read")
                continue
            body, env = self.types(m[3])
            self.at_view = {m[1]} if at[k][1] in self.views else set()
            body = names_in(self.rename(body, {m[1]: norm(at[k][0])} | env))
            clauses = asked.get(new) or asked.get(needs[k][0])
            if clauses:
                body = to_record(body, clauses)
            answers.append(([], f"pub {new} : goal.{new}\n{new} {m[1]} = {body}"))
        module = ".".join(["Rattle", self.crate, "proofs", *self.path])
        if self.own_places:
            if self.parameters is None:
                self.problems.append("no parameters of its records")
            own = "\n\n".join(f"abbrev {new} : Type 0\n{new} = Lts.{old} {' '.join(self.parameters or [])}".rstrip() for new, old in self.own_places.items())
            answers.insert(0, (["-- places that several goals come past"], own))
            uses += [f"use {module}.{w}" for w in ("Lts", "Reads", "Tie") if f"{w}." in own]

        def text_of(parts, what):
            lines = [*doc, *uses, f"use {module}.{what} as goal", ""]
            for c, b in parts:
                lines += [*c, b, ""]
            return "\n".join(lines)

        if any(b for _, b in invariants):
            with open(os.path.join(folder, "Invariants.antt"), "w", encoding="utf-8") as f:
                f.write(text_of(invariants, "Given"))
        if any(b for _, b in answers):
            with open(os.path.join(folder, "Answers.antt"), "w", encoding="utf-8") as f:
                f.write(text_of(answers, "Goals"))
        os.remove(os.path.join(folder, "Proof.antt"))
        return True


def main(crates):
    CLAUSES.update(clauses_of_sources())
    for crate in crates:
        to = tempfile.mkdtemp(prefix="old-names-")
        r = subprocess.run(["rt", "check", "--generated", to, "--old-names"], cwd=f"crates/{crate}", capture_output=True, text=True)
        if not os.path.exists(to + "/names.json"):
            print(r.stdout[-3000:] + r.stderr[-3000:])
            sys.exit(f"answers: no names of {crate}")
        names = json.load(open(to + "/names.json"))
        starts = []
        for folder, _, files in sorted(os.walk(f"crates/{crate}/proofs")):
            if "Proof.antt" in files:
                starts += ["--start", "::".join([crate, *os.path.relpath(folder, f"crates/{crate}/proofs").split("/")])]
        if starts:
            subprocess.run(["rt", "check", "--generated", to, *starts], cwd=f"crates/{crate}", capture_output=True, text=True)
        for folder, _, files in sorted(os.walk(f"crates/{crate}/proofs")):
            if "Proof.antt" not in files:
                continue
            path = os.path.relpath(folder, f"crates/{crate}/proofs").split("/")
            key = f"Rattle-{crate}-proofs." + ".".join(path) + ".Lts"
            if key not in names or "places" not in names[key]:
                print(f"left: {folder}: no names of it" if key not in names else f"left: {folder}: not covered")
                continue
            f = Function(crate, path, names[key])
            goals = os.path.join(to, f"Rattle-{crate}-proofs", *path, "Goals.antt")
            if os.path.exists(goals):
                f.read_goals(read(goals))
            else:
                print(f"look: {folder}: no goals were made")
            if not f.run(folder):
                print(f"left: {folder}: a walk")
            for p in f.problems:
                print(f"look: {folder}: {p}")
        for root in ("lib", "main"):
            p = f"crates/{crate}/src/{root}.rt"
            if os.path.exists(p) and "#![tactic(auto)]" not in read(p):
                t = read(p).split("\n")
                i = 0
                while t[i].startswith("//"):
                    i += 1
                t.insert(i, "#![tactic(auto)]")
                with open(p, "w", encoding="utf-8") as f:
                    f.write("\n".join(t))


if __name__ == "__main__":
    main(sys.argv[1:])
