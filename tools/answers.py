#!/usr/bin/env python3
"""Turns the proofs of a crate from the old form, one Proof.antt for each function, into Answers.antt and Invariants.antt.

    python3 tools/answers.py CRATE [FUNCTION ..]

Run it at the top of a checkout, where `rt` is at hand. It asks `rt names` for the map from old names to new ones, which needs
no crate proved, and rewrites each crates/CRATE/proofs/F/Proof.antt; FUNCTION is a path below proofs/, such as accept/check_decls.

What an old answer reached by steps, as `c.before.before.if1.true`, is a field of `c` under the step's new name, so every `.before`
goes, and so does a `let` or a function that only names a place. A lemma of the file over a place becomes a `let` in each answer
that uses it. An answer `search rules` is dropped, since such a goal is searched for anyway.
What could not be turned is marked by `-- TODO`.
"""
import json
import os
import re
import subprocess
import sys
import tempfile

PLACE = re.compile(r"\(?(?:tie|[\w-]+-lts)\.(?:Start|Untold|After-|Then\d|Else\d|At-|In-)")
NEED = re.compile(r"(?:\((\w+) : \S+\)\s*→\s*)?(?:tie|[\w-]+-lts)\.Need-(\S+)")
INVARIANT = re.compile(r"(tie|[\w-]+-lts)\.(invariant|decreases)-(\S+)")
OPEN, CLOSE = "([{", ")]}"
PREFIXES = ("overflow", "nonzero")
WORDS = {"taken": "true", "left": "false", "inv": "invariant"}  # older spellings


def plain(name):
    """A name without its dashes and underscores, which the two spellings differ in."""
    name = re.sub(r"[_-]lem$", "", name)
    return re.sub(r"[-_«»]", "", name)


# READING


class Def:
    def __init__(self):
        self.name = self.type = ""
        self.comment, self.unfolds, self.clauses = [], [], []
        self.abbrev = False
        self.section = None
        self.binders = []  # (names or None, type, is implicit)
        self.result = ""
        self.raw = ""

    @property
    def explicit(self):
        return [(n, t) for names, t, imp in self.binders if not imp for n in (names or [None])]


def match_close(text, at):
    depth = 0
    for i in range(at, len(text)):
        if text[i] in OPEN:
            depth += 1
        elif text[i] in CLOSE:
            depth -= 1
            if not depth:
                return i
    raise ValueError(text[at : at + 60])


def telescope(text):
    """The binders of a type and what is left after the last arrow."""
    binders, rest = [], text.strip()
    while True:
        if rest.startswith("let "):
            return binders, rest
        if rest[:1] in "({" and rest:
            end = match_close(rest, 0)
            inside = rest[1:end]
            m = re.match(r"([^():{}]+?) : (.*)", inside, re.S)
            after = rest[end + 1 :].lstrip()
            if m and (after.startswith("→") or after[:1] in "({"):
                binders.append((m[1].split(), m[2].strip(), rest[0] == "{"))
                rest = after[1:].lstrip() if after.startswith("→") else after
                continue
        depth = 0
        for i, ch in enumerate(rest):
            if ch in OPEN:
                depth += 1
            elif ch in CLOSE:
                depth -= 1
            elif ch == "→" and not depth:
                binders.append((None, rest[:i].strip(), False))
                rest = rest[i + 1 :].lstrip()
                break
        else:
            return binders, rest


def parse(text, section=None):
    """Returns the head comment, the use lines, and the definitions in order."""
    items, current = [], []
    for line in text.splitlines():
        if line and not line[0].isspace() and line[0] not in ")]}":
            current = [line]
            items.append(current)
        elif items:
            current.append(line)
    head, uses, defs, comment = [], [], [], []
    pending = None
    for item in items:
        lines = "\n".join(item).rstrip()
        first = item[0]
        if first.startswith("--"):
            (comment if uses or defs else head).append(lines)
            continue
        if re.match(r"(pub )?use ", first):
            uses.append(lines)
            continue
        if re.match(r"(pub )?mod ", first):
            continue
        if first.startswith("module _ "):
            m = re.match(r"module _ (.*?) where\n(.*)", lines, re.S)
            inner = re.sub(r"(?m)^  ", "", m[2])
            shared, left = telescope(m[1] + " → X")
            _, _, own = parse(inner, section=object())
            for it in own:
                it.binders = shared + it.binders
                it.shared = sum(len(n) for n, _, _ in shared)
                names = [n for ns, _, _ in shared for n in ns]
                it.clauses = [(names + p, b) for p, b in it.clauses]
                if comment:
                    it.comment, comment = comment + it.comment, []
            defs += own
            continue
        if first.startswith("unfolding "):
            pending.unfolds += lines.split()[1:]
            continue
        m = re.match(r"((?:abbrev |pub |irreducible )*)(\S+) :\s(.*)", lines, re.S)
        equation = pending and first.split()[0] == pending.name and not (m and m[2] == pending.name and first.split()[1] == ":")
        if m and not equation:
            pending = Def()
            pending.name, pending.type = m[2], m[3].strip()
            pending.abbrev = "abbrev" in m[1]
            pending.comment, comment = comment, []
            pending.section = section
            pending.shared = 0
            pending.binders, pending.result = telescope(pending.type)
            pending.raw = lines
            defs.append(pending)
            continue
        if equation:
            left, _, body = lines.partition(" =")
            pending.clauses.append((words(left)[1:], body.strip()))
            pending.raw += ("\nunfolding " + " ".join(pending.unfolds) if pending.unfolds and len(pending.clauses) == 1 else "") + "\n" + lines
            continue
        other = Def()
        other.raw, other.comment, comment = lines, comment, []
        other.shared = 0
        defs.append(other)
    return head, uses, defs


def words(text):
    """The words of the left side of an equation, a bracket being one."""
    out, at = [], 0
    while at < len(text):
        if text[at].isspace():
            at += 1
        elif text[at] in OPEN:
            end = match_close(text, at)
            out.append(text[at : end + 1])
            at = end + 1
        else:
            m = re.compile(r"[^\s(){}\[\]]+").match(text, at)
            out.append(m[0])
            at = m.end()
    return out


# TERMS, as a tree of words, blanks and brackets

LEX = re.compile(r"--[^\n]*|\s+|[(){}\[\],;]|[^\s(){}\[\],;]+")


def tree(text):
    stack = [[]]
    for token in LEX.findall(text):
        if token in OPEN:
            stack.append([token])
        elif token in CLOSE:
            group = stack.pop()
            stack[-1].append(group + [token])
        else:
            stack[-1].append(token)
    if len(stack) != 1:
        raise ValueError("brackets: " + text[:80])
    return stack[0]


def show(nodes):
    return "".join(show(n) if isinstance(n, list) else n for n in nodes)


def blank(node):
    return isinstance(node, str) and (node.isspace() or node.startswith("--"))


def strip(nodes):
    nodes = list(nodes)
    while nodes and blank(nodes[0]):
        nodes.pop(0)
    while nodes and blank(nodes[-1]):
        nodes.pop()
    return nodes


def atoms_from(nodes, at, count):
    """The next `count` arguments from an index, each as a list of nodes, and the index after them."""
    got = []
    while len(got) < count:
        while at < len(nodes) and blank(nodes[at]):
            at += 1
        if at >= len(nodes):
            return None
        node = nodes[at]
        if isinstance(node, str) and (node in ",;→=:" or node in ("in", "↦", "|", "∙", "≡", "×", "λ", "let")):
            return None
        at += 1
        atom = [node]
        if isinstance(node, list) and at < len(nodes) and isinstance(nodes[at], str) and nodes[at].startswith("."):
            atom.append(nodes[at])
            at += 1
        got.append(atom)
    return got, at


# THE NAMES OF ONE FUNCTION


class Names:
    def __init__(self, v):
        self.v = v
        self.at = {p[0]: i for i, p in enumerate(v["places"])}
        self.needs = v["needs"]
        self.later = {}  # where a step `f` began with `f2`, by how much
        self.asked_at = dict(zip((n for _, n in v["needs"]), (a for a, _ in v["asked_at"])))

    def goal(self, need):
        """The new name of an old goal."""
        want = plain(need)
        for old, new in self.needs:
            if want in [plain(old)] + [p + plain(old) for p in PREFIXES]:
                return new
        for old, new in self.needs:
            m = re.match(r"(.*?)(-\d+)?$", old)
            if want == plain(new) or want.endswith(plain(old)) and len(plain(old)) > 5 and not need.startswith("returns"):
                return new
        return None

    def counted(self, text):
        """Finds the steps whose old numbers go past today's: an old code could begin at `f2`, where `f` was taken."""
        last, known = {}, {}
        for path in re.findall(r"[\w'-]+(?:\.[\w'-]+)+", text):
            for step in path.split(".")[1:]:
                m = re.match(r"(.*?)(\d*)$", plain(step))
                last[m[1]] = max(last.get(m[1], 0), int(m[2] or 1))
        for place in self.v["places"]:
            m = re.match(r"(.*?)(\d*)$", plain(place[2][0]))
            if place[3]:
                known[m[1]] = max(known.get(m[1], 0), int(m[2] or 1))
        self.later = {it: last[it] - n for it, n in known.items() if last.get(it, 0) > n}

    def step(self, name):
        """An old step's name, without what it is spelled with, by today's count."""
        m = re.match(r"(.*?)(\d*)$", plain(name))
        if m[1] in self.later:
            n = int(m[2] or 1) - self.later[m[1]]
            return m[1] + (str(n) if n > 1 else "")
        return plain(name)

    def settled(self, need):
        return any(plain(need) == plain(it) for it in self.v["settled"])

    def upward(self, place):
        while place is not None and place in self.at:
            i = self.at[place]
            yield i
            place = self.v["places"][i][1]

    def field(self, place, path):
        """The new path of an old one, without `.before`; None where it is not known."""
        first, rest = path[0], path[1:]
        v = self.v
        for old, new in v["args"]:
            old, new = old.replace(" ", "").strip(".").split("."), new.replace(" ", "").strip(".").split(".")
            if [plain(x) for x in path[: len(old)]] == [plain(x) for x in old]:
                path = new + path[len(old) :]
                first, rest = path[0], path[1:]
                break
        if first in ("args", "ranges", "type_inv"):
            return path
        if first in ("requires", "pre"):
            return self.requires(rest)
        known = self.at.get(place)
        if known is not None and rest[:1] == ["given"]:
            for var, step in v["typed"][known]:
                if plain(step) == plain(first):
                    return ["type_inv", var] + rest[1:]
        order = list(self.upward(place)) + list(range(len(v["places"])))
        for i in order:
            arm = v["arms"][i]
            if arm:
                best = None
                for new, step, under in arm[2]:
                    if plain(step) == plain(first) and rest[: len(under)] == under and (best is None or len(under) > len(best[1])):
                        best = (new, under)
                if best and (best[1] or not rest):
                    return [arm[0], best[0]] + rest[len(best[1]) :]
            old, new = v["places"][i][2]
            if old and plain(old) == self.step(first):
                rest = [WORDS.get(x, x) if j == 0 else x for j, x in enumerate(rest)]
                renamed = dict(v["places"][i][4])
                rest = [renamed.get(x, x) if j == 0 else x for j, x in enumerate(rest)]
                callee = v["places"][i][3]
                if callee and rest[:1] in (["last"], ["auto"], ["kept"], ["new"]):
                    rest = self.argument(callee, rest)
                clauses = v["clauses"][i]
                if clauses and rest[:1] == ["ensures"]:
                    rest = ["ensures"] + by_field(clauses["fields"], rest[1:])
                return [new] + rest
        return None

    def argument(self, callee, path):
        """`.last.1.1.0` is what the third argument has behind it afterwards."""
        word = {"last": "new", "kept": "auto"}.get(path[0], path[0])
        names = self.v["params"].get(callee, [])
        index, rest = 0, path[1:]
        if not rest:
            return [word]
        while rest and rest[0] == "1":
            index, rest = index + 1, rest[1:]
        if rest[:1] == ["0"] and index < len(names):
            return [word, names[index]] + rest[1:]
        return [word] + path[1:]

    def requires(self, rest):
        fields = (self.v.get("pre") or {}).get("fields")
        if self.v.get("stem"):  # in a cycle the old fact was a pair, of the measure's and the clauses
            if not rest:
                return [("pairs", ["decreases", "requires"])]
            if rest[0] == "0":
                return ["decreases"] + rest[1:]
            rest = rest[1:]
        return ["requires"] + (by_field(fields, rest) if fields else rest)


def by_field(fields, path):
    """A path of 0 and 1 into nested pairs, by the names of the fields."""
    index, rest = 0, list(path)
    while rest and rest[0] in ("0", "1") and index < len(fields) - 1:
        step = rest.pop(0)
        if step == "0":
            return [fields[index]] + rest
        index += 1
    if index == len(fields) - 1:
        return [fields[index]] + rest
    return [("pairs", fields[index:])] + rest


def path_text(base, path):
    for i, part in enumerate(path):
        if isinstance(part, tuple):
            before = ".".join([base] + path[:i])
            fields = [f"{before}.{it}" for it in part[1]]
            nested = fields[-1]
            for it in reversed(fields[:-1]):
                nested = f"({it}, {nested})"
            return nested
    return ".".join([base] + path)


# REWRITING A TERM


class Answer:
    """What one goal's answer is made in: the place of its `c`, the lets that it needs, and what could not be turned."""

    def __init__(self, names, defs, place, base):
        self.names, self.defs, self.place, self.base = names, defs, place, base
        self.lets, self.unfolds, self.left = {}, [], []

    def is_place(self, nodes, env):
        nodes = strip(nodes)
        if not nodes:
            return False
        head = nodes[0]
        if isinstance(head, list):
            if len(nodes) == 1 or (len(nodes) == 2 and isinstance(nodes[1], str) and set(nodes[1].strip(".").split(".")) == {"before"}):
                return head[0] == "(" and self.is_place(head[1:-1], env)
            return False
        name, *path = head.split(".")
        if any(p != "before" for p in path):
            return False
        if name in env:
            return len(nodes) == 1 and env[name] == "place"
        it = self.defs.get(name)
        if it is None or it.kind != "place" or path:
            return False
        given = it.shared if it.section and env.get("§") is it.section else 0
        count = len(it.explicit) - given
        if not count:
            return len(nodes) == 1
        got = atoms_from(nodes, 1, count)
        return got is not None and not strip(nodes[got[1] :])

    def path_of(self, nodes, env):
        """The path of a term that is only a field of a place, or None."""
        nodes = strip(nodes)
        if not nodes or any(blank(it) for it in nodes):
            return None
        if isinstance(nodes[0], list):
            if len(nodes) == 2 and isinstance(nodes[1], str) and nodes[1].startswith(".") and self.is_place(nodes[:1], env):
                return nodes[1].strip(".").split(".")
            if len(nodes) == 1 and nodes[0][0] == "(":
                return self.path_of(nodes[0][1:-1], env)
            return None
        name, *path = nodes[0].split(".")
        if len(nodes) != 1 or not path:
            return None
        if env.get(name) == "place":
            return path
        if isinstance(env.get(name), tuple):
            return list(env[name]) + path
        return None

    def chain(self, path, whole):
        path = [p for p in path if p != "before"]
        if not path:
            return self.base
        found = self.names.field(self.place, path)
        if found is None:
            self.left.append(whole)
            return ".".join([self.base] + path)
        return path_text(self.base, found)

    def expand(self, it, nodes, at, env):
        """A lemma or an abbreviation of the file, applied from an index on: its text, and the index after it."""
        bound = {"§": it.section}
        params = it.explicit
        inside = it.section and env.get("§") is it.section
        places = [i for i, (_, t) in enumerate(params) if self.defs_place(t)]
        consumed = places[-1] + 1 if places else it.shared
        given = it.shared if inside else 0
        got = atoms_from(nodes, at, max(consumed - given, 0))
        if got is None:
            self.left.append(it.name)
            return it.name, at
        atoms, after = got
        left, body = it.clauses[0]
        names = list(left)
        actual = [None] * given + atoms
        for i in range(consumed):
            types = [n for n in ([params[i][0]] if params[i][0] else []) + names[i : i + 1]]
            for n in types:
                if i < given:
                    bound[n] = env.get(names[i] if i < len(names) else n, "place")
                elif i in places:
                    bound[n] = "place"
                else:
                    bound[n] = self.rewrite(actual[i], env).strip()
        others = names[consumed:]
        self.unfolds += [u for u in it.unfolds if u not in self.unfolds]
        if it.abbrev:
            got = atoms_from(nodes, after, len(others))
            if got is not None:
                for n, atom in zip(others, got[0]):
                    bound[n] = self.rewrite(atom, env).strip()
                text = self.rewrite(tree(body), bound).strip()
                return (text if re.fullmatch(r"[^\s]+", text) else f"({text})"), got[1]
        text = self.rewrite(tree(body), bound).strip()
        implicit = [n for ns, _, imp in it.binders if imp for n in ns]
        if implicit or others:
            text = "λ " + " ".join(implicit + others) + ". " + text
        kept, count = [], 0
        for ns, t, imp in it.binders:
            if imp:
                kept.append((ns, t, imp))
                continue
            for n in ns or [None]:
                if count >= consumed:
                    kept.append(([n] if n else None, t, imp))
                count += 1
        kind = ""
        for ns, t, imp in kept:
            t = self.rewrite(tree(t), bound).strip()
            kind += f"({' '.join(ns)} : {t}) → " if ns else f"{t} → "
        kind += self.rewrite(tree(it.result), bound).strip()
        made = f"let {{}} : {' '.join(kind.split())} = {text} in"
        holes = " _" * len(implicit)  # a let has no implicit arguments
        for name, known in self.lets.items():
            if known == made and re.sub(r"-\d+$", "", name) == it.name:
                return name + holes, after
        name, n = it.name, 2
        while name in self.lets:
            name, n = f"{it.name}-{n}", n + 1
        self.lets[name] = made
        return name + holes, after

    def defs_place(self, text):
        return bool(PLACE.match(text)) or text.split()[0].strip("()") in self.defs.aliases

    def rewrite(self, nodes, env):
        out, at = [], 0
        nodes = list(nodes)
        while at < len(nodes):
            node = nodes[at]
            if isinstance(node, list):
                after = nodes[at + 1] if at + 1 < len(nodes) else ""
                if isinstance(after, str) and after.startswith(".") and node[0] == "(" and self.is_place(node[1:-1], env):
                    out.append(self.chain(after.strip(".").split("."), show([node]) + after))
                    at += 2
                    continue
                if node[0] == "(" and self.is_place(node[1:-1], env):
                    out.append(self.base)
                else:
                    inner = self.rewrite(node[1:-1], env)
                    if node[0] == "(" and re.fullmatch(r"[\w.₀-₉'-]+", inner) and not show(node[1:-1]) == inner:
                        out.append(inner)
                    else:
                        out.append(node[0] + inner + node[-1])
                at += 1
                continue
            if blank(node):
                out.append(node)
                at += 1
                continue
            if node == "let":
                done = self.let(nodes, at, env)
                if done:
                    text, at, env = done
                    out.append(text)
                    continue
            if node == "λ":
                j = at + 1
                env = dict(env)
                while j < len(nodes):
                    if isinstance(nodes[j], str) and not blank(nodes[j]):
                        env.pop(nodes[j].rstrip("."), None)
                        if nodes[j].endswith("."):
                            break
                    j += 1
                out.append(self.plainly(nodes[at : j + 1]))
                at = j + 1
                continue
            head, *path = node.split(".")
            ahead = strip(nodes[at + 1 : at + 3])
            if node.endswith(".") or ahead[:1] == ["="]:  # a binder, or a field of a record
                out.append(node)
                at += 1
                continue
            if head in env and env[head] == "place":
                out.append(self.chain(path, node))
                at += 1
                continue
            if head in env and isinstance(env[head], tuple):
                out.append(self.chain(list(env[head]) + path, node))
                at += 1
                continue
            if head in env and isinstance(env[head], str):
                text = env[head]
                if path:
                    text = ".".join([text] + path)
                out.append(text)
                at += 1
                continue
            it = self.defs.get(head)
            if it is not None and it.kind == "place" and not path:
                given = it.shared if it.section and env.get("§") is it.section else 0
                got = atoms_from(nodes, at + 1, len(it.explicit) - given)
                if got is not None:
                    out.append(self.base)
                    at = got[1]
                    continue
            if it is not None and it.kind == "place" and path and it.section and env.get("§") is it.section:
                out.append(self.chain(path, node))
                at += 1
                continue
            if it is not None and it.kind == "helper":
                text, at = self.expand(it, nodes, at + 1, env)
                out.append(".".join([text] + path))
                continue
            out.append(node)
            at += 1
        return "".join(out)

    def plainly(self, nodes):
        return show(nodes)

    def let(self, nodes, at, env):
        depth, equals, end = 0, None, None
        for j in range(at, len(nodes)):
            if nodes[j] == "let":
                depth += 1
            elif nodes[j] == "in":
                depth -= 1
                if not depth:
                    end = j
                    break
            elif nodes[j] == "=" and depth == 1 and equals is None:
                equals = j
        if end is None or equals is None:
            return None
        left = strip(nodes[at + 1 : equals])
        if len(left) == 1 and isinstance(left[0], str) and self.is_place(nodes[equals + 1 : end], env):
            inner = dict(env)
            inner[left[0]] = "place"
            end += 1
            while end < len(nodes) and blank(nodes[end]):
                end += 1
            return "", end, inner
        path = self.path_of(nodes[equals + 1 : end], env)
        if len(left) == 1 and isinstance(left[0], str) and path:
            inner = dict(env)
            inner[left[0]] = tuple(path)
            bare = re.search(rf"(?<![\w.]){re.escape(left[0])}(?![\w.'-])", show(nodes[end + 1 :]))
            if not bare:  # a name for a step, not for a fact that a tactic may look for
                end += 1
                while end < len(nodes) and blank(nodes[end]):
                    end += 1
                return "", end, inner
        bound = self.rewrite(nodes[equals + 1 : end], env)
        kind = self.rewrite(nodes[at + 1 : equals], {k: w for k, w in env.items() if not left or k != left[0]})
        inner = {k: w for k, w in env.items() if not left or k != left[0]}
        return "let" + kind + "=" + bound + "in", end + 1, inner


class Defs(dict):
    aliases = frozenset()


# A FILE


def used(name, text):
    if name == "[]":
        return name in text
    core = [it for it in re.split("◌", name.split(" as ")[-1].strip()) if it]
    spaced = re.sub(r"[(){}\[\],;]", " ", text)
    found = set(spaced.split()) | {it.split(".")[0] for it in spaced.split()} | {it.rstrip(".") for it in spaced.split()}
    return all(it in found for it in core)


def use_lines(uses, text):
    """The old file's imports that the text still needs."""
    out = []
    for line in uses:
        if re.search(r"\.proofs\.\S*\.(Statement|Tie|Reads|Kinds|Lts|Lts-\w+|Proof)\b|borrow\.Fn\.|\.\{statement\}", line):
            continue
        m = re.match(r"use (\S+)\.\{(.*)\}$", line, re.S)
        if m:
            names = [it.strip() for it in m[2].split(",")]
            names = [it for it in names if used(it, text)]
            if names:
                out.append(f"use {m[1]}.{{{', '.join(names)}}}")
            continue
        m = re.match(r"use \S+ as (\S+)$", line)
        if not m or any(it.startswith(m[1] + ".") for it in re.split(r"[\s(){}\[\],;]", text)):
            out.append(line)
    return out


def as_record(body, fields):
    """A tuple as the record of the clauses that it answers; other terms as they are."""
    nodes = strip(tree(body))
    lead = ""
    while nodes and nodes[0] == "let":
        depth = 0
        for j, node in enumerate(nodes):
            depth += (node == "let") - (node == "in")
            if node == "in" and not depth:
                break
        lead += show(nodes[: j + 1]) + " "
        nodes = strip(nodes[j + 1 :])

    def parts(nodes):
        nodes = strip(nodes)
        if len(nodes) != 1 or not isinstance(nodes[0], list) or nodes[0][0] != "(" or "," not in nodes[0]:
            return [nodes]
        split, cell = [], []
        for node in nodes[0][1:-1]:
            if node == ",":
                split.append(cell)
                cell = []
            else:
                cell.append(node)
        if strip(cell):
            split.append(cell)
        return split

    cells = parts(nodes)
    while 1 < len(cells) < len(fields):
        more = parts(cells[-1])
        if len(more) == 1:
            break
        cells = cells[:-1] + more
    if len(cells) == len(fields):
        said = [f"{f} = {' '.join(show(strip(c)).split())}" for f, c in zip(fields, cells)]
        return lead + "record { " + "; ".join(said) + " }"
    if len(cells) == 1 and len(fields) > 1:
        paths, under = [], "both"
        for f in fields[:-1]:
            paths.append(f"{f} = {under}.0")
            under += ".1"
        paths.append(f"{fields[-1]} = {under}")
        return f"{lead}let both = {show(nodes)} in record {{ {'; '.join(paths)} }}"
    return body


def is_search(body):
    return " ".join(body.split()) in ("search rules", "omega arith", "record { fits = search rules }", "record { fits = omega arith }")


def kinds(defs):
    table = Defs((it.name, it) for it in defs if it.name)
    table.aliases = frozenset(
        it.name for it in defs if it.clauses and it.abbrev and it.result.startswith("Type") and PLACE.match(it.clauses[0][1])
    )
    for it in defs:
        it.kind = "other"
        if NEED.match(it.type):
            it.kind = "goal"
        elif INVARIANT.match(it.type):
            it.kind = "invariant"
        elif it.type.startswith("Measures "):
            it.kind = "measure"
        elif re.search(r"\bIn \d|\.Claims\b", it.type):
            it.kind = "spec"
        elif "statement M" in it.type:
            it.kind = "spec"
        elif it.name in table.aliases:
            it.kind = "spec"
        elif it.name and it.clauses:
            of_place = lambda t: bool(PLACE.match(t)) or bool(t.split()) and t.split()[0].strip("()") in table.aliases
            if any(of_place(t) for _, t, _ in it.binders):
                it.kind = "place" if of_place(it.result) else "helper"
                if len(it.clauses) != 1:
                    it.kind = "other"
    return table


def invariant(it, names):
    """An invariant or a measure: its arguments by position, as fields of `l`."""
    m = INVARIANT.match(it.type)
    for ((old, new), variables), changed in zip(names.v["loops"], names.v["changed"]):
        if plain(old) == plain(m[3]):
            break
    else:
        return None
    fields = [f"l.initial.{v}" if ch else f"l.{v}" for v, ch in zip(variables, changed)]
    fields += [f"l.{v}" for v, ch in zip(variables, changed) if ch]
    params, body = it.clauses[0]
    note = ""
    env = dict(zip(params, fields))
    if len(params) != len(fields):  # the old code may have had a value of its own there
        env = {}
        for p in params:
            base = p.rstrip("₀")
            field = f"l.initial.{base}" if p != base else f"l.{base}"
            if field in fields:
                env[p] = field
            elif p in words(body.replace(",", " ")):
                note = f"-- TODO: today there is no {p}\n"
    text = Answer(names, Defs(), None, "l").rewrite(tree(body), env)
    name = f"{m[2]}-{names.v.get('stem', '')}{new}"
    lines = "".join(c + "\n" for c in it.comment)
    unfolding = f"unfolding {' '.join(it.unfolds)}\n" if it.unfolds else ""
    return f"{lines}{note}abbrev pub {name} : goal.{name}\n{unfolding}{name} l = {' '.join(text.split())}\n"


def answer(it, names, table, member=""):
    """One goal's answer: its text, or None where it needs none; and what was not turned."""
    m = NEED.match(it.type)
    need = m[2]
    new = names.goal(need)
    if new is None:
        body = it.clauses[0][1] if it.clauses else ""
        if is_search(body) or names.settled(need):
            return None, []
        return "".join(f"-- {x}\n" for x in [f"TODO: no goal of today is the old {need}"] + it.raw.splitlines()), [need]
    params, body = it.clauses[0]
    if is_search(body):
        return None, []
    params = [p for p in params if p != "κs"]
    measure = [params.pop(0)] if m[1] else []
    base, others = params[0], params[1:]
    made = Answer(names, table, names.asked_at[new], base)
    text = made.rewrite(tree(body), {base: "place"})
    lets = "".join("    " + text_of.replace("{}", name, 1) + "\n" for name, text_of in made.lets.items())
    fields = names.v["asked"].get(next(o for o, n in names.needs if n == new))
    if fields:
        text = as_record(text, fields)
    unfolds = it.unfolds + [u for u in made.unfolds if u not in it.unfolds]
    lines = "".join(c + "\n" for c in it.comment)
    if made.left:
        lines += "".join(f"-- TODO: {x}\n" for x in made.left)
    full = f"{names.v.get('stem', '')}{new}"
    out = f"{lines}pub {full} : goal.{full}\n"
    if unfolds:
        out += f"unfolding {' '.join(unfolds)}\n"
    text = text.strip()
    gap = "\n" + lets + "    " if lets else ("\n    " if "\n" in text else " ")
    out += f"{full} {' '.join(measure + [base] + others)} ={gap}{text}\n"
    return out, made.left


def measure(it, member, listed):
    """The measure of a cycle's member: `a.1.1.0` is its third argument, which today is `l` under its name."""
    params = next((v["params"][f] for v in listed.values() if isinstance(v, dict) for f in v.get("params", {}) if plain(f.split("::")[-1]) == plain(member)), [])
    (*_, base), body = it.clauses[0]
    lost = []

    def by_name(m):
        index = m[1].count("1")
        if index >= len(params):
            lost.append(m[0])
            return m[0]
        return f"l.{params[index]}"

    text = re.sub(rf"(?<![\w.]){base}\.((?:1\.)*0)(?![\w])", by_name, body)
    name = f"decreases-{member}"
    note = "".join(f"-- TODO: which argument is {x}\n" for x in lost)
    lines = "".join(c + "\n" for c in it.comment)
    return f"{lines}{note}abbrev pub {name} : goal.{name}\n{name} l = {' '.join(text.split())}\n", lost


def turn_cycle(crate, path, folder, listed):
    """A cycle's folder: Proof.antt, which may have a file for each member below Proof/."""
    stem = f"Rattle-{crate}-proofs.{path.replace('/', '.')}.Lts-"
    members = {plain(k[len(stem) :]): k[len(stem) :] for k in listed if k.startswith(stem)}
    files = [f"{folder}/Proof.antt"]
    if os.path.isdir(f"{folder}/Proof"):
        files += sorted(f"{folder}/Proof/{it}" for it in os.listdir(f"{folder}/Proof") if it.endswith(".antt"))
    head, uses, answers, invariants, left = [], [], [], [], []
    for file in files:
        with open(file) as f:
            text = f.read()
        above, more, defs = parse(text)
        head += above
        uses += [it for it in more if it not in uses]
        table = kinds(defs)
        known = {}
        others = []
        for it in defs:
            if it.kind == "measure":
                member = members.get(plain(it.name.lstrip("μ-")))
                out, lost = measure(it, member, listed)
                invariants.append(out)
                left += lost
            elif it.kind in ("goal", "invariant"):
                m = re.search(r"([\w-]+)-lts\.", it.type)
                member = members[plain(m[1])]
                if member not in known:
                    known[member] = Names(listed[stem + member])
                    known[member].counted(text)
                if it.kind == "invariant":
                    invariants.append(invariant(it, known[member]) or "")
                    continue
                out, lost = answer(it, known[member], table)
                left += lost
                if out:
                    answers.append(out)
            elif it.kind == "other":
                others.append("\n".join(it.comment + [it.raw]) + "\n")
        answers[:0] = others
    module = f"Rattle.{crate}.proofs.{path.replace('/', '.')}"
    write(folder, "Answers", head, uses, answers, f"use {module}.Goals as goal")
    write(folder, "Invariants", [], uses, invariants, f"use {module}.Given as goal")
    for file in files:
        os.remove(file)
    if os.path.isdir(f"{folder}/Proof") and not os.listdir(f"{folder}/Proof"):
        os.rmdir(f"{folder}/Proof")
    return left


def turn(crate, path, folder, listed):
    if os.path.basename(folder).startswith("+"):
        return turn_cycle(crate, path, folder, listed)
    with open(f"{folder}/Proof.antt") as f:
        text = f.read()
    key = f"Rattle-{crate}-proofs.{path.replace('/', '.')}.Lts"
    if key not in listed:
        return None
    names = Names(listed[key])
    names.counted(text)
    head, uses, defs = parse(text)
    table = kinds(defs)
    left, answers, invariants, others = [], [], [], []
    for it in defs:
        if it.kind == "goal":
            out, more = answer(it, names, table)
            left += more
            if out:
                answers.append(out)
        elif it.kind == "invariant":
            out = invariant(it, names)
            if out is None:
                left.append(it.name)
                out = "".join(f"-- {x}\n" for x in ["TODO: no loop of today has this"] + it.raw.splitlines())
            invariants.append(out)
        elif it.kind == "other":
            others.append("\n".join(it.comment + [it.raw]) + "\n")
    module = f"Rattle.{crate}.proofs.{path.replace('/', '.')}"
    write(folder, "Answers", head, uses, others + answers if answers else [], f"use {module}.Goals as goal")
    write(folder, "Invariants", [] if answers else head, uses, invariants, f"use {module}.Given as goal")
    os.remove(f"{folder}/Proof.antt")
    if not os.listdir(folder):
        os.rmdir(folder)
    return left


def write(folder, name, head, uses, parts, goal):
    if not parts:
        return
    body = "\n".join(parts)
    lines = head + use_lines(uses, body) + [goal, "", body]
    with open(f"{folder}/{name}.antt", "w") as f:
        f.write("\n".join(lines))


def main():
    if len(sys.argv) < 2:
        sys.exit(__doc__)
    crate, only = sys.argv[1], sys.argv[2:]
    proofs = f"crates/{crate}/proofs"
    with tempfile.TemporaryDirectory() as to:
        done = subprocess.run(["rt", "names", to], cwd=f"crates/{crate}", capture_output=True, text=True)
        if not os.path.isfile(f"{to}/names.json"):
            sys.exit(done.stdout + done.stderr)
        with open(f"{to}/names.json") as f:
            listed = json.load(f)
    for folder, _, files in sorted(os.walk(proofs), key=lambda it: it[0]):
        if "Proof.antt" not in files:
            continue
        path = os.path.relpath(folder, proofs)
        if only and path not in only:
            continue
        left = turn(crate, path, folder, listed)
        if left is None:
            print(f"{path}: left as it is")
        else:
            print(f"{path}: " + (f"{len(left)} left by hand: {', '.join(left)}" if left else "turned"))


if __name__ == "__main__":
    main()
