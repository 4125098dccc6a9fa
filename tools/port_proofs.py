#!/usr/bin/env python3
"""Gives the proofs that answer a function's needs by name today's names: of the needs, the places, the steps and the loops.

usage: tools/port_proofs.py CRATE.. [--names FOLDER]

Each crate's folder is crates/CRATE. Old and new names are those that `rt check --generated FOLDER --old-names` lists; the crates below have to
be proved. Run once in a crate.
"""
import json
import os
import re
import subprocess
import sys
import tempfile

NAME = r"[A-Za-z_+][A-Za-z0-9_'₀₁₂₃₄₅₆₇₈₉·+-]*"


NEW = {}
FIELDS = set("groups stations root name entry channel route cable parent tentative clock member children waiting group kind sender receiver size".split())


def norm(name):
    return re.sub(r"[-_]", "", name).lower()


def crates_names(crate, folder):
    at = os.path.join(folder, crate)
    os.makedirs(at, exist_ok=True)
    said = subprocess.run(["rt", "check", "--generated", at, "--old-names"], cwd=f"crates/{crate}", capture_output=True, text=True)
    file = os.path.join(at, "names.json")
    if not os.path.exists(file):
        sys.exit(f"{crate}: no names are listed: {(said.stdout + said.stderr)[-1500:]}")
    with open(file, encoding="utf-8") as h:
        return json.load(h)


def spec_arguments(text):
    """The names that tie.spec is applied to, in order."""
    m = re.search(r"tie\.spec\b([^()=]*)\)", text)
    if m:
        return m.group(1).split()
    m = re.search(r"tie\.spec\b([^()=]*)$", text)
    return m.group(1).split() if m else []


def parameters():
    """The parameters of each function of the sources, by its name: pairs of a name and its type."""
    found = {}
    for folder, _, files in os.walk("crates"):
        for f in files:
            if f.endswith(".rt") and "/out/" not in folder + "/":
                with open(os.path.join(folder, f), encoding="utf-8") as h:
                    for name, inside in re.findall(r"\bfn (\w+)\s*\(([^)]*)\)", h.read()):
                        pairs = [tuple(x.strip() for x in p.split(":", 1)) for p in inside.split(",") if ":" in p]
                        found.setdefault(name, []).append([(n.removeprefix("mut "), ty) for n, ty in pairs])
    return found


def bodies():
    """The body of each function of the sources, with its parameters."""
    found = {}
    for folder, _, files in os.walk("crates"):
        for f in files:
            if f.endswith(".rt") and "/out/" not in folder + "/":
                with open(os.path.join(folder, f), encoding="utf-8") as h:
                    text = re.sub(r"//.*", "", h.read())
                for m in re.finditer(r"\bfn (\w+)\s*\(([^)]*)\)", text):
                    end = text.find("\n}", m.end())
                    found[(folder.split(os.sep)[1], m.group(1))] = text[m.end() : end]
    return found


def arguments(body, callee):
    """The arguments of each call of this name in the body, in order."""
    calls = []
    for m in re.finditer(rf"(?<![\w]){re.escape(callee)}\(", body):
        depth, args, at = 1, [""], m.end()
        while depth and at < len(body):
            ch = body[at]
            depth += ch in "([{"
            depth -= ch in ")]}"
            if ch == "," and depth == 1:
                args.append("")
            elif depth:
                args[-1] += ch
            at += 1
        calls.append([a.strip() for a in args if a.strip()])
    return calls


class Chains:
    """The places of a function, and how far up another stands, today and in the older kit: there a call that was lent a part of what is
    held by &mut had one more place above it."""

    def __init__(self, said, where, params, all_bodies):
        crate, own = where.split("/")[1], os.path.basename(os.path.dirname(where))
        body = all_bodies.get((crate, own), "")
        mine = next((ps for ps in params.get(own, []) if all(re.search(rf"\b{re.escape(n)}\b", body) for n, _ in ps)), (params.get(own) or [[]])[0])
        held = {n for n, ty in mine if ty.startswith("&mut")}
        names = said["places_by_name"]
        index = {}
        self.up, self.more, self.below, seen = {}, {}, {}, {}
        for i, (old, parent, _, callee, _) in enumerate(said["places"]):
            self.up[names[i]] = None if parent is None else names[index[parent]]
            index[old] = i
            more = 0
            if callee:
                short = callee.rpartition("::")[2]
                k = seen.get(short, 0)
                calls = arguments(body, short)
                for ps in params.get(short, [])[:1]:
                    given = calls[k] if k < len(calls) else []
                    for (_, ty), a in zip(ps, given):
                        word = re.match(r"&?\s*\*?\s*(\w+)", a)
                        if ty.startswith("&") and not ty.startswith("&mut") and word and word.group(1) in held and not a.startswith("&mut"):
                            more += 1
                seen[short] = k + 1
            self.more[names[i]] = more
            # what such a call requires was asked below the place that is gone
            parent_name = self.up[names[i]]
            if more and parent_name and "-arg" not in parent_name:
                self.below[said["places"][i][2][1] + "-requires"] = more

    def climb(self, place, n):
        """From a place n steps up, as the older kit counted: the place, and the steps today."""
        today = 0
        if isinstance(place, tuple):
            place, more = place
            if n < more:
                return (None if n else (place, more)), today
            n -= more
        while n > 0:
            over = 1 + self.more.get(place, 0)
            if n < over:
                return None, today
            n -= over
            place = self.up.get(place)
            today += 1
            if place is None:
                return None, today
        return place, today


def rechained(text, said, where, chains, left):
    """Counts each .before anew, by the places that variables stand for."""
    asked = {new: at[1] for at, (_, new) in zip(said["asked_at"], said["needs"])}
    known = set(chains.up)
    results = {}
    blocks = re.split(r"(\n\n)", text)
    for m in re.finditer(rf"^(?:abbrev )?({NAME}) : tie\.({NAME}) → tie\.({NAME})$", text, re.M):
        results[m.group(1)] = m.group(3)

    def walk(piece, at):
        """Rewrites one piece of text from left to right; `at` has the variables."""
        out, pos = [], 0
        token = re.compile(
            rf"let (?P<lv>[\w']+) = (?P<lx>[^\n]*?) in(?=\s)|(?P<app>\((?P<fn>{NAME}) (?P<fa>[\w']+)\))(?P<fc>(?:\.before)+)|(?<![\w'.])(?P<v>[\w']+)(?P<vc>(?:\.before)+)"
        )
        while True:
            m = token.search(piece, pos)
            if not m:
                out.append(piece[pos:])
                return "".join(out)
            out.append(piece[pos : m.start()])
            pos = m.end()
            if m.group("lv"):
                x = walk(m.group("lx"), at)
                out.append(f"let {m.group('lv')} = {x} in")
                at.pop(m.group("lv"), None)
                got = place_of(m.group("lx").strip(), at)
                if got:
                    at[m.group("lv")] = got
                continue
            root = m.group("v") or m.group("app")
            chain = m.group("vc") or m.group("fc")
            place = at.get(m.group("v")) if m.group("v") else results.get(m.group("fn"))
            n = chain.count(".before")
            if place is None:
                if m.group("v"):
                    left.append(f"{root}{chain}: of which place {root} is, is not seen")
                out.append(root + chain)
                continue
            to, today = chains.climb(place, n)
            if to is None:
                left.append(f"{root}{chain}: from {place} that leads to no place of today's")
                out.append(root + chain)
                continue
            out.append(root + ".before" * today)

    def place_of(x, at):
        m = re.fullmatch(r"([\w']+)((?:\.before)*)", x)
        if m and m.group(1) in at:
            return chains.climb(at[m.group(1)], m.group(2).count(".before"))[0]
        m = re.fullmatch(rf"\(?({NAME}) ([^()]+|\([^()]*\))\)?((?:\.before)*)", x)
        if m and m.group(1) in results:
            return chains.climb(results[m.group(1)], m.group(3).count(".before"))[0]
        return None

    for i, block in enumerate(blocks):
        sig = re.search(rf"^(?:abbrev |pub |unfoldable )*({NAME}) : ", block, re.M)
        if not sig or "before" not in block:
            continue
        name = sig.group(1)
        body = re.search(rf"^{re.escape(name)}((?: [\w'₀-₉]+)*) = ", block, re.M)
        head = block[: body.start()] if body else block
        rest = block[body.start() :] if body else ""
        need = re.search(rf"tie\.Need-({NAME})", head)
        at = {}
        if need:
            words = body.group(1).split() if body else []
            if words:
                place, more = asked.get(need.group(1)), chains.below.get(need.group(1), 0)
                at[words[0]] = (place, more) if more else place
        else:
            kinds = []
            for m in re.finditer(rf"[({{]([\w' ]+) : tie\.({NAME})[)}}]|tie\.({NAME})(?= →|$)", head, re.M):
                if m.group(1):
                    for v in m.group(1).split():
                        at[v] = m.group(2)
                        kinds.append(m.group(2))
                else:
                    kinds.append(m.group(3))
            words = body.group(1).split() if body else []
            first = re.search(r" : ", head)
            for v, k in zip(words, kinds):
                at.setdefault(v, k)
        at = {v: k for v, k in at.items() if (k[0] if isinstance(k, tuple) else k) in known}
        head = walk(head, dict(at))
        blocks[i] = head + walk(rest, dict(at))
    return "".join(blocks)


def turned(text, said, where, params):
    steps, places, fields, left = {}, {}, {}, []
    # what a call leaves behind a &mut is named by the parameter
    for _, _, (_, new), callee, _ in said["places"]:
        if callee and callee.rpartition("::")[2] in params:
            lent = {tuple(n for n, ty in ps if ty.startswith("&mut")) for ps in params[callee.rpartition("::")[2]]}
            NEW.setdefault(where, {})[new] = lent
    for _, _, (old, new), _, more in said["places"]:
        if old:
            steps.setdefault(norm(old), []).append(new)
        fields.setdefault(new, []).extend((o, n) for o, n in more)
    for (old, *_), new in zip(said["places"], said["places_by_name"]):
        places.setdefault(norm(old), []).append(new)
    # a variable keeps its name, also where a step of the walk has it
    own = os.path.basename(os.path.dirname(where))
    values = {v for _, vs in said["loops"] for v in vs} | {n for ps in params.get(own, []) for n, _ in ps}
    for v in values:
        steps.pop(norm(v), None)
    loops = [at[0] for at in said["loops"]]
    for old, new in loops:
        text = re.sub(rf"tie\.(invariant|decreases)-{re.escape(old)}(?![\w'-])", rf"tie.\1-{new}", text)
    # needs: by their order where the counts agree, and else by their old names
    needs = said["needs"]
    given = [a for a in spec_arguments(text) if re.search(rf"^{re.escape(a)} : tie\.Need-", text, re.M)]
    if len(given) == len(needs):
        pairs = [(a, new) for a, (_, new) in zip(given, needs)]
    else:
        left.append(f"{len(given)} needs are answered, and {len(needs)} asked")
        by = {norm(old): new for old, new in needs}
        pairs = []
        for a in given:
            old = re.search(rf"^{re.escape(a)} : tie\.Need-({NAME})", text, re.M).group(1)
            new = by.get(norm(a)) or by.get(norm(old))
            if new:
                pairs.append((a, new))
            else:
                left.append(f"no need for {a}")
    for a, new in pairs:
        text = re.sub(rf"^({re.escape(a)} : tie\.Need-){NAME}", lambda m: m.group(1) + new, text, flags=re.M)

    def place(m):
        found = sorted(set(places.get(norm(m.group(1)), [])))
        if len(found) == 1:
            return "tie." + found[0]
        if len(found) > 1:
            left.append(f"{m.group(0)}: {' or '.join(found)}")
        return m.group(0)

    text = re.sub(rf"tie\.((?:Start|In|At|After|Then|Else|Done)[A-Za-z0-9_'-]*)", place, text)

    def step(m):
        found = sorted(set(steps.get(norm(m.group(1)), [])))
        # a field of a net, of an entry or of a message is no step
        if m.group(1) in FIELDS and (m.string[m.start() - 1] == ")" or re.search(r"(?<![\w'])[A-Z][\w']*$", m.string[: m.start()])):
            return m.group(0)
        if len(found) == 1:
            return "." + found[0]
        if len(found) > 1:
            left.append(f"{m.group(0)}: {' or '.join(found)}")
        return m.group(0)

    kept = ("before", "args", "requires", "ensures", "result", "now")
    lines = text.split("\n")
    for i, line in enumerate(lines):
        if not line.startswith("use "):
            lines[i] = re.sub(rf"(?<=[\w')])\.({NAME})", lambda m: m.group(0) if m.group(1) in kept else step(m), line)
    text = "\n".join(lines)
    if " : tie.Need-" in text:
        text = rechained(text, said, where, Chains(said, where, params, bodies()), left)
    for new in NEW.get(where, {}):
        text = re.sub(rf"(?<=\.){re.escape(new)}\.last\.", f"{new}.new.", text)
    for new, lent in NEW.get(where, {}).items():
        if len(lent) == 1:
            for i, n in enumerate(next(iter(lent))):
                text = re.sub(rf"(?<=\.){re.escape(new)}\.(new|auto)\.{i}(?![\w'-])", rf"{new}.\1.{n}", text)
    # what a step tells has new names too
    for new, more in fields.items():
        by_old = {norm(o): n for o, n in more}
        if by_old:
            text = re.sub(rf"(?<=\.){re.escape(new)}\.({NAME})", lambda m: f"{new}.{by_old.get(norm(m.group(1)), m.group(1))}", text)
    # which variant a value is, is said where the arm is
    for a, new in pairs:
        arm = re.search(r"in-([A-Z]\w*)", new)
        if arm:
            at = re.search(rf"^{re.escape(a)} [^:\n]*=(.|\n)*?(?=\n\n|\Z)", text, re.M)
            if at:
                body = re.sub(r"\.enum_told[\w-]*\.given\.1", f".in-{arm.group(1)}.is", at.group())
                text = text[: at.start()] + body + text[at.end() :]
    text = re.sub(r"(?<=[\w')])\.pre(?![\w'-])", ".requires", text)
    f = os.path.basename(os.path.dirname(where))
    text = re.sub(rf"(?<![\w'.-]){re.escape(f.replace('_', '-'))}[-_]spec(?![\w'-])", f + "_spec", text)
    return text, left


def main():
    args = sys.argv[1:]
    folder = tempfile.mkdtemp(prefix="names-")
    if "--names" in args:
        i = args.index("--names")
        folder = args[i + 1]
        del args[i : i + 2]
    params = parameters()
    for crate in args:
        names = crates_names(crate, folder)
        for module, said in sorted(names.items()):
            path = module.removeprefix(f"Rattle-{crate}-proofs.")
            path, _, _ = path.rpartition(".")
            where = f"crates/{crate}/proofs/{path.replace('.', '/')}/Proof.antt"
            if not os.path.exists(where):
                continue
            with open(where, encoding="utf-8") as h:
                was = h.read()
            now, left = turned(was, said, where, params)
            for it in left:
                print(f"{where}: {it}")
            if now != was:
                with open(where, "w", encoding="utf-8") as h:
                    h.write(now)


if __name__ == "__main__":
    main()
