#!/usr/bin/env python3
"""Gives the repository's own definitions, lemmas and modules the spelling of today's Rattle: words in snake case, modules in camel case.

usage: tools/port_names.py [FOLDER]

Run once, at the top, right after the kit's own script has turned the files. It rewrites crates/ in place: every .antt and .rt file, and every
must-fail edit; and each crate's root file asks for the tactics. Strings of programs hold no such word.
"""
import os
import re
import sys

TOKEN = re.compile(r"[A-Za-z_][A-Za-z0-9_'₀₁₂₃₄₅₆₇₈₉-]*")
CAMEL = re.compile(r"[a-z][a-z0-9]*[A-Z]")
# Words that stand for something else than their letters say.
WORDS = {
    "getD": "get_or",
    "get_d_part": "get_or-part",
}
# Lemmas that would fall together with a definition's new name: crate, file, old name, new name.
APART = [
    ("forms", "proofs/plan", "no_name", "no-name"),
    ("forms", "proofs/plan", "same_names", "same_names_lem"),
    ("plan", "proofs/Plans", "group_at", "group-at"),
    ("rig", "proofs/Words", "found_word", "found_word_lem"),
    ("deliver", "proofs/answer", "take_at", "took"),
]
# Edits of clauses, which name a value before and after a call in today's way: crate, edit, old and new text.
CLAUSES = [
    ("lent", "run_that_leaves_the_net", "(now (net .exit) ≡ net_after_run (now (net .entry)) (now (script .entry)) true)", "(net.new ≡ net_after_run net.old script.now true)"),
    ("lent", "run_that_leaves_the_net", "(now (net .exit) ≡ now (net .entry))", "(net.new ≡ net.old)"),
    ("rig", "reads_what_it_writes", "(r ≡ convert_outcome Saved (now (net .entry)) (now (work .entry)))", "(result ≡ convert_outcome Saved net.now work.old)"),
    ("rig", "reads_what_it_writes", "(r ≡ convert_outcome Working (now (net .entry)) (now (work .entry)))", "(result ≡ convert_outcome Working net.now work.old)"),
    ("rig", "reads_what_it_writes", "(r ≡ convert_outcome Working (now (work .entry)) (now (net .entry)))", "(result ≡ convert_outcome Working work.now net.old)"),
    ("rig", "reads_what_it_writes", "(r ≡ convert_outcome Saved (now (work .entry)) (now (net .entry)))", "(result ≡ convert_outcome Saved work.now net.old)"),
]
# Hexadecimal names of bytes keep their digits.
HEX = re.compile(r"x[0-9A-F]+$")
# Modules of lemmas and of inner definitions that began with a small letter: crate, folder, old name.
MODULES = [(c, "specs", "inner") for c in "access action channel convert deliver fresh lent script step text visit".split()]
MODULES += [("forms", "proofs", "form"), ("forms", "proofs", "plan")]
MODULES += [("protocol", "proofs", m) for m in "examples laws shape sound steps".split()]


def snake(word):
    if word in WORDS:
        return WORDS[word]
    if HEX.match(word):
        return word
    parts = re.split("([-_])", word)
    for i, p in enumerate(parts):
        if p in WORDS:
            parts[i] = WORDS[p]
        elif CAMEL.match(p):
            parts[i] = re.sub(r"(?<=[a-z0-9])[A-Z]", lambda m: "_" + m.group().lower(), p)
    return "".join(parts)


def turned(path, text):
    apart = {old: new for crate, file, old, new in APART if f"crates/{crate}/{file}" in path}
    text = TOKEN.sub(lambda m: (m.string[m.start() - 1 : m.start()] != "." and apart.get(m.group())) or snake(m.group()), text)
    for crate, folder, m in MODULES:
        text = text.replace(f"Rattle.{crate}.{folder}.{m}.", f"Rattle.{crate}.{folder}.{m.capitalize()}.")
    return text


def edit_turned(path, text):
    # a projection is written tight, in edits as elsewhere
    lines = text.split("\n")
    for i, line in enumerate(lines):
        if line.startswith(("old: ", "new: ")):
            for crate, name, old, new in CLAUSES:
                if f"crates/{crate}/must-fail/{name}.edit" in path:
                    line = line.replace(old, new)
            line = re.sub(r"(?<=[\w')]) \.(?=[a-z])", ".", line)
            lines[i] = re.sub(r"\((\w[\w']*\.[a-z]\w*)\)", r"\1", line)
    return "\n".join(lines)


def with_tactics(text):
    """The root file of a crate asks for the tactics, below its first comment."""
    if "#![tactic(" in text:
        return text
    lines = text.split("\n")
    at = next((i for i, line in enumerate(lines) if not line.startswith("//")), len(lines))
    return "\n".join(lines[:at] + ["#![tactic(auto)]", ""] + lines[at:])


def main():
    top = sys.argv[1] if len(sys.argv) > 1 else "."
    for folder, dirs, files in os.walk(os.path.join(top, "crates")):
        dirs[:] = sorted(d for d in dirs if d != "out")
        for f in sorted(files):
            if not f.endswith((".antt", ".rt", ".edit")):
                continue
            path = os.path.join(folder, f)
            with open(path, encoding="utf-8") as h:
                was = h.read()
            now = turned(path, was)
            if path.endswith(("/src/lib.rt", "/src/main.rt")):
                now = with_tactics(now)
            if f.endswith(".edit"):
                now = edit_turned(path, now)
            if now != was:
                with open(path, "w", encoding="utf-8") as h:
                    h.write(now)
    for crate, folder, m in MODULES:
        at = os.path.join(top, "crates", crate, folder)
        lib = os.path.join(at, "Lib.antt")
        with open(lib, encoding="utf-8") as h:
            was = h.read()
        with open(lib, "w", encoding="utf-8") as h:
            h.write(re.sub(rf"^((?:pub )?mod ){m}$", rf"\g<1>{m.capitalize()}", was, flags=re.M))
        for end in (".antt", ""):
            if os.path.exists(os.path.join(at, m + end)):
                os.rename(os.path.join(at, m + end), os.path.join(at, m.capitalize() + end))


if __name__ == "__main__":
    main()
