#!/usr/bin/env python3
"""Respells the repository's own definitions and lemmas as today's Rattle spells names: words in snake case, a dash only between two names.

usage: python3 tools/respell.py      at the top of the repository, once, after port.py
       python3 tools/respell.py -n   prints what it would rename

A name stands in specs/ or proofs/: a definition, a lemma, a field or a constructor. Each word of it in camel case goes to snake case
(recordBytes: record_bytes), and a dash becomes an underscore (on-bits: on_bits) but where it joins the names of two definitions, as in
number-append. Types and modules keep their capitals. What is quoted from the psABI or the manual stays as they print it (QUOTED). Names
that Rattle makes, the goals of a function's proof, are left alone. It stops if two names would fall together.
"""

import os
import re
import sys

QUOTED = {"S+A", "GP+G", "GP+IE", "GP+GD", "64-LO20", "64-HI12", "HI20", "LO12", "◌-PC", "-PC", "PC", "1RI20", "2RI12", "SignExtend", "GR"}
# words of the library that our lemmas speak of; our own definitions are read from specs/
WORDS = set("length append take drop get_or set map replicate concat shr_z to_z of_z bit_and bit_or mod mul add sub div pow number".split())
# names that would fall together with another, and one word that the rule for camel case does not see
LEMMAS = {
    "record-bytes": "bytes_of_record",
    "record-at": "the_record",
    "of-record": "of_some",
    "ofARecord": "of_a_record",
    "all-from": "all_from_lem",
    "value-of": "value_of_lem",
}
# a lemma that port.py respelt as its definition is spelt here
LEMMAS_OF = {"./crates/output/proofs/Beyond.antt": {"too_long": "too_long_lem"}}
TOKEN = re.compile(r"[^\s(){}\[\],;.`\"':=→λ]+'*")
DECLARED = re.compile(r"^\s*(?:abbrev |unfoldable |pub |\| )*((?:[^\s:(){}]+ )+): ")
OPERATOR = re.compile(r"[◌∷∙≡≢≤<>&|+*/%^×↔⋯]")


def files(endings):
    for folder, dirs, names in os.walk("."):
        dirs[:] = sorted(d for d in dirs if d not in (".git", "out", "target", "tools"))
        for n in sorted(names):
            if n.endswith(endings):
                yield os.path.join(folder, n)


def read(p):
    with open(p, encoding="utf-8") as f:
        return f.read()


def of_function(p):
    return p.endswith("/Proof.antt")


def declared(p):
    """The names that a file declares, but those that answer a goal, and which of them are definitions with a body that computes."""
    names, words = set(), set()
    for line in read(p).split("\n"):
        line = re.sub(r"--.*", "", line)
        m = re.match(r"^\s*(?:pub )?(?:record|data|mod) (\S+)", line)
        if m:
            continue
        m = DECLARED.match(line)
        if not m:
            continue
        rest = line[m.end():]
        for w in m.group(1).split():
            if of_function(p) and (re.match(r"tie\b", rest) or w.endswith("-spec")):
                continue
            names.add(w)
            if len(w) > 1 and ("abbrev " in line or "unfoldable " in line):
                words.add(w)
    return names, words


def snake(word):
    if word[:1].isupper():
        return word
    return re.sub(r"(?<=[a-z0-9])([A-Z])(?![A-Z])", lambda m: "_" + m.group(1).lower(), word)


def respelt(name, words):
    if name in LEMMAS:
        return LEMMAS[name]
    if name in QUOTED or (OPERATOR.search(name) and "◌" not in name):
        return name
    if "◌" in name:
        return name
    parts = [snake(p) for p in name.split("-")]
    if len(parts) > 1 and "" in parts:
        return name
    new = parts[0]
    for before, after in zip(parts, parts[1:]):
        new += ("-" if before in words and after in words else "_") + after
    return new


def main():
    dry = "-n" in sys.argv
    names, words = set(), set(WORDS)
    for p in files((".antt",)):
        n, w = declared(p)
        names |= n
        words |= {snake(x) for x in w if "-" not in x}
    renamed = {n: respelt(n, words) for n in sorted(names)}
    renamed = {a: b for a, b in renamed.items() if a != b}
    texts = {p: read(p) for p in files((".antt", ".rt", ".edit", ".md"))}
    # a name that a library has too, in a file that imports it from there, stays there
    kept = {}
    for p, t in texts.items():
        for m in re.finditer(r"^(?:ghost )?use (\S+?)\.\{([^}]*)\}", t, re.M):
            path = m.group(1)
            own = re.match(r"Rattle\.(\w+)\.", path) and os.path.isdir("crates/" + path.split(".")[1])
            if not own:
                for w in re.split(r",\s*", m.group(2)):
                    if w in renamed:
                        kept.setdefault(p, set()).add(w)
    bad = False
    for p, t in texts.items():
        if not p.endswith(".antt"):
            continue
        # the name of a function, in a path to its proof, is another's
        tokens = set(TOKEN.findall(re.sub(r"--.*|proofs\.\w+", "", t)))
        here = {}
        for w in tokens:
            n = LEMMAS_OF.get(p, {}).get(w, renamed.get(w, w)) if w not in kept.get(p, set()) else w
            if n in here and here[n] != w and not (of_function(p) and n == "is_zero"):  # a local of a proof that is read nowhere else
                print(f"respell: {p}: {w} and {here[n]} fall together as {n}")
                bad = True
            here[n] = w
    if dry:
        for a, b in renamed.items():
            print(a, b)
        for p, ws in kept.items():
            print("kept in", p, *sorted(ws))
        return
    if bad:
        raise SystemExit(2)
    changed = 0
    for p, t in texts.items():
        stay = kept.get(p, set())
        mine = renamed | LEMMAS_OF.get(p, {})
        new = TOKEN.sub(lambda m: mine.get(m.group(0), m.group(0)) if m.group(0) not in stay else m.group(0), t)
        if p.endswith(".md"):
            new = re.sub(r"`[^`\n]*`", lambda m: TOKEN.sub(lambda k: renamed.get(k.group(0), k.group(0)), m.group(0)), t)
        if new != t:
            with open(p, "w", encoding="utf-8") as f:
                f.write(new)
            changed += 1
    print(f"respell: {len(renamed)} names, {changed} files")


main()
