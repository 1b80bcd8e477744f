#!/usr/bin/env python3
"""Brings this repository's own names in specs/, proofs/ and contracts to one spelling: words in snake case, types and modules in camel case.

usage: tools/respell.py            at the top of the repository: every .antt and .rt file of crates/
       tools/respell.py FILE..     these files as well (pages, must-fail edits): only what stands in backquotes, in quoted code or in an edit's lines

A name is turned where it is declared in specs/ or in a file of lemmas of proofs/: `in-range` and `inRange` become `in_range`. Names that the kit
declares, and those that it makes for a function's proof, stay. Names that fall together are printed. A second run changes nothing.
"""
import glob
import json
import os
import re
import sys

W = r"[^\s(){}.;,@\"«»\[\]\\`]+"
DECLARED = re.compile(r"\s*(?:unfoldable |abbrev )?(?:pub )?(?:record |data |open )?(" + W + r")(?: \(.*\)| \{.*\})* :(?: |$)")
SECTION = re.compile(r"^\s*(?:pub )?use (\S+?)\.\{([^}]*)\}", re.M)
TABLE = os.path.join(os.path.dirname(os.path.abspath(__file__)), "respelled.json")


def snake(name):
    name = re.sub(r"(?<=[a-zA-Z0-9])-(?=[a-zA-Z0-9])", "_", name)
    name = re.sub(r"(?<=[a-z0-9])([A-Z])", lambda m: "_" + m.group(1).lower(), name)
    return name


def files():
    for p in sorted(glob.glob("crates/*/specs/**/*.antt", recursive=True) + glob.glob("crates/*/proofs/**/*.antt", recursive=True)):
        yield p


def is_lemmas(path):
    return "/specs/" in path or os.path.basename(path) not in ("Proof.antt", "Answers.antt", "Invariants.antt")


def table():
    own = set(os.listdir("crates"))
    names, kit, fields = set(), set(), set()
    for p in files():
        text = open(p, encoding="utf-8").read()
        for m in SECTION.finditer(text):
            parts = m.group(1).split(".")
            if not (parts[0] == "Rattle" and len(parts) > 1 and parts[1] in own):
                kit |= {n.strip().split(" as ")[0] for n in m.group(2).split(",")}
        if not is_lemmas(p):
            continue
        record = None
        for line in text.splitlines():
            indent = len(line) - len(line.lstrip())
            if re.match(r"\s*(pub )?record ", line):
                record = indent
            elif record is not None and line.strip() and not line.strip().startswith("--") and indent <= record:
                record = None
            # what a place holds after a call, as a parameter
            names |= set(re.findall(r"(?<![\w.])[a-z]+Now(?!\w)", line))
            m = DECLARED.match(line)
            if m and not line.strip().startswith("--"):
                names.add(m.group(1))
                if record is not None and indent > record:
                    fields.add(m.group(1))
    turned = {n: snake(n) for n in names if re.match(r"[a-z]", n) and n not in kit and snake(n) != n}
    together = {}
    for n in sorted(names):
        together.setdefault(turned.get(n, n), []).append(n)
    # A lemma that would have its function's name gets `_lem`; a field keeps the plain name, since it is read behind a dot.
    for to, of in sorted(together.items()):
        for n in of:
            if len(of) > 1 and "-" in n and n not in fields:
                turned[n] = to + "_lem"
        print("together:", to, "of", ", ".join(of)) if len({turned.get(n, n) for n in of}) < len(of) else None
    # A field that would hide its function from a later field of its record.
    turned |= {n: n.replace("-", "_") + "_of_4" for n in ("most-messages",) if n in names}
    # Turned before this script ran, where the kit has the same name; here too it is the lemma that gets `_lem`.
    turned |= {n: n + "_lem" for n in ("is_found",) if n in names and "isFound" in names}
    return turned


def word(turned, token):
    parts = token.split("·")
    return "·".join(turned.get(p, p) for p in parts)


def words(turned, text):
    return re.sub(W, lambda m: word(turned, m.group(0)), text)


def in_comment(turned, text):
    return re.sub(r"`[^`]*`", lambda m: words(turned, m.group(0)), text)


ANTT = re.compile(r"--[^\n]*|\"(?:[^\"\\]|\\.)*\"|" + W)
RUST = re.compile(r"//[^\n]*|b?\"(?:[^\"\\]|\\.)*\"|'(?:[^'\\]|\\.)'|" + W)


def turn(turned, text, pattern):
    def one(m):
        t = m.group(0)
        if t.startswith("--") or t.startswith("//"):
            return in_comment(turned, t)
        if t.startswith('"') or t.startswith('b"') or (t.startswith("'") and t.endswith("'") and len(t) > 1):
            return t
        return word(turned, t)

    return pattern.sub(one, text)


def page(turned, text):
    """Backquoted words, and lines that are set in by four spaces."""
    out = []
    for line in text.split("\n"):
        out.append(words(turned, line) if line.startswith("    ") else in_comment(turned, line))
    return "\n".join(out)


def write(path, old, new):
    if old != new:
        with open(path, "w", encoding="utf-8") as f:
            f.write(new)
        return 1
    return 0


def main(argv):
    if argv:
        turned = json.load(open(TABLE))
        for p in argv:
            text = open(p, encoding="utf-8").read()
            write(p, text, page(turned, text))
        return
    turned = table()
    if turned:
        known = json.load(open(TABLE)) if os.path.exists(TABLE) else {}
        json.dump(known | turned, open(TABLE, "w"), indent=0, sort_keys=True)
    n = 0
    for p in files():
        text = open(p, encoding="utf-8").read()
        # a lemma here, and a field elsewhere
        here = turned | {k: v + "_lem" for k, v in turned.items() if k == "no-refusal"} if p.startswith("crates/refusals/") else turned
        n += write(p, text, turn(here, text, ANTT))
    for p in sorted(glob.glob("crates/*/src/**/*.rt", recursive=True)):
        text = open(p, encoding="utf-8").read()
        n += write(p, text, turn(turned, text, RUST))
    print(len(turned), "names,", n, "files")


main(sys.argv[1:])
