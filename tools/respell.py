#!/usr/bin/env python3
"""Brings this repository's own definitions and laws to the spelling of today's Rattle.

usage: python3 tools/respell.py [FOLDER]     once, at the top, right after the kit's port.py; FOLDER is the repository's top

- A word is in snake case: putBoth becomes put_both. A fact is spelled as a type: holds becomes Holds.
- A dash joins two names, and a plain word is added with an underscore: putBoth-length becomes put_both-length, since length
  is a name too, and converse-twice becomes converse_twice.

Only names that specs/ or proofs/ of this repository declare are turned, in crates/, README.md and docs/. Functions of src/,
exported names, strings, inputs and outputs keep theirs. It stops where a new name would fall together with another.
"""
import os
import re
import sys

TOP = sys.argv[1] if len(sys.argv) > 1 else "."
TOKEN = re.compile(r"[^\s(){}\[\],;.«»\"`:|]+")
CAMEL = re.compile(r"^[a-z][a-z0-9]*(?:[A-Z][a-z0-9]*)+$")
# The library has a law of this name too, and files that cite that one.
KEEP = {"sub-zero"}
# Words of the library that law names join with a dash.
LIBRARY = {"length", "take", "drop", "append", "set", "get_or", "replicate", "map", "cons", "bit_or", "bit_and"}
# The library's names that port.py turned, but not in must-fail edits.
STD = {"getD": "get_or", "bitAnd": "bit_and", "bitOr": "bit_or", "ltZ": "lt_z", "trailingZeros": "count_trailing_zeros",
       "numberOf": "number_of", "saidOf": "said_of", "namesAt": "names_at", "textOf": "text_of", "upTo": "up_to"}
# Facts, which were spelled as words: in Meaning all of them, elsewhere the one that is cited.
FACTS = {"before": "Before", "meets": "MeetsEvent", "overlaps": "Overlaps", "starts": "Starts", "during": "During",
         "finishes": "Finishes", "equals": "Equals", "back": "Back", "holds": "Holds"}
MEANING = os.path.join("crates", "relation", "specs", "Meaning.antt")
DECLARED = re.compile(r"^\s*(?:pub |abbrev pub |unfoldable pub |abbrev |unfoldable )?(?!use |data |record |module )([^\s(){}:]+) : ")
TYPES = re.compile(r"^\s*(?:pub )?(?:data|record) ([^\s(){}:]+)")


def files(*ends):
    for folder, dirs, names in os.walk(os.path.join(TOP, "crates")):
        dirs[:] = sorted(d for d in dirs if d not in ("out", ".git"))
        for name in sorted(names):
            if name.endswith(ends):
                yield os.path.join(folder, name)


def pages():
    yield os.path.join(TOP, "README.md")
    for name in sorted(os.listdir(os.path.join(TOP, "docs"))):
        if name.endswith(".md") and not name.startswith("PORT"):
            yield os.path.join(TOP, "docs", name)


def read(path):
    with open(path, encoding="utf-8") as f:
        return f.read()


def snake(part):
    return re.sub(r"([A-Z])", lambda m: "_" + m.group(1).lower(), part) if CAMEL.match(part) else part


def main():
    texts = {p: read(p) for p in files(".rt", ".antt", ".edit")}
    words, laws, goals, tokens, functions = set(LIBRARY), set(), set(), set(), set()
    for path, text in texts.items():
        tokens |= set(TOKEN.findall(text))
        if not path.endswith(".antt"):
            continue
        goals |= {t.removeprefix("Need-") for t in re.findall(r"(?<=tie\.)[^\s(){}\[\],;.]+", text)}
        # What one proof file alone declares is written anew with that file.
        if path.endswith("Proof.antt"):
            continue
        for line in text.splitlines():
            found = DECLARED.match(line) or TYPES.match(line)
            if not found:
                continue
            name = found.group(1)
            if f"{os.sep}specs{os.sep}" in path:
                words.add(snake(name))
            laws.add(name)
    for path, text in texts.items():
        if path.endswith(".rt"):
            functions |= set(re.findall(r"\bfn ([a-z_0-9]+)", text))
    words |= functions
    laws -= goals | KEEP

    def new_name(name):
        parts = [snake(p) for p in name.split("-")]
        out = parts[0]
        last = parts[0]
        for part in parts[1:]:
            if last in words and part in words:
                out, last = out + "-" + part, part
            else:
                out, last = out + "_" + part, last + "_" + part
        return out

    turned = {}
    for name in laws | {t for t in tokens if CAMEL.match(t)}:
        if re.match(r"^[a-z<≤∘][^\s]*$", name) and ("-" in name or CAMEL.match(name)):
            to = new_name(name)
            if to != name:
                turned[name] = to
    # A law that would have its definition's name gets _lem. A definition may have the name of the function that it is about.
    for name, to in turned.items():
        if "-" in name and (to in turned.values() and any(n != name and t == to for n, t in turned.items()) or to in words):
            turned[name] = to + "_lem"
    back = {}
    for name, to in sorted(turned.items()):
        back.setdefault(to, []).append(name)
    for to, names in sorted(back.items()):
        if len(names) > 1:
            print(f"look: {' and '.join(names)} would both be {to}")
    for name, to in sorted(turned.items()):
        if to in tokens and to not in functions:
            print(f"look: {name} would be {to}, which is there")
    turned |= STD
    if "--list" in sys.argv:
        for name, to in sorted(turned.items()):
            print(f"{name} {to}")
        return

    def turn(text, facts):
        lines = text.split("\n")
        for k, line in enumerate(lines):
            here = {} if re.match(r"\s*(--|//|#)", line) else facts
            lines[k] = TOKEN.sub(lambda m: here.get(m.group(0)) or turned.get(m.group(0), m.group(0)), line)
        return "\n".join(lines)

    for path, text in texts.items():
        facts = {}
        if path == os.path.join(TOP, MEANING):
            facts = FACTS
        elif re.search(r"specs\.Meaning\.\{[^}]*\bholds\b", text):
            facts = {"holds": "Holds"}
        done = turn(text, facts)
        if done != text:
            with open(path, "w", encoding="utf-8") as f:
                f.write(done)
    for path in pages():
        text = read(path)
        done = re.sub(r"`[^`\n]+`", lambda m: turn(m.group(0), {}), text)
        if done != text:
            with open(path, "w", encoding="utf-8") as f:
                f.write(done)
    print(f"turned: {len(turned)} names")


main()
