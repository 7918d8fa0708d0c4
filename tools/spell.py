#!/usr/bin/env python3
"""Brings the repository's own names to the spelling of today's Rattle, once, after the kit's own script.

usage: tools/spell.py KIT    at the top of the repository; KIT is the folder of the kit's libraries

Names in specs/ and proofs/ are in snake case, and types and modules in camel case. Functions of src/, exported names, strings, inputs and outputs stay.
What the kit declares keeps the kit's spelling, and so does what the check itself makes (`Need-..`).
"""
import os
import re
import subprocess
import sys

# `Kinds` is the name of a module that the check makes.
MODULES = {it: it.capitalize() for it in ("names", "syntax", "theorems", "tokens", "whole")} | {"kinds": "Semantics"}
WITH_MODULES = ("express", "theorems")
TYPES = {"Is-first": "IsFirst", "Deep-from": "DeepFrom", "Named-by": "named_by", "Marked-all": "MarkedAll"}
WORD = re.compile(r"(?<![\w'◌·-])[\w'◌·+]+(?:-[\w'◌·+]+)+")
DECLARES = re.compile(r"^\s*(?:(?:abbrev|unfoldable|pub)\s+)*(data\s+|record\s+|ruleset\s+)?([^\s(){}\[\];,.`@\"]+)\s*(?::|\{|\(|=)", re.M)
IMPORTS = re.compile(r"use\s+([^\s{;]+)\.\{([^}]*)\}")
# What the language's own modules declare, beside the kit's files.
BUILT_IN = {"zero-zero", "zero-suc", "suc-zero", "suc-suc", "ℤ-zero"}
MADE = ("Need-", "Lts-", "After-", "In-", "At-", "Then-", "Else-", "Inv-")


def files(root, *endings):
    for folder, dirs, names in os.walk(root):
        dirs[:] = sorted(d for d in dirs if d not in ("out", ".git", "target"))
        for name in sorted(names):
            if name.endswith(endings):
                yield os.path.join(folder, name)


def text_of(path):
    with open(path, encoding="utf-8", errors="replace") as f:
        return f.read()


def declared(text):
    return {m.group(2) for m in DECLARES.finditer(re.sub(r"(?m)^\s*--.*$", "", text)) if not m.group(0).lstrip().startswith("--")}


def imported(text, crates):
    """The names that a file takes from the repository, and those that it takes from the kit."""
    own, kit = set(), set()
    for module, names in IMPORTS.findall(text):
        to = own if module.startswith("Rattle.") and module.split(".")[1] in crates else kit
        to |= {it.strip().split(" as ")[0] for it in names.split(",")}
    return own, kit


def spelled(word):
    return TYPES.get(word, word.replace("-", "_"))


PART = re.compile(r'"(?:[^"\\\n]|\\.)*"|(?m:(?<![^\s(){}\[\],;])--(?=\s|$).*$)')


def turned(text, keeps, met):
    """An antt file: all but its strings, and of its comments what stands between backticks. Adds the words that were turned to met."""

    def turn(m):
        word = m.group(0)
        if word in keeps or word in BUILT_IN or word.startswith(MADE):
            return word
        met.add(word)
        return spelled(word)

    def between(m):
        return m.group(0) if m.group(0).startswith('"') else re.sub(r"`[^`]*`", lambda it: WORD.sub(turn, it.group(0)), m.group(0))

    parts, at = [], 0
    for m in PART.finditer(text):
        parts += [WORD.sub(turn, text[at:m.start()]), between(m)]
        at = m.end()
    return "".join(parts) + WORD.sub(turn, text[at:])


def with_modules(text):
    for old, new in MODULES.items():
        text = re.sub(rf"(Rattle\.(?:{'|'.join(WITH_MODULES)})\.(?:specs|proofs)\.){old}\b", rf"\g<1>{new}", text)
        text = re.sub(rf"(crates/(?:{'|'.join(WITH_MODULES)})/(?:specs|proofs)/){old}\b", rf"\g<1>{new}", text)
    return text


def in_clauses(text, turn):
    """Of a source file: its imports and clauses, and what stands between backticks in its comments."""
    lines, deep, clause = [], 0, False
    for line in text.split("\n"):
        plain = line.lstrip()
        if plain.startswith("//"):
            lines.append(re.sub(r"`[^`]*`", lambda m: turn(m.group(0)), line))
            continue
        begins = re.match(r"(ghost\b|requires\b|ensures\b|\.?\s*pub ghost\b)", plain)
        if begins or clause:
            line = turn(line)
            deep += line.count("{") - line.count("}")
            clause = deep > 0 or (bool(begins) and "{" not in line and not line.rstrip().endswith(";"))
        lines.append(line)
    return "\n".join(lines)


def main(kit):
    crates = set(os.listdir("crates"))
    of_kit = set()
    for path in files(kit, ".antt"):
        of_kit |= {it for it in declared(text_of(path)) if "-" in it}
    own = set()
    for path in files("crates", ".antt"):
        own |= {it for it in declared(text_of(path)) if "-" in it}
    met, words = {}, set()
    for path in files("crates", ".antt"):
        text = text_of(path)
        here = declared(text)
        ours, theirs = imported(text, crates)
        keeps = {it for it in of_kit if it in theirs or (it not in here and it not in ours and it not in own)}
        before = set(re.findall(r"[^\s(){}\[\];,.`@\"]+", PART.sub(" ", text)))
        for word in set(WORD.findall(text)) - keeps:
            if not word.startswith(MADE) and spelled(word) in before:
                print(f"falls together: {path}: {word} and {spelled(word)}")
        after = with_modules(turned(text, keeps, words))
        if os.path.basename(path) == "Lib.antt" and path.split(os.sep)[1] in WITH_MODULES:
            after = re.sub(r"(mod )(\w+)", lambda m: m.group(1) + MODULES.get(m.group(2), m.group(2)), after)
        met[path] = after
    stands = {it for text in met.values() for it in re.findall(r"[\w'◌·+]+", text)}
    for path in files("crates", ".rt", ".edit"):
        text = text_of(path)
        ours, theirs = imported(text, crates)
        keeps = {it for it in of_kit if it not in ours and (it not in own or it in theirs)} if path.endswith(".rt") else set()

        def turn(part):
            return WORD.sub(lambda m: spelled(m.group(0)) if spelled(m.group(0)) in stands and m.group(0) not in keeps else m.group(0), part)

        after = in_clauses(text, turn) if path.endswith(".rt") else "\n".join(turn(l) if l.startswith(("old:", "new:")) else l for l in text.split("\n"))
        after = with_modules(after)
        if path.endswith(".edit") and path.split(os.sep)[1] in WITH_MODULES:
            after = re.sub(r"(?m)^(file: (?:specs|proofs)/)(\w+)", lambda m: m.group(1) + MODULES.get(m.group(2), m.group(2)), after)
        met[path] = after
    for path in list(files("docs", ".md")) + ["README.md"]:
        if os.path.basename(path) == "PORT.md":
            continue

        def turn(m):
            return WORD.sub(lambda w: spelled(w.group(0)) if spelled(w.group(0)) in stands else w.group(0), m.group(0))

        short = rf"(?<![\w/])((?:proofs/|specs/|theorems/proofs/|express/proofs/|express/specs/)?)({'|'.join(MODULES)})/(?=[A-Z`])"
        after = re.sub(r"`[^`\n]*`", turn, text_of(path))
        met[path] = with_modules(re.sub(r"`[^`\n]*`", lambda m: re.sub(short, lambda it: it.group(1) + MODULES[it.group(2)] + "/", m.group(0)), after))
    for path, text in met.items():
        if text != text_of(path):
            with open(path, "w", encoding="utf-8") as f:
                f.write(text)
    for crate in WITH_MODULES:
        for side in ("specs", "proofs"):
            for old, new in MODULES.items():
                for it in (old, old + ".antt"):
                    path = f"crates/{crate}/{side}/{it}"
                    if os.path.exists(path):
                        subprocess.run(["git", "mv", path, f"crates/{crate}/{side}/{it.replace(old, new)}"], check=True)


if __name__ == "__main__":
    if len(sys.argv) != 2:
        raise SystemExit(__doc__)
    main(sys.argv[1])
