#!/usr/bin/env python3
"""Brings the repository's own definitions and lemmas to snake case, as port.py does where the library has the same spelling.

    python3 tools/respell.py

It was run once, right after port.py, at the top of the tree that docs/PORT.md names. It collects the names that specs/*.antt and
proofs/*.antt define (definitions, lemmas, fields, constructors, rule sets), turns camel case and dashes into snake case, and puts the new names
wherever the old ones stand as whole words: in crates (the code's own names and its strings have no such words), in must-fail edits, and in
the pages' code words. A lemma whose name would then be its definition's ends in _lem. Types, files, functions of src/, exported C names, inputs and
outputs keep their names.
"""
import re
from pathlib import Path

ROOT = Path(__file__).resolve().parent.parent
CRATES = ROOT / "crates"
WORD = r"[^\s(){}\[\],.;λ\"`:]+"
SIGNATURE = re.compile(rf"^( *)(?:(?:pattern|unfoldable|abbrev|axiom|pub|data|record|ruleset) )*({WORD})(?: \{{[^}}]*\}})?(?: :| =|$)")


def snake(name):
    if re.match("[a-z]", name):
        name = re.sub(r"(?<=[a-z0-9])([A-Z])", lambda m: "_" + m[1].lower(), name)
    return re.sub(r"(?<=\w)-(?=\w)", "_", name)


def defined():
    """Each name that a file of specs/ or proofs/ gives a signature to, but those that Rattle makes."""
    names = set()
    for path in [*CRATES.glob("*/specs/*.antt"), *CRATES.glob("*/proofs/*.antt")]:
        for line in path.read_text().split("\n"):
            found = SIGNATURE.match(line)
            if found and not line.lstrip().startswith(("--", "use ", "unfolding ", "let ", "mod ")) and snake(found[2]) != found[2]:
                if re.match(r"[a-z]", found[2]) and not (" = " in line and " : " not in line and "ruleset" not in line):
                    names.add(found[2])
    return names


def from_elsewhere():
    """The names that some file takes from the library: a lemma of ours with the same name keeps it too."""
    own = {crate.name for crate in CRATES.iterdir()}
    names = set()
    for path in [*CRATES.rglob("*.antt"), *CRATES.rglob("*.rt")]:
        for module, listed in re.findall(r"^(?:ghost )?(?:pub )?use ([^\s{;]+)\.\{([^}]*)\}", path.read_text(), re.M):
            if not (module.startswith("Rattle.") and module.split(".")[1] in own):
                names |= {name.strip() for name in listed.split(",")}
    return names


def renamed():
    to = {}
    for name in sorted(defined() - from_elsewhere()):
        to[name] = snake(name)
    for name, new in list(to.items()):
        if "-" in name and any(other != name and to[other] == new for other in to):
            to[name] = new + "_lem"
    return to


def turn(text, to):
    return re.sub(WORD, lambda m: to.get(m[0], m[0]), text)


def main():
    to = renamed()
    new = set(to.values())
    everywhere = set()
    for path in sorted(p for ending in ("antt", "rt") for p in CRATES.rglob(f"*.{ending}")):
        text = path.read_text()
        turned = turn(text, to)
        everywhere |= set(re.findall(WORD, turned))
        if turned != text:
            path.write_text(turned)

    def as_in_tree(match):
        word = match[0]
        if word in to:
            return to[word]
        return snake(word) if word not in everywhere and snake(word) in everywhere else word

    for path in sorted(CRATES.rglob("*.edit")):
        text = path.read_text()
        turned = "\n".join(re.sub(WORD, as_in_tree, line) if line.startswith(("old:", "new:")) else line for line in text.split("\n"))
        if turned != text:
            path.write_text(turned)
    for path in [ROOT / "README.md", ROOT / "CHANGES.md", *sorted((ROOT / "docs").rglob("*.md"))]:
        text = path.read_text()
        turned = re.sub(r"`[^`\n]+`", lambda m: re.sub(WORD, as_in_tree, m[0]), text)
        if turned != text:
            path.write_text(turned)
    print(f"{len(to)} names")


main()
