#!/usr/bin/env python3
"""Turns the repository's own ghost names to the kit's spelling: words in snake case, types in camel case.

usage: python3 tools/respell.py          at the top of the repository, once, after the kit's port.py

Definitions and lemmas of specs/ and proofs/ are renamed where they are declared and wherever a clause, a definition, a
lemma or an answer cites them. Names of the code, of goals and of steps in it, and comment lines of the code stay. It changes
nothing, and says so, where two names of one file would fall together.
"""
import os
import re
import sys

# What a plain change of dashes would spell badly: a lemma is named after its left side, the outer word first.
BY_HAND = {"nth-map": "slice_get-map", "in-getD": "In-get_or"}
WORD = r"[^\s(){}\[\].,;:|\"`·]"
DECLARED = re.compile(
    r"^(\s*)(?:abbrev |unfoldable )?(?:pub )?(?:abbrev |unfoldable |data |record )?(?:pub )?(" + WORD + r"+-" + WORD + r"*)(?: .*)? :(?:\s(.*))?$"
)
ALIAS = re.compile(r" as (" + WORD + r"+-" + WORD + r"*)(?=[,}])")


def texts():
    for top, folders, files in os.walk("crates"):
        folders[:] = sorted(f for f in folders if f != "out")
        for name in sorted(files):
            if name.endswith((".rt", ".antt")):
                yield os.path.join(top, name)


def spelled(name):
    if name in BY_HAND:
        return BY_HAND[name]
    parts = name.split("-")
    if name[0].isupper():
        return "".join(p[:1].upper() + p[1:] for p in parts)
    return "_".join(parts)


def in_code(path):
    """A path below proofs/F, whose names are mostly goals, or a file of lemmas or definitions."""
    return os.path.basename(path) in ("Answers.antt", "Invariants.antt", "Proof.antt")


def declared():
    names, fields = {}, set()
    for path in texts():
        with open(path, encoding="utf-8") as f:
            text = f.read()
        if path.endswith(".rt"):
            for m in ALIAS.finditer(text):
                names[m.group(1)] = spelled(m.group(1)[:1].lower() + m.group(1)[1:])
            continue
        for line in text.split("\n"):
            m = DECLARED.match(line)
            if not m or m.group(2).startswith("--") or (m.group(3) or "").startswith("goal."):
                continue
            if in_code(path) and m.group(1):
                continue
            names[m.group(2)] = spelled(m.group(2))
            if m.group(1):
                fields.add(m.group(2))
    return names, fields


def turned(path, text, names, fields):
    """The text with the names changed, and the pairs that would fall together; comment lines of code stay."""
    token = re.compile(r"(?<![\w'◌≡≢·-])(\.?)(" + "|".join(re.escape(n) for n in sorted(names, key=len, reverse=True)) + r")(?![\w'◌-])")
    lines, fell = [], set()
    for line in text.split("\n"):
        if path.endswith(".rt") and line.lstrip().startswith("//"):
            lines.append(line)
            continue

        def change(m):
            dot, name = m.groups()
            step = in_code(path) and dot and name not in fields
            return m.group(0) if step else dot + names[name]

        lines.append(token.sub(change, line))
    new = "\n".join(lines)
    for name, other in names.items():
        if re.search(r"(?<![\w'.-])" + re.escape(other) + r"(?![\w'-])", ghost(path, text)) and token.search(text) and other in new and name in text:
            fell.add((name, other))
    return new, fell


def ghost(path, text):
    """What of a text may cite a ghost name: all of a definition file, and the ghost lines and clauses of code."""
    if path.endswith(".antt"):
        return text
    return "\n".join(l for l in text.split("\n") if re.match(r"\s*(ghost|requires|ensures)\b", l))


def main():
    names, fields = declared()
    changed, fell = {}, []
    for path in texts():
        with open(path, encoding="utf-8") as f:
            text = f.read()
        new, two = turned(path, text, names, fields)
        fell += [(path, a, b) for a, b in sorted(two)]
        if new != text:
            changed[path] = new
    if fell and "--anyway" not in sys.argv:
        print("\n".join(f"{p}: {a} would be {b}, which stands there" for p, a, b in fell))
        return 1
    for path, new in changed.items():
        with open(path, "w", encoding="utf-8") as f:
            f.write(new)
    print(f"{len(names)} names, {len(changed)} files")
    return 0


if __name__ == "__main__":
    raise SystemExit(main())
