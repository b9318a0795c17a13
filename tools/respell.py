#!/usr/bin/env python3
"""Gives the repository's own definitions and lemmas the spelling of today's Rattle: words in snake case, types in camel case.

usage: tools/respell.py [FOLDER]

Run once at the top of the checkout, after the kit's port.py; DECLARED_IN names the files whose declarations are turned. A name is turned wherever it stands as a word of
its own: in definitions, lemmas and proofs, in clauses of the code and in the edits. Strings, comments (but for what stands in backticks), code and labels that Rattle makes stay.
It says which new names stood in a file already, since there two could fall together."""
import collections
import glob
import os
import re
import sys

DECLARED_IN = ("crates/*/specs/*.antt", "crates/*/proofs/*.antt")
WORD = re.compile(r"[^\s(){}\[\].,;:\"@`]+")

# Names that would fall on another one, or that are types.
CHOSEN = {
    "bits-of": "bits_of_is",
    "put-all": "put_all_written",
    "node-of": "counted_node",
    "rulesOf": "how_many_rules",
    "ruleCount": "rules_of_book",
    "with-node": "with_node_at",
    "mark-nodes": "nodes_of_mark",
    "Known-arities": "KnownArities",
}


def snake(name):
    name = re.sub(r"([a-z0-9])([A-Z])", r"\1_\2", name)
    return name.replace("-", "_").lower()


def declared(text):
    for line in text.split("\n"):
        if line.lstrip().startswith("--"):
            continue
        m = re.match(r"^\s*(?:(?:abbrev|pub|unfoldable|data|record|let)\s+)*((?:[^\s(){}\[\].,;:\"@]+\s+)*[^\s(){}\[\].,;:\"@]+)\s*:(?:\s|$)", line)
        if m:
            yield from m[1].split()
        m = re.match(r"^\s*(?:(?:pub|unfoldable|abbrev)\s+)*(?:data|record)\s+([^\s(){}\[\].,;:\"@]+)", line)
        if m:
            yield m[1]


def names(root):
    want = {}
    for pattern in DECLARED_IN:
        for path in sorted(glob.glob(os.path.join(root, pattern))):
            with open(path, encoding="utf-8") as f:
                for name in declared(f.read()):
                    if name in CHOSEN:
                        want[name] = CHOSEN[name]
                    elif re.fullmatch(r"[A-Z][A-Za-z0-9]*[*'?]*", name):
                        continue
                    elif "-" in name.strip("-") or re.search(r"[a-z][A-Z]", name):
                        if snake(name) != name:
                            want[name] = snake(name)
    return want


def turned(text, want, comment):
    """The text with each word of want turned; of a comment only what stands in backticks."""
    out = []
    for line in text.split("\n"):
        i = len(line)
        m = re.search(comment, line)
        if m:
            i = m.start()
        code = WORD.sub(lambda w: want.get(w[0], w[0]), line[:i])
        note = re.sub(r"`[^`]*`", lambda q: WORD.sub(lambda w: want.get(w[0], w[0]), q[0]), line[i:])
        out.append(code + note)
    return "\n".join(out)


def main(root):
    want = names(root)
    fell = collections.defaultdict(list)
    for path in sorted(glob.glob(os.path.join(root, "crates/*/**/*.*"), recursive=True)):
        kind = path.rsplit(".", 1)[1]
        if kind not in ("antt", "rt", "edit") or "/out/" in path:
            continue
        with open(path, encoding="utf-8") as f:
            text = f.read()
        words = set(WORD.findall(text))
        for name in want:
            if name in words and want[name] in words:
                fell[path].append(name)
        new = turned(text, want, {"antt": r"(^|\s)--(\s|$)", "rt": r"//", "edit": r"^#"}[kind])
        if new != text:
            with open(path, "w", encoding="utf-8") as f:
                f.write(new)
    print(f"{len(want)} names")
    for path, list_ in fell.items():
        print("look:", os.path.relpath(path, root), *list_)


if __name__ == "__main__":
    main(sys.argv[1] if len(sys.argv) > 1 else ".")
