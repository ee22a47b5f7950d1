#!/usr/bin/env python3
"""Brings the names that this repository defines in specs/ and proofs/ to snake case, and to camel case where they name types.

    tools/respell.py [FOLDER]        the repository; default: the one that this file is in
    tools/respell.py --names         prints each name and what it becomes, and writes nothing

Run once, right after the kit's port.py. A name is turned wherever it stands as a whole word in a .antt file, in a clause or a ghost
item of a .rt file, and in a code span of a page. It stays where the file imports the same word from the library, and where Rattle
makes it: the goals of a function, and what a derive declares. Names that would fall together are listed, and nothing is written.
"""
import re
import sys
from pathlib import Path

WORD = r"[^\s(){}.;,@\"«»]+"
QUIET = re.compile(r'"(?:[^"\\\n]|\\.)*"|(?<![^\s(){}.;,@"«»])--[^\n]*|\{-.*?-\}', re.S)
DECLARED = re.compile(
    rf"(?m)^ *(?:(?:abbrev|unfoldable|pub|mutual|opaque|data|record|ruleset|module|mod|where|let|in) +)*({WORD})(?=(?: *(?:\{{[^{{}}\n]*\}}|\([^()\n]*\)))* (?::(?! *tie\.Need-|\S)|=(?!\S)|where|deriving))"
)
FIELD = re.compile(rf"(?m)(?:record \{{|^|;)\s*(?:pub )?({WORD}) : ")
# Constructors or fields of one type, in a line.
LISTED = re.compile(rf"(?m)^ +((?:{WORD} )+{WORD}) : (?=[A-Z])")
USE = re.compile(r"(?m)\buse ([^\s;{]+)(?:\{([^}]*)\})?")
CLAUSE = re.compile(r"ghost\s+use\b[^;]*;|(?:requires|ensures)\s*\*?\s*(?:\w+\s*)?\{|ghost\s+\w+\s*:?\s*\{|ghost\s*\{")
# Made by `deriving`, and words that hold no name of a definition.
MADE = {"Term-discrete", "->", "-"}


def turned(name):
    """The name as the library spells it."""
    if not re.search(r"\w-|-\w", name):
        return name
    head = name.split("-")[0]
    if head[:1].isupper() and not head.isupper():
        return "".join(part[:1].upper() + part[1:] for part in name.split("-"))
    return name.replace("-", "_")


def is_goal_file(path):
    return path.name in ("Answers.antt", "Invariants.antt")


def files(root, *kinds):
    for path in sorted((root / "crates").rglob("*")):
        if path.suffix in kinds and "out" not in path.relative_to(root).parts:
            yield path


def blocks(text):
    """The spans of a .rt file's clauses and ghost items."""
    for m in CLAUSE.finditer(text):
        if text[m.end() - 1] == ";":
            yield m.start(), m.end()
            continue
        depth, at = 1, m.end()
        while depth and at < len(text):
            depth += {"{": 1, "}": -1}.get(text[at], 0)
            at += 1
        yield m.end(), at


def declared(root):
    names, goals, lemmas = set(), set(), set()
    for path in files(root, ".antt"):
        text = QUIET.sub(" ", path.read_text())
        lemmas |= set(DECLARED.findall(text)) if "Proof" not in path.parts and path.name != "Proof.antt" else set()
        goals.update(re.findall(rf"(?m)^ *(?:pub )?({WORD}) : (?:tie|goal)\.", text))
        names.update(DECLARED.findall(text))
        names.update(FIELD.findall(text))
        names.update(name for line in LISTED.findall(text) if "=" not in line for name in line.split())
    return {n for n in names if turned(n) != n and "◌" not in n} - MADE, goals - lemmas


def theirs(code):
    """The words that a file imports from the library."""
    words = set()
    for path, items in USE.findall(code):
        own = re.match(r"Rattle[.·](\w+)", path)
        if own and own[1] in CRATES:
            continue
        words.update(re.findall(WORD, items))
    return words


CRATES = set()


def main(argv):
    root = Path(argv[0]) if argv and argv[0][0] != "-" else Path(__file__).resolve().parent.parent
    CRATES.update(p.name for p in (root / "crates").iterdir() if p.is_dir())
    names, goals = declared(root)
    table = {n: turned(n) for n in sorted(names - goals)}
    everything = set()
    for path in files(root, ".antt"):
        text = QUIET.sub(" ", path.read_text())
        everything.update(DECLARED.findall(text))
        everything.update(FIELD.findall(text))
    together = {}
    for old, new in table.items():
        together.setdefault(new, set()).add(old)
        if new in everything:
            together[new].add(new)
    clashes = {new: olds for new, olds in together.items() if len(olds) > 1}
    if "--names" in argv:
        for old, new in table.items():
            print(old, new)
        print("goals that are declared elsewhere:", sorted(names & goals), file=sys.stderr)
        print("falling together:", clashes, file=sys.stderr)
        return 0
    table = {old: new for old, new in table.items() if new not in clashes}
    if clashes:
        print("falling together, and left as they are:", clashes, file=sys.stderr)
    word = re.compile(rf"(?<![^\s(){{}}.;,@\"«»]){WORD}")

    def turn(text, kept):
        return word.sub(lambda m: table.get(m[0], m[0]) if m[0] not in kept else m[0], text)

    count = 0
    for path in files(root, ".antt"):
        text = path.read_text()
        kept = theirs(QUIET.sub(" ", text))
        new = turn(text, kept)
        if new != text:
            path.write_text(new)
            count += 1
    for path in files(root, ".rt"):
        text = path.read_text()
        kept = theirs(text)
        out, at = [], 0
        for start, end in blocks(text):
            if start < at:
                continue
            out += [text[at:start], turn(text[start:end], kept)]
            at = end
        new = "".join(out) + text[at:]
        if new != text:
            path.write_text(new)
            count += 1
    for path in [root / "README.md", *sorted((root / "docs").rglob("*.md"))]:
        text = path.read_text()
        new = re.sub(r"`[^`\n]+`", lambda m: "`" + turn(m[0][1:-1], set()) + "`", text)
        if new != text:
            path.write_text(new)
            count += 1
    print(f"{len(table)} names, {count} files")
    return 0


if __name__ == "__main__":
    sys.exit(main(sys.argv[1:]))
