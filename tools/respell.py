#!/usr/bin/env python3
"""respell: brings the names of this repository's own definitions, lemmas, fields and variables to snake case, as the kit spells its own.

usage: python3 tools/respell.py      at the top of the repository, once, after the kit's own scripts have turned the files

Words in camel case that begin with a small letter, and words with dashes, become words with underscores. Names of the kit's library, which
`use` lines bring in, keep theirs, and so do names that begin with a capital letter. Where a lemma would get the name of something else, it
gets `_lem` behind it; so does a word with underscores whose file has the other one too (APART). In comments and pages a word with dashes is a name only between backticks.
It goes by text alone, and prints each name that it had to set apart.
"""

import os
import re

# lemmas and variables, in a file beside a definition that would get the same name
# a module's short name, which a theorem would get
OTHER = {"inOrder": "ordering"}
APART = "after_line at_stage goes_on hands_on in_cell is_digit known_from no_access no_number one_number opened_rows takes_none".split()

WORD = re.compile(r"(?<![\w'◌⊎-])[A-Za-z_][A-Za-z0-9_']*(?:-[A-Za-z0-9_'][A-Za-z0-9_']*)*(?![\w◌])")
USES = re.compile(r"^[ \t]*(?:pub )?(?:ghost )?use ([\w.'-]+?)\.\{([^}]*)\}", re.M)
PIECES = re.compile(r'"(?:\\.|[^"\\\n])*"|--.*|//.*')


def files(*endings):
    for top, folders, names in os.walk("crates"):
        folders[:] = sorted(f for f in folders if f != "out")
        for name in sorted(names):
            if name.endswith(endings):
                yield os.path.join(top, name)


def text_of(path):
    with open(path, encoding="utf-8") as f:
        return f.read()


def bare(text):
    """Without strings and comments."""
    return PIECES.sub(lambda m: '""' if m[0][0] == '"' else "", text)


def by_hand(path):
    """A file that walks the code by hand, whose steps the kit names."""
    return os.path.basename(path) in ("Proof.antt", "Answers.antt", "Invariants.antt")


def snake(word):
    word = re.sub(r"([a-z0-9_])([A-Z])", lambda m: m[1].rstrip("_") + "_" + m[2].lower(), word.replace("-", "_"))
    return word


def is_camel(word):
    return word[0].islower() and re.search("[A-Z]", word) is not None


def names():
    """From each name to its new one."""
    crates = set(os.listdir("crates"))
    library, seen, code = set(), set(), set()
    for path in files(".antt", ".rt"):
        text = bare(text_of(path))
        for use in USES.finditer(text):
            parts = use[1].split(".")
            if parts[0] != "Rattle" or len(parts) < 2 or parts[1] not in crates:
                library |= {w.split(" as ")[0].strip() for w in use[2].split(",")}
        words = {m[0] for m in WORD.finditer(text)}
        if path.endswith(".rt"):
            code |= words
        elif by_hand(path):
            code |= {w for w in words if "-" not in w}
        else:
            seen |= words
    seen |= {w for w in code if is_camel(w)}
    taken = {snake(w) for w in seen | code if "-" not in w}
    new = {}
    for word in sorted(seen):
        if word in library or not word[0].islower() or not ("-" in word or is_camel(word)):
            continue
        to = OTHER.get(word, snake(word))
        if "-" in word and to in taken:
            to += "_lem"
            print(f"set apart: {word} is {to}")
        new[word] = to
    for word in APART:
        new[word] = word + "_lem"
        print(f"set apart: {word} is {new[word]}")
    return new


def turned(text, new, path):
    brought = {w.strip() for use in USES.finditer(text) for w in use[2].split(",")}

    def word(m, text, dashes):
        w = m[0]
        if w not in new or ("-" in w and not dashes):
            return w
        if w in APART and (not path.endswith(".antt") or by_hand(path) and w not in brought):
            return w
        # a field of what the kit writes
        if not is_camel(w) and by_hand(path) and re.search(r"(?<![\w'-])[a-z][\w'-]*(?:\.[\w'-]+)*\.$", text[: m.start()]):
            return w
        return new[w]

    def words(piece, dashes):
        return WORD.sub(lambda m: word(m, piece, dashes), piece)

    def comment(piece):
        return "`".join(words(p, i % 2 == 1) for i, p in enumerate(piece.split("`")))

    if path.endswith((".md", ".h")):
        return "`".join(words(p, True) if i % 2 else p for i, p in enumerate(text.split("`")))
    if path.endswith(".edit"):
        lines = text.split("\n")
        return "\n".join(words(line, True) if re.match(r"(old|new|# because):", line) else comment(line) for line in lines)
    out, at = [], 0
    for m in PIECES.finditer(text):
        out += [words(text[at : m.start()], not path.endswith(".rt")), m[0] if m[0][0] == '"' else comment(m[0])]
        at = m.end()
    out.append(words(text[at:], not path.endswith(".rt")))
    return "".join(out)


def main():
    new = names()
    pages = ["README.md"] + sorted(os.path.join("docs", f) for f in os.listdir("docs") if f.endswith(".md") and not f.startswith("PORT"))
    changed = 0
    for path in [*files(".antt", ".rt", ".edit"), *pages]:
        old = text_of(path)
        text = turned(old, new, path)
        if text != old:
            changed += 1
            with open(path, "w", encoding="utf-8") as f:
                f.write(text)
    print(f"{len(new)} names, {changed} files")


main()
