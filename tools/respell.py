#!/usr/bin/env python3
"""Brings this repository's own names of definitions and lemmas to snake case, in every crate, edit and page.

usage: python3 tools/respell.py [--check]      at the top, once, on what Rattle's port.py made

A name is ours if a file of specs/ or a file that lies directly in proofs/ declares it: a definition, a lemma, a field,
a constructor. `camelCase` and `with-dashes` become `camel_case` and `with_dashes`; a type's name keeps its dash, as in
`Lent-marks`. What Rattle makes of a function's source (the files below proofs/FUNCTION/ name it) stays as it is, and so
does a name that a file takes from a library. Functions, files, exported names and texts in quotes are not touched.
--check writes nothing. Two names of one file that would become one are told.
"""

import os
import re
import sys

WORD = r"[^\s(){}.;,@\"«»]+"
TOKEN = re.compile(WORD)
COMMENT = re.compile(r"(?<![^\s(){}.;,@\"«»])--[^\n]*")
QUOTED = re.compile(r'"(?:[^"\\\n]|\\.)*"')
SPAN = re.compile(r"`[^`\n]+`")
HEAD = re.compile(r"^ *(?:(?:pub|abbrev|unfoldable|pattern) +)*((?:[^\s(){}.;,@\"«»:|↦=]+ )+)(?:\{[^{}\n]*\} )*: ", re.M)
KEYWORDS = {"pub", "abbrev", "unfoldable", "pattern", "data", "record", "let", "use", "mod", "module", "where", "as", "|"}
USE = re.compile(r"\buse ([^\s;{]+?)\.?(\{[^;{}]*\})?(?=[\s;]|$)")
# Where a lemma would get the name of what it is about, it ends in _lem; and two readers of a judgement get names apart
# from the fields of what is measured.
APART = {
    **{
        it: it.replace("-", "_") + "_lem"
        for it in (
            "are-within word-at ones_below keep_all in_order bad-chain bad-step bad-switch good-chains good-steps "
            "good-switches in-chains in-steps in-switches told-if after-of jumped-of"
        ).split()
    },
    "heightIn": "height_of",
    "reachedIn": "reached_of",
    "takenIn": "taken_of",
}
PATH = re.compile(r"Rattle(?:\.[^\s(){}.;,@\"«»]+)+")
CLAUSE = re.compile(r"(?:requires|ensures)\s*\*?\s*(?:\w+\s*)?\{|ghost\s*(?:\w+\s*(?::\s*|=\s*))\{")
GHOST_USE = re.compile(r"ghost\s+use\b[^;]*;")


def snake(name):
    if name[0].isupper() and not re.fullmatch(r"[A-Z0-9-]+", name):
        return name
    words = re.sub(r"(?<=[a-z0-9])[A-Z]", lambda m: "_" + m[0].lower(), name)
    return words.replace("-", "_").replace("′", "'")


def files(*endings):
    for top, folders, names in os.walk("crates"):
        folders[:] = sorted(it for it in folders if it != "out")
        for name in sorted(names):
            if name.endswith(endings):
                yield os.path.join(top, name)


def read(path):
    with open(path, encoding="utf-8") as f:
        return f.read()


def of_function(path):
    """Is this a file of one function's proof, below proofs/FUNCTION/?"""
    steps = path.split("/")
    return len(steps) > 4 and steps[2] == "proofs"


def declared():
    found = {}
    for path in files(".antt"):
        if of_function(path):
            continue
        for heads in HEAD.findall(COMMENT.sub("", read(path))):
            for name in heads.split():
                new = APART.get(name, snake(name))
                if name not in KEYWORDS and new != name and re.match(r"[A-Za-z]", name):
                    found[name] = new
    return found


def theirs(text):
    """The names that a file takes from a library."""
    names = set()
    for path, items in USE.findall(text):
        if not path.startswith("Rattle.") or path.startswith("Rattle.std."):
            names.update(TOKEN.findall(items) if items else path.split(".")[-1:])
    return names


def made(text, path):
    """The names that a file of one function's proof declares or reaches behind Rattle's own records."""
    names = {it for heads in HEAD.findall(text) for it in heads.split()}
    names.update(re.findall(rf"\.({WORD})", text))
    return names


class Turn:
    def __init__(self, table):
        self.table, self.count = table, 0

    def words(self, text, stay, only=None):
        # A part of a path is ours only behind the name of a file.
        paths = {}
        for path in PATH.finditer(text):
            at, above = path.start(), ""
            for step in path[0].split("."):
                paths[at] = above[:1].isupper() and above != "Rattle"
                at, above = at + len(step) + 1, step

        def one(m):
            word = m[0]
            if not paths.get(m.start(), True):
                return word
            if word in self.table and word not in stay and (only is None or only(word)):
                self.count += 1
                return self.table[word]
            return word

        return TOKEN.sub(one, text)

    def comment(self, text, stay):
        text = SPAN.sub(lambda m: "`" + self.words(m[0][1:-1], stay) + "`", text)
        return self.words(text, stay, lambda word: "-" not in word)

    def antt(self, text, stay):
        parts, at = [], 0
        for m in re.finditer(rf"{COMMENT.pattern}|{QUOTED.pattern}", text):
            parts.append(self.words(text[at : m.start()], stay))
            parts.append(m[0] if m[0][0] == '"' else self.comment(m[0], stay))
            at = m.end()
        return "".join(parts) + self.words(text[at:], stay)

    def rt(self, text, stay):
        """Ghost lines and clauses, and the names in comments."""
        parts, at = [], 0
        for m in re.finditer(rf"//[^\n]*|{GHOST_USE.pattern}|{CLAUSE.pattern}", text):
            if m.start() < at:
                continue
            parts.append(text[at : m.start()])
            end = m.end()
            if m[0].startswith("//"):
                parts.append(self.comment(m[0], stay))
            elif m[0].startswith("ghost") and m[0].endswith(";"):
                parts.append(self.words(m[0], stay))
            else:
                depth = 1
                while depth:
                    depth += {"{": 1, "}": -1}.get(text[end], 0)
                    end += 1
                parts.append(self.words(text[m.start() : end], stay))
            at = end
        return "".join(parts) + text[at:]

    def edit(self, text):
        """Comments by their code spans and camel case, and the lines of a .antt file as such."""
        lines, antt = [], False
        for line in text.split("\n"):
            if line.startswith("file:"):
                antt = line.endswith(".antt")
            if line.startswith(("old:", "new:")) and antt:
                line = line[:4] + self.antt(line[4:], set())
            elif line.startswith("#"):
                line = self.comment(line, set())
            lines.append(line)
        return "\n".join(lines)

    def page(self, text):
        return SPAN.sub(lambda m: "`" + self.words(m[0][1:-1], set()) + "`", text)


def together(table, texts):
    """Names of one file that would become one."""
    bad = []
    for path, text in texts.items():
        words = set(TOKEN.findall(QUOTED.sub("", COMMENT.sub("", text))))
        for old in sorted(words & set(table)):
            rivals = [it for it in words if it != old and table.get(it, it) == table[old]]
            if rivals:
                bad.append(f"{path}: {old} and {', '.join(rivals)}")
    return bad


def main():
    table = declared()
    turn = Turn(table)
    new = {}
    texts = {path: read(path) for path in files(".antt", ".rt")}
    for line in together(table, {p: t for p, t in texts.items() if p.endswith(".antt") and not of_function(p)}):
        print("together: " + line)
    for path, text in texts.items():
        stay = theirs(text)
        if of_function(path):
            stay |= made(text, path)
        new[path] = turn.antt(text, stay) if path.endswith(".antt") else turn.rt(text, stay)
    for path in files(".edit"):
        texts[path] = read(path)
        new[path] = turn.edit(texts[path])
    for path in ["README.md"] + [os.path.join("docs", it) for it in sorted(os.listdir("docs"))]:
        if not path.endswith("PORT.md"):
            texts[path] = read(path)
            new[path] = turn.page(texts[path])
    print(f"{len(table)} names, {turn.count} words in {sum(new[p] != texts[p] for p in new)} files")
    if "--check" not in sys.argv:
        for path in new:
            if new[path] != texts[path]:
                with open(path, "w", encoding="utf-8") as f:
                    f.write(new[path])


if __name__ == "__main__":
    main()
