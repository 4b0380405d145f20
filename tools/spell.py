#!/usr/bin/env python3
"""Brings the repository's own definitions and lemmas to today's spelling. Run once, at the top, right after the toolchain's port.py.

usage: python3 tools/spell.py [--map FILE]

- A word written with a capital inside, as `planBytes`, becomes `plan_bytes`. Types, modules and variants begin with a capital and stay.
- A dash joins names, and stays: the lemmas' names keep theirs.
- Where the new name is that of a lemma, the lemma, which port.py turned from `all-left` to `all_left`, gets its dash back. Where it is
  the name of a function, module or field of the Rust code, both have it: clauses and code do not see each other's names. Any other two
  names that would fall together stop the script before anything is written.

It turns .rt and .antt files of crates/ (in Rust code, strings and plain comments nothing), must-fail edits, and, in backticks, the pages.
Proof.antt files are turned too, but what they alone declare keeps its name. --map writes the renamings, a line each.
"""
import glob
import os
import re
import sys

WORD = re.compile(r"[^\s(){}\[\],;.«»\"`]+")

def texts():
    for kind in ("antt", "rt", "edit"):
        for path in sorted(glob.glob(f"crates/**/*.{kind}", recursive=True)):
            if "/out/" not in path:
                yield path
    yield from sorted(glob.glob("edits/**/*.edit", recursive=True))
    yield from sorted(glob.glob("oracle/**/*.edit", recursive=True))


def pages():
    yield from sorted(glob.glob("*.md") + glob.glob("docs/**/*.md", recursive=True) + glob.glob("oracle/**/*.md", recursive=True))
    yield from sorted(glob.glob("hosts/**/*.md", recursive=True) + glob.glob("bench/**/*.md", recursive=True))


def read(path):
    with open(path, encoding="utf-8") as file:
        return file.read()


def snake(name):
    """camelCase words of a name in snake case; a part that begins with a capital is a type's and stays."""
    parts = name.split("-")
    for i, part in enumerate(parts):
        if part[:1].islower() or part[:1] == "◌":
            part = re.sub(r"(?<=[a-z0-9₀-₉])([A-Z]+)(?=[A-Z][a-z])", lambda m: "_" + m[1].lower(), part)
            parts[i] = re.sub(r"(?<=[a-z0-9₀-₉])([A-Z]+)", lambda m: "_" + m[1].lower(), part)
    return "-".join(parts)


def code_of(line, kind):
    """The line's part before a comment."""
    mark = {"antt": "--", "rt": "//"}.get(kind)
    if mark == "--":
        at = re.search(r"(^|\s)--(\s|$)", line)
        return line[: at.start()] if at else line
    if mark == "//":
        at = line.find("//")
        return line[:at] if at >= 0 else line
    return line


def all_words():
    """Every word of the .antt files and of the clauses of .rt files, with the lines that have it."""
    words = {}
    for path in texts():
        kind = path.rsplit(".", 1)[1]
        if kind == "edit":
            continue
        for line in read(path).splitlines():
            for word in set(WORD.findall(re.sub(r'"(?:[^"\\]|\\.)*"', "", code_of(line, kind)))):
                words.setdefault(word, []).append((path, line))
    return words


def rust_words():
    """Every word of Rust code: what stands in .rt files outside clauses and `ghost use` lines, as far as a line tells."""
    words = set()
    for path in texts():
        if path.endswith(".rt"):
            for line in read(path).splitlines():
                if not line.startswith("ghost use"):
                    words.update(re.findall(r"\w+", code_of(line, "rt")))
    return words


def renamings():
    words, rust = all_words(), rust_words()
    made, clashes = {}, []
    for word in sorted(words):
        if re.match(r"[a-z◌]", word) and re.search(r"[a-z0-9][A-Z]", word) and re.fullmatch(r"[\w◌'-]+", word):
            made[word] = snake(word)
    for old, new in sorted(made.items()):
        if new in words and new not in rust:
            dashed = new.replace("_", "-")
            if dashed in words or dashed == new:
                clashes.append((old, new))
            made[new] = dashed
    together = {}
    for old, new in made.items():
        together.setdefault(new, []).append(old)
    return made, clashes + [(" and ".join(olds), new) for new, olds in together.items() if len(olds) > 1]


def turn_line(line, kind, made):
    if kind == "edit":
        head = re.match(r"(old:|new:)", line)
        return WORD.sub(lambda m: made.get(m[0], m[0]), line) if head else in_ticks(line, made)
    code = code_of(line, kind)
    out, at = "", 0
    for text in re.finditer(r'"(?:[^"\\]|\\.)*"', code):
        out += WORD.sub(lambda m: made.get(m[0], m[0]), code[at : text.start()]) + text[0]
        at = text.end()
    out += WORD.sub(lambda m: made.get(m[0], m[0]), code[at:])
    return out + in_ticks(line[len(code) :], made)


def in_ticks(text, made):
    return re.sub(r"`[^`]*`", lambda m: WORD.sub(lambda w: made.get(w[0], w[0]), m[0]), text)


def main(argv):
    made, clashes = renamings()
    if argv[:1] == ["--map"]:
        with open(argv[1], "w", encoding="utf-8") as file:
            file.writelines(f"{old}\t{new}\n" for old, new in sorted(made.items()))
    for old, new in clashes:
        print(f"spell: {old} would be {new}")
    if clashes or argv[2:] == ["--only"]:
        print(f"spell: {len(made)} names, {len(clashes)} clashes; nothing written")
        return 1
    changed = 0
    for path in list(texts()) + list(pages()):
        kind = path.rsplit(".", 1)[1]
        old = read(path)
        if kind == "md":
            new = in_ticks(old, made)
        else:
            new = "".join(turn_line(line, kind, made) for line in old.splitlines(keepends=True))
        if new != old:
            changed += 1
            with open(path, "w", encoding="utf-8") as file:
                file.write(new)
    print(f"spell: {len(made)} names, {changed} files")
    return 0


if __name__ == "__main__":
    raise SystemExit(main(sys.argv[1:]))
