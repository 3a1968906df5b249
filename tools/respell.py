#!/usr/bin/env python3
"""Respells the repository's own definitions and lemmas as today's Rattle spells them.

usage: python3 tools/respell.py [--check]        at the top of the repository, once, right after the kit's port.py

A definition, lemma, field or constructor is in snake case: readPointer is read_pointer, pick-told is pick_told. A dash stays
where each of its sides is a definition's name, as in length-tabulate. Types and modules keep their capitals.
A name that the library has too stays. Words turn in .antt files, in .rt files, and in the code spans of pages.
What two names would share stops the script before anything is written. --check writes nothing and prints the table.
"""

import collections
import os
import re
import sys

WORD = r'[^\s(){}.;,@"«»`]+'
DECLARED = re.compile(r"^(\s*)((?:pub |abbrev |unfoldable )*)(%s)(?: \{[^}]*\})* :(?: |$)" % WORD)
SEVERAL = re.compile(r"^(\s*)((?:pub |abbrev |unfoldable )*)(%s(?: %s)+) : " % (WORD, WORD))
BOUND = re.compile(r"\blet (%s) [:=]" % WORD)
USE = re.compile(r"\b(?:ghost )?(?:pub )?use ([\w.+◌-]+)\.\{([^}]*)\}", re.S)
NOT_NAMES = {"data", "record", "module", "use", "let", "pub", "abbrev", "unfoldable", "mod", "in"}
# the library's words that stand in names with a dash
LIBRARY = set("length take drop set append replicate map concat get_or paste reverse cond filter sum bit_xor bit_and bit_or".split())
# what the kit's script made of the old library's getD
FIRST = [("getD-", "get_or-"), ("get_d_", "get_or-")]


def files(ending):
    for folder, dirs, names in os.walk("crates"):
        dirs[:] = sorted(d for d in dirs if d != "out")
        for name in sorted(names):
            if name.endswith(ending):
                yield os.path.join(folder, name)


def pages():
    yield "README.md"
    for top in ("docs", "bench"):
        for folder, dirs, names in os.walk(top):
            dirs[:] = sorted(d for d in dirs if d not in ("target", "out"))
            yield from (os.path.join(folder, n) for n in sorted(names) if n.endswith(".md") and n != "PORT.md")


def text_of(path):
    with open(path, encoding="utf-8") as f:
        return f.read()


def snake(part):
    return re.sub(r"(?<=[a-z0-9])([A-Z])", lambda m: "_" + m[1].lower(), part)


def declared():
    """The names that the repository declares, those of specs/ as they stand, and the definitions of specs/ as they will be."""
    names, stated, defined = set(), set(), set()
    for path in files(".antt"):
        if path.endswith("/Proof.antt"):
            continue
        for line in text_of(path).split("\n"):
            if line.lstrip().startswith("--"):
                continue
            it = DECLARED.match(line) or SEVERAL.match(line)
            if it and it[3].split()[0] not in NOT_NAMES:
                names |= set(it[3].split())
                if "/specs/" in path:
                    stated |= set(it[3].split())
                    defined |= {snake(n) for n in it[3].split() if "-" not in n}
            names |= set(BOUND.findall(line))
    return names, stated, defined


def foreign(own):
    """The names that some file imports from a library that is not the repository's."""
    found = set()
    for path in list(files(".antt")) + list(files(".rt")):
        for module, items in USE.findall(text_of(path)):
            if not any(module == f"Rattle.{c}" or module.startswith(f"Rattle.{c}.") for c in own):
                for item in items.split(","):
                    found.add(item.strip().split(" as ")[0])
    return found


def table():
    names, stated, defined = declared()
    kept = foreign(sorted(os.listdir("crates")))
    rows = {}
    fell = {n for n in names - stated if any(snake(m) == n for m in names if m != n and "-" not in m)}
    for name in sorted(names - kept):
        if name in fell:
            rows[name] = name + "_lem"
            continue
        if name[0].isupper() or not re.search(r"[a-z0-9][A-Z]|\w-\w", name) and not name.startswith("get_d_"):
            continue
        new = name
        for old, by in FIRST:
            if new.startswith(old):
                new = by + new[len(old) :]
        parts = [snake(p) for p in new.split("-")]
        new = ("-" if all(p in defined | LIBRARY for p in parts) else "_").join(parts)
        if new != name:
            rows[name] = new
    taken = names | {new for name, new in rows.items() if "-" not in name}
    for name, new in rows.items():
        if "-" in name and new in taken:
            rows[name] = new + "_lem"
    return rows, kept


def words_of(code):
    return set(re.findall(WORD, code))


def split_comment(line, mark):
    """The code of a line and its comment."""
    at = re.search(r'(?:^|(?<=[\s]))%s.*$' % re.escape(mark), line)
    return (line[: at.start()], line[at.start() :]) if at else (line, "")


def spans(text, rows):
    return re.sub(r"`[^`\n]+`", lambda m: respell_span(m[0], rows), text)


def respell_span(span, rows):
    return re.sub(r"(?<![\w/.-])[^\s(){}.;,@\"«»`/:]+(?![\w/-])", lambda m: rows.get(m[0], m[0]), span)


def respell_code(code, rows):
    """A lemma's name that the kit's script made a definition's turns only where it stands alone: behind a dot it is a function's."""

    def by(m):
        new = rows.get(m[0], m[0])
        return m[0] if "_lem" in new and "-" not in m[0] and code[m.start() - 1 : m.start()] == "." else new

    return re.sub(WORD, by, code)


def turned(path, text, rows):
    if path.endswith(".md"):
        return spans(text, rows)
    mark = "--" if path.endswith(".antt") else "//"
    out = []
    if path.endswith(".rt"):
        rows = {old: new for old, new in rows.items() if "_lem" not in new or "-" in old}
    for line in text.split("\n"):
        code, comment = split_comment(line, mark)
        out.append(respell_code(code, rows) + spans(comment, rows))
    return "\n".join(out)


def shared(path, text, rows):
    """Names of one file that would fall together. A function of src/ may share a definition's name, a parameter may not."""
    mark = "--" if path.endswith(".antt") else "//"
    code = "\n".join(split_comment(line, mark)[0] for line in text.split("\n"))
    by_new = collections.defaultdict(set)
    for word in words_of(code):
        if path.endswith(".rt"):
            stands = word in rows or re.search(r"(?:[(,]|\blet(?: mut)?) *%s *:" % re.escape(word), code)
        else:
            stands = re.search(r"(?<![\w.'-])%s(?![\w.'-])" % re.escape(word), code)
        if stands:
            by_new[rows.get(word, word)].add(word)
    return [(new, sorted(old)) for new, old in sorted(by_new.items()) if len(old) > 1]


def main(argv):
    rows, kept = table()
    by_new = collections.defaultdict(list)
    for old, new in rows.items():
        by_new[new].append(old)
    together = 0
    for path in list(files(".antt")) + list(files(".rt")):
        for new, old in shared(path, text_of(path), rows):
            print(f"shared: {path}: {new}: {' '.join(old)}")
            together += 1
    if argv == ["--check"]:
        for old, new in rows.items():
            print(f"{old}\t{new}")
        return 0
    if together:
        print(f"respell: {together} names would fall together; nothing was written")
        return 1
    count = 0
    for path in list(files(".antt")) + list(files(".rt")) + list(pages()):
        text = text_of(path)
        new = turned(path, text, rows)
        if new != text:
            with open(path, "w", encoding="utf-8") as f:
                f.write(new)
            count += 1
    print(f"respell: {len(rows)} names, {count} files")
    return 0


if __name__ == "__main__":
    raise SystemExit(main(sys.argv[1:]))
