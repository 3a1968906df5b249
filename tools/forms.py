#!/usr/bin/env python3
"""Prints where the sources have the older forms that docs/DESIGN-PASS.md counts, a line a place.

    python3 tools/forms.py [FOLDER] [--point N] [--counts]

FOLDER is a checkout, this one if none is given. --counts prints numbers alone. Points 1 to 7 are those of the page.
"""
import collections
import pathlib
import re
import sys

ARGS = sys.argv[1:]
COUNTS = "--counts" in ARGS
ONLY = ARGS[ARGS.index("--point") + 1] if "--point" in ARGS else None
PLACES = [a for i, a in enumerate(ARGS) if not a.startswith("--") and (i == 0 or ARGS[i - 1] != "--point")]
TOP = pathlib.Path(PLACES[0]) if PLACES else pathlib.Path(__file__).resolve().parent.parent

FN = re.compile(r"^( *)(?:#\[.*\]\n *)?(?:pub(?:\(crate\))? )?(?:const )?(?:extern \"C\" )?fn (\w+)", re.M)


class Function:
    def __init__(self, file, name, line, text):
        self.file, self.name, self.line, self.text = file, name, line, text
        head, _, body = text.partition("\n{\n") if "\n{\n" in text else text.partition(" {\n")
        self.head, self.body = head, body
        inside = re.search(r"\((.*?)\)(?: ->|\n|$)", head, re.S)
        self.parameters = re.findall(r"(\w+):", inside.group(1)) if inside else []
        self.facts = []
        for clause in re.findall(r"requires(?: \w+)? \{(.*?)\}\n", head + "\n", re.S):
            for fact in re.split(r"×", clause):
                fact = " ".join(fact.split()).strip("() ")
                if fact:
                    self.facts.append(fact)


def sources():
    for file in sorted(TOP.glob("crates/*/src/**/*.rt")):
        yield file.relative_to(TOP / "crates"), file.read_text()


def functions():
    for file, text in sources():
        starts = [m for m in FN.finditer(text)]
        for m in starts:
            indent = m.group(1)
            end = re.compile(r"^" + indent + r"\}$", re.M).search(text, m.end())
            body = text[m.start():end.end() if end else len(text)]
            yield Function(file, m.group(2), text.count("\n", 0, m.start()) + 1, body)


def grep(pattern):
    for file, text in sources():
        for n, line in enumerate(text.split("\n"), 1):
            if not line.lstrip().startswith("//") and re.search(pattern, line):
                yield f"{file}:{n}: {line.strip()}"


def enums():
    for file, text in sources():
        for m in re.finditer(r"^(?:pub )?enum (\w+) \{\n(.*?)^\}", text, re.M | re.S):
            variants = [v.strip().rstrip(",") for v in m.group(2).split("\n") if v.strip() and not v.strip().startswith("//")]
            bare = [v for v in variants if "(" not in v]
            refusal = [v for v in variants if re.search(r"\(Refusal\)|\(EventEnd\)", v)]
            full = [v for v in variants if "(" in v and v not in refusal]
            # one good value and nothing or a refusal beside it
            if len(variants) <= 3 and (len(full) == 1 and len(bare) + len(refusal) >= 1 or not full and len(refusal) == 1):
                yield f"{file}: enum {m.group(1)} {{ {', '.join(variants)} }}"
            elif any(re.match(r"(Broken|Other|Refused)\b", v) for v in variants):
                yield f"{file}: enum {m.group(1)}, of whose variants one says that there is none"


def twins():
    groups = collections.defaultdict(list)
    for f in functions():
        plain = re.sub(r"//.*", "", f.text)
        # where an extern function has no body that counts, its text is its call
        body = plain[plain.find("{\n"):] if "\n{\n" not in plain else plain.split("\n{\n", 1)[1]
        body = re.sub(r"\b\d+(?:usize|u8|u16|u32|u64)?\b", "N", body)
        body = re.sub(r"\b(?:u8|u16|u32|u64|usize)\b", "NUMBER", body)
        body = re.sub(r"_(?:whole|part|block|inside|edge)\b", "", body)
        body = re.sub(r"\b[A-Z][A-Z_]+\b", "CONSTANT", body)
        body = " ".join(body.split())
        if len(body) > 30:
            groups[body].append(f)
    for g in groups.values():
        if len(g) > 1:
            yield ", ".join(f"{f.file}: {f.name}" for f in g)


def repeated_facts():
    by = collections.defaultdict(list)
    for f in functions():
        crate = f.file.parts[0]
        for fact in set(f.facts):
            by[crate, fact].append(f)
    for (crate, fact), fs in sorted(by.items(), key=lambda x: -len(x[1])):
        if len(fs) >= 3:
            yield f"{crate}: {len(fs)} contracts: {fact}"


def parameter_groups():
    by = collections.defaultdict(set)
    for f in functions():
        crate, p = f.file.parts[0], f.parameters
        for width in range(3, 7):
            for i in range(len(p) - width + 1):
                by[crate, tuple(p[i:i + width])].add((f.file, f.name))
    long = {k: v for k, v in by.items() if len(v) >= 3}
    for (crate, names), fs in sorted(long.items(), key=lambda x: (x[0][0], -len(x[0][1]))):
        # only the longest run of the same functions
        if not any(c == crate and len(n) > len(names) and " ".join(names) in " ".join(n) and len(v) >= len(fs) for (c, n), v in long.items()):
            yield f"{crate}: {len(fs)} functions: {', '.join(names)}"


POINTS = {
    "1 enums shaped like Option or Result": enums,
    "1 a flag with values beside it": lambda: grep(r"^ +pub \w+: bool,"),
    "1 numbers for kinds": lambda: grep(r"^ +(?:pub )?(?:kind|what|which|stage|step|tag): u8\b|\b(?:kind|what|which|stage|step): u8[,)]|^(?:pub |pub\(crate\) )?const [A-Z_]+: u8 "),
    "1 numbers for 'none'": lambda: grep(r"return 0;|return at;|return 4294967296;|Ok\(4294967296\)|\[4294967296u64; 6\]|^16$"),
    "1 numbers of refusals": lambda: grep(r"Refusal::\w+ => \d+"),
    "2 functions alike but for a number, a type or a constant": twins,
    "3 loops by while": lambda: grep(r"^\s*while "),
    "3 loops over a range": lambda: grep(r"^\s*for \w+ in [^{]*\.\."),
    "4 numbers from and to bytes by hand": lambda: grep(r"/ 256\b|\* 256\b|% 256\b|\* 65536\b"),
    "4 widening by a function": lambda: grep(r"^\s*(?:pub )?fn wide\w*\("),
    "4 order and equality by hand": lambda: grep(r"\.below\(|\bsame_\w+\(|\bfn (?:below|least|larger)\b|\bleast\("),
    "5 facts in three contracts or more": repeated_facts,
    "5 parameters that travel together": parameter_groups,
    "6 arrays with a length or a place beside them": lambda: grep(r"\b(?:used|count|listed|at): usize\b.*"),
    "7 a switch on which step to run": lambda: grep(r"\b(?:p\.step|kind|tag|what|h\.kind|x\.stage|y\.stage|stage) (?:==|!=|<|<=) |match (?:kind|which|what|name)\b"),
}


def main():
    for name, places in POINTS.items():
        if ONLY and not name.startswith(ONLY):
            continue
        found = list(places())
        print(f"{name}: {len(found)}")
        if not COUNTS:
            for p in found:
                print("   ", p)


main()
