#!/usr/bin/env python3
"""Brings the repository's own definitions and lemmas to today's spelling: `dayNumber` and `day-number` become `day_number`.

usage: python3 tools/respell.py     at the top of the repository, once, after the kit's port.py

The names are those that the files of specs/ and of proofs/ declare: definitions, lemmas, fields and constructors. Types, facts and modules keep their
camel case. A name turns as a whole word: in specs/ and proofs/, in src/ (where only clauses have such names), in the must-fail edits, and in the pages.
Functions of src/, C names, strings, inputs and outputs have no name of this kind. The script stops, and writes nothing, where two names would fall together
in one file. A lemma that would have a definition's name gets `_lem`; a file that imports a name of the kit's library keeps that name.
"""
import collections
import glob
import re
import sys

WORD = r"[^\s(){}.;,@\"«»:`\[\]|/⟦⟧]+"
# What a file declares: at the margin, or as a field or a constructor below one.
DECLARED = re.compile(rf"(?m)^(?:(?:abbrev|unfoldable|pub)\s+)*({WORD})\s*:(?=\s|$)")
BELOW = re.compile(rf"(?m)^\s+pub ({WORD})\s*:(?=\s|$)")
CASES = re.compile(r"(?ms)^(?:pub )?data .*?where\n((?:[ \t]+.*\n|\n)*)")
CASE = re.compile(rf"(?m)^\s+(?:pub )?({WORD})\s*:(?=\s|$)")
IMPORTS = re.compile(r"(?s)(?m:^)(?:ghost )?use ([^\s{};]+)\.\{([^}]*)\}")
# Neither a spelling of Rattle's own nor a word of prose: these turn in code alone.
PAGES = ["README.md", "docs/*.md", "second/README.md"]


def new(name):
    """The name in snake case. A capital begins a word, and so does what stands behind a dash."""
    if not name[:1].islower():
        return name
    return re.sub(r"(?<=[a-z0-9])(?=[A-Z])", "_", name).replace("-", "_").lower()


def bare(text):
    """The text without comments and strings."""
    return re.sub(r'"(?:[^"\\\n]|\\.)*"|(?m:--.*$)', " ", text)


def read(path):
    with open(path, encoding="utf-8") as f:
        return f.read()


def main():
    antt = sorted(glob.glob("crates/*/specs/**/*.antt", recursive=True) + glob.glob("crates/*/proofs/**/*.antt", recursive=True))
    declaring = [p for p in antt if re.fullmatch(r"crates/\w+/(specs|proofs)/\w+\.antt", p)]
    names, of = {}, {}
    for path in declaring:
        text = bare(read(path))
        found = set(DECLARED.findall(text)) | set(BELOW.findall(text))
        for body in CASES.findall(text):
            found |= set(CASE.findall(body))
        of[path] = found
        names.update((name, new(name)) for name in found if new(name) != name)
    # Names that a proof alone has: where they hold a capital, they turn too.
    for path in antt:
        for name in re.findall(rf"{WORD}", bare(read(path))):
            if re.fullmatch(r"[a-z]\w*[a-z0-9][A-Z]\w*'*", name):
                names[name] = new(name)
    # Where names fall together, the definition has the plain one: that of specs/, or the one in camel case.
    together = collections.defaultdict(set)
    for path, found in of.items():
        for name in found | {n for n in names if n not in found and re.search("[A-Z]", n)}:
            together[names.get(name, name)].add(name)
    defined = {name for path, found in of.items() if "/specs/" in path for name in found}
    for to, olds in sorted(together.items()):
        if len(olds) > 1:
            first = min(olds, key=lambda n: (n not in defined, not re.search("[A-Z]", n), "-" in n, n))
            names[first] = to
            names.update((n, to + "_lem") for n in olds - {first})
            print(f"{', '.join(sorted(olds - {first}))}: {to}_lem, beside {first}")
    for path, found in of.items():
        into = collections.Counter(names.get(name, name) for name in found)
        if max(into.values(), default=1) > 1:
            print(f"{path}: two names would be one: {into.most_common(3)}")
            return 1
    own = re.compile(r"Rattle\.(?:%s)\." % "|".join(re.escape(p.split("/")[1]) for p in glob.glob("crates/*/")))

    def kept(text):
        """Names of the kit's library that the file imports."""
        return {i.split(" as ")[0].strip() for module, items in IMPORTS.findall(bare(text)) if not own.match(module) for i in items.split(",")}

    word = re.compile(WORD)
    # What could be a name of Rust's own stays in src/ and in the edits.
    plain = frozenset(name for name in names if re.fullmatch("[a-z0-9_]+", name))
    turn = lambda text, stay=frozenset(): word.sub(lambda m: m[0] if m[0] in stay else names.get(m[0], m[0]), text)
    files = antt + sorted(glob.glob("crates/*/src/*.rt")) + sorted(glob.glob("crates/*/must-fail/*.edit"))
    count = 0
    for path in files:
        text = read(path)
        after = turn(text, kept(text) if path.endswith(".antt") else plain)
        if after != text:
            count += 1
            with open(path, "w", encoding="utf-8") as f:
                f.write(after)
    for path in sorted(p for pattern in PAGES for p in glob.glob(pattern)):
        text = read(path)
        after = re.sub(r"`[^`\n]+`", lambda m: turn(m[0]), text)
        if after != text:
            count += 1
            with open(path, "w", encoding="utf-8") as f:
                f.write(after)
    print(f"{len(names)} names, {count} files")
    return 0


if __name__ == "__main__":
    sys.exit(main())
