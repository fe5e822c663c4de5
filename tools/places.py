"""Counts the places in crates/*/src that docs/DESIGN-PASS.md speaks of, by their shapes in the text.

    python3 -B tools/places.py            a line for each point
    python3 -B tools/places.py --list     every place too

Run at the root of a checkout of any commit, today's layout of `rt fmt`. A shape is a hint and no verdict: what a place is, the page says.
"""

import collections
import glob
import re
import sys

# a variant that says that there is nothing, or why
NOTHING = re.compile(r"^    (?:Refused|Wrong|None|NoneYet|NoSuchDay|NoSuchNumber|NoForm|Out|Rare|Elsewhere|Bad|TooLarge)\b", re.M)
KINDS = r"(?:date_or_date_tz|time_or_time_tz|datetime_or_datetime_tz|datetime_tz|date_tz|time_tz|datetime|date|time)"
TYPES = r"(?:DatetimeTz|DateTz|TimeTz|Datetime|Date|Time)"
HEAD = re.compile(r"^ *(?:pub(?:\(crate\))? )?(?:extern \"C\" )?fn (\w+)(?:<[^>]*>)?\(", re.M)
# what converts or prints, in a library and in a program
CONVERTS = re.compile(r"number|default|kind_of|(?:kind|form|refusal|source)_number|\w+_digits|wide|of_32_bits|from_zero|below_zero|as_minutes|without_sign|hex_\w+")
PRINTS = re.compile(r"signed|octets?|text|field|signed_field|put_\w+|start_of|unknown|two_digits")


class Function:
    """A function: its file and line, name, parameters, the facts that it requires, its body, and whether a trait asks for it."""

    def __init__(self, file, text, head):
        self.name, self.place = head[1], "%s:%d fn %s" % (file, text.count("\n", 0, head.start(1)) + 1, head[1])
        end = text.index(")", head.end())
        self.given = [word.strip() for word in re.sub(r"\s+", " ", text[head.end():end]).split(",") if word.strip()]
        margin = re.match(r" *", head[0])[0]
        rest = text[end:].split("\n%s}\n" % margin)[0]
        clauses, _, self.body = rest.partition("\n%s{\n" % margin) if "\n%s{\n" % margin in rest else rest.partition("{\n")
        self.facts = [fact.strip("() ") for clause in re.findall(r"requires (?:\w+ )?\{ (.*) \}", clauses) for fact in clause.split(" × ")]
        opened = re.findall(r"^(impl[^\n]* for [^\n]*|impl[^\n]*|\S[^\n]*)\{$|^(\})$", text[:head.start()], re.M)
        self.of_trait = bool(margin and opened and opened[-1][0].startswith("impl") and " for " in opened[-1][0])


def bare(text):
    return re.sub(r"//.*", "", text)


def functions(texts):
    for file, text in texts.items():
        for head in HEAD.finditer(text):
            yield file.split("/")[1], Function(file, text, head)


def found_in(texts, shape):
    for file, text in texts.items():
        for found in re.finditer(shape, text, re.M):
            yield "%s:%d %s" % (file, text.count("\n", 0, found.start(found.lastindex or 0)) + 1, found[found.lastindex or 0].strip())


def options(texts):
    """1a. Enums with a variant that says that there is nothing, or why."""
    for file, text in texts.items():
        for found in re.finditer(r"enum (\w+)[^{]*\{(.*?)^\}", text, re.M | re.S):
            if NOTHING.search(found[2]):
                yield "%s enum %s" % (file, found[1])


def flags(texts):
    """1b. Fields that are flags, in a struct with other fields."""
    return found_in(texts, r"^    (?:pub(?:\(crate\))? )?(\w+: bool),$")


def numbers(texts):
    """1c. Kinds, forms and refusals as numbers: taken, given or held by a function or a struct, but for conversions that a trait asks for."""
    for _, function in functions(texts):
        kinds = [word for word in function.given if re.fullmatch(r"kind: u\d+", word)]
        if (kinds or re.fullmatch(r"number|kind_number|form_number|form_digits|refusal_number|kind_of|kind_in|write_numbered", function.name)) and not function.of_trait:
            if not any("Write" in word for word in function.given):
                yield function.place
    yield from found_in(texts, r"^    pub (kind: u\d+),$")


def twins(texts):
    """2. Functions and structs of one crate that are called alike but for a kind or a size: all but the first."""
    groups = collections.defaultdict(list)
    for where, function in functions(texts):
        name = re.sub(r"\d+", "<n>", re.sub(r"(^|_)%s($|(?=_))" % KINDS, r"\1<kind>", function.name))
        if "<" in name and where != "boundary_c" and not function.of_trait:
            groups[where, name].append(function.place)
    for place in found_in(texts, r"struct (%s\w*Answer)\b" % TYPES):
        groups["structs", "Answer"].append(place)
    for _, places in sorted(groups.items()):
        yield from places[1:]


def loops(texts):
    """3. Loops that count by hand."""
    return found_in(texts, r"^\s+((?:while|loop) .*)$")


def by_hand(texts):
    """4. Conversions, defaults and printing that have a trait of std: by function, and by a `match` to numbers within one."""
    for where, function in functions(texts):
        program = where in ("show", "compare", "bench")
        if not function.of_trait and (CONVERTS.fullmatch(function.name) or (program and PRINTS.fullmatch(function.name))):
            yield function.place
        elif not function.of_trait and re.search(r"match [\w.()]+ \{\s+(?:Source::\w+ => \d|Form::\w+(?:\(\w+\))? => \(\d)", function.body):
            yield function.place + ", a match to numbers"


def together(texts):
    """5. Parameters that travel together in three functions of a crate or more, and facts that three or more require."""
    pairs, facts = collections.defaultdict(list), collections.defaultdict(list)
    for where, function in functions(texts):
        given = [word for word in function.given if not re.fullmatch(r"(?:&(?:mut )?|mut )?self", word)]
        for first in range(len(given)):
            for second in given[first + 1:]:
                pairs[where, given[first], second].append(function)
        for fact in function.facts:
            facts[where, fact].append(function)
    for (where, *words), places in sorted(list(pairs.items()) + list(facts.items()), key=str):
        if len(places) > 2 and where != "boundary_c":
            yield "%s: %s, in %d functions" % (where, " with ".join(words), len(places))


def places_in(texts):
    """6. Functions that take octets with a place or a count beside them."""
    for _, function in functions(texts):
        if re.search(r"\w+: &(?:mut )?\[u8\], (?:at|from|start|count|end): usize", ", ".join(function.given)):
            yield function.place


def switches(texts):
    """7. Arms of a `match` that only call one function a kind, a form or a letter: by function."""
    for _, function in functions(texts):
        arms = re.findall(r"^\s+(?:Kind::\w+|Form::\w+(?:\(\w+\))?|b'\w'|\d|_) => \w+(?:::\w+)*(?:::<\w+>)?\(.*\),?$", function.body, re.M)
        if len(arms) > 2 and not function.of_trait:
            yield "%s, %d arms" % (function.place, len(arms))


def answers():
    """8. Answers files, the goals that they answer, and lines of proofs in all."""
    said = {name: open(name, encoding="utf-8").read() for name in glob.glob("crates/*/proofs/**/*.antt", recursive=True)}
    files = [name for name in said if name.endswith("/Answers.antt")]
    goals = sum(len(re.findall(r"^pub \S+ : goal\.", said[name], re.M)) for name in files)
    return "%d Answers.antt, %d goals, %d lines of proofs" % (len(files), goals, sum(text.count("\n") for text in said.values()))


def main():
    names = sorted(glob.glob("crates/*/src/**/*.rt", recursive=True))
    texts = {name: bare(open(name, encoding="utf-8").read()) for name in names}
    for count in (options, flags, numbers, twins, loops, by_hand, together, places_in, switches):
        found = list(count(texts))
        print("%4d  %s" % (len(found), count.__doc__.strip()))
        if "--list" in sys.argv[1:]:
            print("".join("        %s\n" % place for place in found), end="")
    print("      8. " + answers())


main()
