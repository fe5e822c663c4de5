"""Reads Rattle source (.rt) as far as the comparison needs it: what a crate
exports, and what a contract says.

By the layout of `rt fmt` an item begins at the left margin, and a function of
an `impl` four places in.
"""

import functools
import re

import antt

# an apostrophe behind a letter or another one is a prime, and begins no quotation
IGNORED = re.compile(
    r"""(?P<quoted>b?"(?:\\.|[^"\\])*"|(?<![\w'])b?'(?:\\.|[^'\\])')|//.*|/\*(?s:.*?)\*/|^ *#!?\[.*\]\n""", re.M)
ITEM = re.compile(
    r'(pub )?(?:pub\(\w+\) )?(extern "C" )?(fn|ghost use|use|mod|struct|enum|const|trait|impl)(?:<[^>]*>)? (\w+(?:::\w+)*)')
# an `impl` of a type, or of a trait for it: (trait, of what, type)
IMPL = re.compile(r"impl(?:<[^>]*>)? (?:(\w+)(?:<([\w:]+)>)? for )?(\w+)(?:<[^>]*>)? \{")
# the forms of those items that lead to functions which stand elsewhere
LEADS_ON = re.compile(r"(?:pub(?:\(\w+\))? )?(?:use \w+(?:::\w+)*(?:::\{ ?\w+(?:, \w+)*,? ?\})?;|mod \w+;|trait \w+(?:: \w+)? \{|%s)" % IMPL.pattern)
# a type parameter that stands for a type of a trait, and a ghost member that an `impl` gives
PARAMETER = re.compile(r"fn \w+<(\w+): (\w+)>\(")
GHOST = re.compile(r"^    ghost (\w+) = \{ (\S+) \};$", re.M)
USED = re.compile(r"use ([\w:]+?)(?:::\{(.*)\})?;")
# with the star of a clause that holds an assertion, and the name that each of two clauses has
CLAUSE = re.compile(r"\s*\b((?:requires|ensures|ghost)\b\*?)[^{};]*\{")
SAYS = re.compile(r"(\S+)((?: [\w.(){}=;]+)*)")
# the words by which a clause names what is lent, and the answer or a reference itself
LENT = ("now", "old", "new")
WORDS = LENT + ("result", "entry", "exit")
FIELD = re.compile(r"^    (?:pub(?:\(\w+\))? )?(%s):" % "|".join(LENT), re.M)
RECORD = re.compile(r"\(?record \{ (\w+ = [\w.+]+(?:; \w+ = [\w.+]+)*) \}\)?")


@functools.lru_cache(maxsize=None)
def bare(text):
    """A text without comments, attributes and what stands in quotes; the quotes are left."""
    return IGNORED.sub(lambda found: "" if not found["quoted"] else '"C"' if found["quoted"] == '"C"' else '""', text)


def pieces(text, margin):
    """What begins at a margin, each with all that belongs to it."""
    return [piece for piece in re.split(r"^%s(?=\w)" % margin, text, flags=re.M) if piece.strip()]


class Item:
    """A function, type, module, import, constant, trait or `impl`."""

    def __init__(self, text, file):
        found = ITEM.match(text)
        self.text, self.file = text, file
        public, for_c, self.kind, self.name = found.groups() if found else (None, None, "", "")
        self.public, self.for_c = bool(public), bool(for_c)
        # of an `impl`: the trait, of what it is, and the type; of the function of one, the promise that the trait makes for it
        block = IMPL.match(text)
        self.trait, self.of, self.type = block.groups() if block else (None, None, None)
        self.promise = None

    def first_line(self):
        return self.text.split("\n")[0].rstrip()

    def used(self):
        """The paths that a `use` brings: its braces may stand over several lines."""
        path, items = USED.search(" ".join(self.text.split())).groups()
        return [path + "::" + item.strip() for item in items.split(",") if item.strip()] if items else [path]

    def names(self):
        """What it is called, by those who have its module."""
        return [path.split("::")[-1] for path in self.used()] if self.kind == "use" and self.is_understood() else [self.name]

    def parameter(self):
        """(T, TRAIT) of a function that is written once for all types of a trait: `fn f<T: TRAIT>(`."""
        found = PARAMETER.search(self.first_line())
        return found.groups() if found else (None, None)

    def ghosts(self):
        """The ghost members that an `impl` gives, {name: what it is}."""
        return dict(GHOST.findall(self.text))

    def methods(self):
        """The functions of an `impl` or a trait."""
        inside = [Item(piece, self.file) for piece in pieces(self.text, "    ")[1:]]
        return [item for item in inside if item.kind == "fn"]

    def is_understood(self):
        """Whether all functions that stand in it, or to which it leads, are looked at."""
        leads_on = self.kind in ("mod", "trait", "impl") or (self.kind == "use" and self.public)
        words = " ".join(self.text.split()) if self.kind == "use" else self.first_line()
        if not self.kind or (leads_on and not LEADS_ON.fullmatch(words)):
            return False
        seen = len(self.methods()) if self.kind in ("trait", "impl") else int(self.kind == "fn")
        return seen == len(re.findall(r"\bfn\b", self.text))


class Crate:
    """A library crate: the functions that another crate, or C, can call, {path: function}."""

    def __init__(self, name, repository):
        self.name, self.types, self.modules = name, {}, {}
        source = "crates/%s/src" % name
        for file in repository.names(source + "/**/*.rt"):
            module = re.sub(r"(?:/lib|/mod)?\.rt$", "", file[len(source):])
            self.modules[module] = [Item(piece, file) for piece in pieces(bare(repository.text(file)), "")]
        self.items = [item for items in self.modules.values() for item in items]
        self.faults = ["%s: not understood: %s" % (item.file, item.first_line())
                       for item in self.items if not item.is_understood()]
        # of a lent struct that has it, `x.now` may be the field
        self.faults += ["%s: %s has a field `%s`, by which a clause names what is lent" % (item.file, item.name, field)
                        for item in self.items if item.kind == "struct" for field in FIELD.findall(item.text)]
        # C can link a function for C that is not `pub`, or stands in a private module
        self.functions = {name + "::" + item.name: item for item in self.items if item.for_c}
        self.enter("", name)
        self.add_methods()

    def enter(self, module, path):
        """A module is open to whoever has its path."""
        for item in self.modules.get(module, []):
            if item.public:
                self.open(item, module, path)

    def open(self, item, module, path, name=None):
        """An item of a module is open under a path; of a `pub use`, if asked, one name alone."""
        if item.kind == "fn":
            self.functions[path + "::" + item.name] = item
        elif item.kind in ("struct", "enum"):
            self.types[item.name] = path + "::" + item.name
        elif item.kind == "mod":
            self.enter(module + "/" + item.name, path + "::" + item.name)
        elif item.kind == "use":
            for used in item.used() if item.is_understood() else []:
                if name in (None, used.split("::")[-1]):
                    self.pass_on(item, used, module, path)

    def pass_on(self, use, used, module, path):
        """`pub use` opens an item of another module of the crate."""
        *places, name = used.split("::")
        target = "" if places[:1] == ["crate"] else module
        target += "".join("/" + place for place in places if place not in ("crate", "self"))
        found = [item for item in self.modules.get(target, []) if item.public and item is not use and name in item.names()]
        if not found:
            self.faults.append("%s: not understood: pub use %s" % (use.file, used))
        for item in found:
            self.open(item, target, path, name)

    def add_methods(self):
        """The `pub` functions of each `pub` type: also of one without a path, since an answer may be of it; and what a trait of std gives to one."""
        types = [item.name for item in self.items if item.public and item.kind in ("struct", "enum")]
        traits = [item.name for item in self.items if item.kind == "trait"]
        for block in self.items:
            if block.kind == "impl" and not block.trait and block.type in types:
                path = self.types.get(block.type, self.name + "::" + block.type)
                self.functions.update({path + "::" + item.name: item for item in block.methods() if item.public})
            elif block.kind == "impl" and block.trait and block.trait not in traits:
                self.add_converted(block, types)

    def add_converted(self, block, types):
        """A function that a trait of std asks for: `TYPE::from::<A>`, or `A::into::<TYPE>` where the type is not ours, as in `impl From<A> for u32`."""
        own = block.type in types
        name, other = (block.type, block.of) if own else (block.of, block.type)
        for item in block.methods():
            item.promise = list(block.ghosts().values())
            path = self.types.get(name, self.name + "::" + (name or ""))
            self.functions[path + "::" + (item.name if own else "into") + ("::<%s>" % other if other else "")] = item


# ---- contracts


def brought(text):
    """What the `ghost use` lines of a file, or of an `impl`, bring to contracts."""
    return antt.imports(re.findall(r"^ *ghost use ([^;]*);", bare(text), re.M))


def closing(text, start):
    """The place behind the bracket that closes the one at start."""
    depth = 0
    for place in range(start, len(text)):
        depth += (text[place] in "([{") - (text[place] in ")]}")
        if depth == 0:
            return place + 1
    return len(text)


def contract(text):
    """A function's parameters [(name, type)], the type of its answer, and its clauses [(word, what it says)]."""
    start = text.index("(")
    end = closing(text, start)
    parameters = [parameter(words.strip()) for words in text[start + 1:end - 1].split(",") if words.strip()]
    place = end + re.search(r"\s*(?:\{|\brequires\b|\bensures\b|\bghost\b)", text[end:]).start()
    answer = text[end:place].partition("->")[2].strip()
    clauses = []
    clause = CLAUSE.match(text, place)
    while clause:
        place = closing(text, clause.end() - 1)
        clauses.append((clause.group(1), " ".join(text[clause.end():place - 1].split())))
        clause = CLAUSE.match(text, place)
    # behind them stands the body; anything else is a clause that is not known
    clauses += [(word, "") for word in text[place:].split()[:1] if not word.startswith("{")]
    return parameters, answer, clauses


def parameter(words):
    """(name, type) of `name: type`, `mut name: type`, `self` or `&mut self`; without lifetimes."""
    name, _, kind = re.sub(r"(?<=&)'\w+ ", "", words).partition(":")
    return re.sub(r"^(?:&\s*)?(?:mut )?", "", name).strip(), kind.strip() or name


def said(statement):
    """`PROMISE ..` as (PROMISE, what it is about); None where it is anything else.

    It is about parameters and `result`: `x`, and of what is lent `x.now`, `x.old`
    and `x.new`. The reference itself, `x.entry`, has what `x.now` is. A record is
    about what its fields are.
    """
    found = SAYS.fullmatch(statement)
    if not found:
        return None
    promise, given = found.groups()
    given, before = re.sub(r"(?<= )(\w+)\.entry(?= |$)", r"\1.now", given), None
    while given != before:
        before = given
        given = RECORD.sub(lambda record: "+".join(re.findall(r"= ([\w.+]+)", record.group(1))), given)
    if not re.fullmatch(r"(?: [\w.+]+)*", given):
        return None
    return promise, re.findall(r"[\w.]+", given)


def about(name, kind):
    """What a promise has to speak of: what is passed; for `&` what is lent; for `&mut` what is left, and of octets or parts also what was lent.

    Two places (`usize`) are always written, so that what was lent there has no say.
    """
    if kind.startswith("&mut [") and not kind.startswith("&mut [usize;"):
        return [name + ".old", name + ".new"]
    if kind.startswith("&mut"):
        return [name + ".new"]
    return [name + ".now"] if kind.startswith("&") else [name]
