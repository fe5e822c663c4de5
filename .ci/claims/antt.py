"""Reads specs and proofs (.antt) as far as the comparison needs them."""

import functools
import re

CLAIM = re.compile(r"abbrev pub (\w+) : Type 0")
THEOREM = re.compile(r"pub (\S+) : (.*)")
DEFINED = re.compile(r"(?:abbrev |unfoldable )?(?:pub )?(?:record |data )?(\S+)")
USE = re.compile(r"(?:\w+ )*use (.*)")
# what it says of a promise P that no two answers meet it, word for word: weaker words would leave an answer open
ONE = {
    "OneAnswer": "(r r' : _) → P r → P r' → r ≡ r'",
    "OneWriting": "(lent : List ℕ) (r r' : Result ℕ Refusal) (left left' : List ℕ) → P lent r left → P lent r' left' "
                  "→ (r ≡ r') × (left ≡ left')",
    "OnePart": "(r r' : Bor (List ℕ)) → P r → P r' → (r.now ≡ r'.now) × (r.ref_ptr ≡ r'.ref_ptr)",
    "OneWritingForC": "(lent : List ℕ) (r r' count count' : ℕ) (left left' : List ℕ) → P lent r count left "
                      "→ P lent r' count' left' → (r ≡ r') × (count ≡ count') × (left ≡ left')",
    "OneReadingForC": "(lent : List ℤ) (r r' : ℕ) (left left' : List ℤ) → P lent r left → P lent r' left' "
                      "→ (r ≡ r') × (left ≡ left')",
    "OneNumberForC": "(lent : ℤ) (r r' : ℕ) (left left' : ℤ) → P lent r left → P lent r' left' → (r ≡ r') × (left ≡ left')",
    "OneCountForC": "(r r' count count' place place' : ℕ) → P r count place → P r' count' place' "
                    "→ (r ≡ r') × (count ≡ count') × (place ≡ place')",
    "OneHoldingForC": "(lent : List ℤ) (r r' count count' : ℕ) (left left' : List ℤ) → P lent r count left "
                      "→ P lent r' count' left' → (r ≡ r') × (count ≡ count') × (left ≡ left')",
    "OnePartForC": "(r r' : ℕ) (left left' : List ℕ) → P r left → P r' left' → (r ≡ r') × (left ≡ left')",
}
# `(y m d : ℕ) → OneAnswer (DateNew y m d)`, or `OneAnswer TimeEndOfDay` of what is given nothing
ONE_ANSWER = re.compile(r"(?:((?:\((?:[^()]|\([^()]*\))*\) )+)→ )?(?:%s) (?:\((\S+) ([^()]*)\)|([^\s()]+))" % "|".join(ONE))


@functools.lru_cache(maxsize=None)
def declarations(text):
    """What begins at the left margin, each as one line; without comments."""
    text = re.sub(r"\{-.*?-\}", "", text, flags=re.S)
    text = re.sub(r"(?:^|(?<=\s))--.*", "", text, flags=re.M)
    parts = re.split(r"^(?=[^\s)}])", text, flags=re.M)
    return [" ".join(part.split()) for part in parts if part.strip()]


def modules(text):
    """The files that a Lib.antt makes a part of its crate, for others too."""
    return [line[len("pub mod "):] for line in declarations(text) if line.startswith("pub mod ")]


def claims(text):
    """The claims that a file of specs states."""
    return [found.group(1) for found in map(CLAIM.fullmatch, declarations(text)) if found]


@functools.lru_cache(maxsize=None)
def definitions(text, public=False):
    """The names that a file itself defines; if asked, the `pub` ones alone."""
    lines = [line for line in declarations(text) if " : " in line]
    return {DEFINED.match(line).group(1) for line in lines if not public or re.match(r"(?:\w+ )?pub ", line)}


@functools.lru_cache(maxsize=None)
def theorems(text):
    """The types of the `pub` theorems that have a proof below them."""
    lines = [line for line in declarations(text) if not line.startswith("unfolding ")]
    types = []
    for signature, proof in zip(lines, lines[1:]):
        theorem = THEOREM.fullmatch(signature)
        if theorem and re.match(re.escape(theorem.group(1)) + r" (?:[^=]* )?= ", proof):
            types.append(theorem.group(2))
    return types


# ---- what a name stands for


def uses(text):
    """What follows `use` in a file: `M.{a, b as c}` or `M as n`."""
    return [found.group(1) for found in map(USE.fullmatch, declarations(text)) if found]


def imports(trees):
    """What `use` lines bring: {name: [the whole name of each thing that it is brought as]}."""
    brought = {}
    for tree in trees:
        module, braces, items = tree.partition(".{")
        parts = [module + "." + item.strip() for item in items.rstrip("}").split(",")] if braces else [module]
        for part in parts:
            whole, _, other = part.partition(" as ")
            brought.setdefault(other or whole.split(".")[-1], []).append(whole)
    return brought


def meanings(name, brought):
    """What a name stands for, by the imports: alone, or behind a module's name."""
    if name in brought:
        return brought[name]
    module, _, rest = name.partition(".")
    return [whole + "." + rest for whole in brought.get(module, [])]


# ---- no two answers meet a promise


def body(text, name):
    """What a name is defined to be."""
    found = [line[len(name) + 3:] for line in declarations(text) if line.startswith(name + " = ")]
    return found[0] if found else ""


def statements(text):
    """The parts of `A × B × ..`, without the brackets around a part."""
    parts, depth = [""], 0
    for letter in text:
        depth += (letter == "(") - (letter == ")")
        if letter == "×" and depth == 0:
            parts.append("")
        else:
            parts[-1] += letter
    parts = [part.strip() for part in parts]
    return [part[1:-1] if part.startswith("((") else part for part in parts]


def promise_of_one_answer(statement):
    """The promise that no two answers meet, whatever it is given, by a statement; None if it says anything else."""
    found = ONE_ANSWER.fullmatch(statement)
    if not found:
        return None
    binders, promise, given, alone = found.groups()
    bound, given = re.findall(r"[^\s():]+(?=[^():]*:)", binders or ""), (given or "").split()
    if set(given) == set(bound) and len(set(given)) == len(given):
        return promise or alone
    return None
