"""The six comparisons. Each yields, for every thing that it looks at, the list of its faults."""

import fnmatch
import re

import antt
import documents
import rattle
from repository import Repository

CLAIMS = "docs/CLAIMS.md"
ONE_ANSWER = "crates/claims/specs/OneAnswer.antt"
PROMISES = "crates/format/specs/Promises.antt"
# what users call (docs/DECISIONS.md, B39), and the types that only our own crates hand to one another
FOR_USERS = ("calendar", "values", "stamp", "instants", "schedule", "boundary")
# whose calls C has: exported by NAME_c where there is such a crate, as no crate can depend on one that exports; else by the crate itself
FOR_C = ("boundary", "measured")
BETWEEN_US = re.compile(r"\b(?:Value|Located)\b")


def look_at(root):
    """(passed, failed, faults) of the repository at a root."""
    repository, passed, failed, lines = Repository(root), 0, 0, []
    for check in (claims_proved, claims_named, calls_promise, promises_have_one_answer, crates_agree, edits_there):
        things = list(check(repository)) or [["%s: there is nothing to look at" % check.__name__]]
        passed += things.count([])
        failed += len(things) - things.count([])
        lines += [fault for faults in things for fault in faults]
    return passed, failed, lines


def unless(holds, fault):
    """No fault, or the one that is named."""
    return [] if holds else [fault]


def stem(file):
    """The module that a file is: `Calls` of crates/stamp/specs/Calls.antt."""
    return file.split("/")[-1].split(".")[0]


# ---- 1. claims have proofs


def claims_of(repository):
    """{claim: the file that states it}."""
    files = repository.names("crates/claims/specs/*.antt")
    return {claim: file for file in files for claim in antt.claims(repository.text(file))}


def claims_proved(repository):
    listed = antt.modules(repository.text("crates/claims/specs/Lib.antt"))
    proofs = repository.names("crates/claims/proofs/*.antt")
    for claim, file in claims_of(repository).items():
        found = [proof for proof in proofs if claim in antt.theorems(repository.text(proof))]
        faults = [proof_faults(repository, claim, file, proof) for proof in found]
        none = ["claim %s: no theorem in crates/claims/proofs has it as its type" % claim]
        yield min(faults, key=len, default=none) + unless(
            stem(file) in listed, "claim %s: crates/claims/specs/Lib.antt does not list %s" % (claim, stem(file)))


def proof_faults(repository, claim, file, proof):
    """What is wrong with a file that has a theorem whose type is called as the claim is."""
    text = repository.text(proof)
    listed = antt.modules(repository.text("crates/claims/proofs/Lib.antt"))
    meant = antt.meanings(claim, antt.imports(antt.uses(text)))
    claimed = "Rattle.claims.specs.%s.%s" % (stem(file), claim)
    return (
        unless(stem(proof) in listed,
               "claim %s: crates/claims/proofs/Lib.antt does not list %s, which proves it" % (claim, stem(proof)))
        + unless(meant == [claimed] and claim not in antt.definitions(text),
                 "claim %s: in %s this name is not that of %s" % (claim, proof, file)))


# ---- 2. docs/CLAIMS.md names the claims


def claims_named(repository):
    text, claims = repository.text(CLAIMS), claims_of(repository)
    named, prose = documents.claims_named(text), documents.names_in_prose(text)
    for claim in claims:
        yield unless(claim in named + prose, "claim %s: %s does not name it" % (claim, CLAIMS))
    for name in named:
        yield unless(name in claims, "%s: there is no claim %s" % (CLAIMS, name))
    # outside the tables a name may also be that of a definition or a type of another crate
    for name in prose:
        yield unless(name in claims or is_defined(repository, name), "%s: there is no %s" % (CLAIMS, name))


def is_defined(repository, name):
    """Whether the specs of a crate other than `claims` define a name, or its code a type or a trait."""
    specs = [file for file in repository.names("crates/*/specs/*.antt") if not file.startswith("crates/claims/")]
    code = repository.names("crates/*/src/**/*.rt")
    return (any(name in antt.definitions(repository.text(file)) for file in specs)
            or any(re.search(r"(?:struct|enum|trait) %s\b" % name, repository.text(file)) for file in code))


# ---- 3. public calls promise


def calls_promise(repository):
    text = repository.text(CLAIMS)
    calls, unread = documents.public_calls(text)
    promised, functions, exports = {}, {}, {}
    exporting = {crate + "_c": crate for crate in FOR_C if crate + "_c" in repository.crates()}
    for cell in unread:
        yield ["%s: in 'Public calls', not a promise for each call, or one for all: %s" % (CLAIMS, cell)]
    for call, crate, promise in calls:
        yield unless(call not in promised, "%s: in 'Public calls', twice: %s" % (CLAIMS, call))
        promised[call] = (crate, promise)
    for crate in FOR_USERS:
        yield unless(crate not in documents.crates_listed(text, "Not for users"), "%s: `%s` is for users" % (CLAIMS, crate))
    crates = user_crates(repository, text)
    for crate in crates:
        yield crate.faults + trait_faults(crate, documents.section(text, "Not for users"))
        for path, function in crate.functions.items():
            name, _, rest = path.partition("::")
            (exports if name in exporting else functions)[exporting.get(name, name) + "::" + rest] = function
    functions, ghosts = instances(functions, crates)
    for call in promised:
        yield unless(call in functions, "%s: there is no public call %s" % (CLAIMS, call))
    for call, function in functions.items():
        if call in promised:
            yield [call + ": " + fault for fault in call_faults(repository, call, function, *promised[call], ghosts.get(call))]
        else:
            yield ["%s: not in the table 'Public calls' of %s" % (call, CLAIMS)]
    for call in sorted({call for call in promised if call.split("::")[0] in FOR_C} | set(exports)):
        export = exports.get(call) if call.split("::")[0] in exporting.values() else functions.get(call)
        yield ["%s, for C: %s" % (call, fault)
               for fault in export_faults(repository, call, functions.get(call), export, promised.get(call))]


def user_crates(repository, text):
    """The library crates whose functions are for users, and the crates that export them to C."""
    hidden = documents.crates_listed(text, "Not for users")
    names = [name for name in repository.crates() if name not in hidden]
    return [rattle.Crate(name, repository) for name in names if repository.text("crates/%s/src/lib.rt" % name)]


def instances(functions, crates):
    """({call: function}, {call: ghost members}): one that is written once for all types of a trait is a call at each, as `read::<Date>`."""
    kinds = {}
    for item in [item for crate in crates for item in crate.items if item.kind == "impl" and item.trait]:
        kinds.setdefault(item.trait, []).append((item.type, item.ghosts()))
    called, ghosts = {}, {}
    for call, function in functions.items():
        trait = function.parameter()[1]
        for name, given in kinds.get(trait, []):
            called["%s::<%s>" % (call, name)] = function
            ghosts["%s::<%s>" % (call, name)] = given
        if trait not in kinds:
            called[call] = function
    return called, ghosts


def trait_faults(crate, hidden):
    """What is wrong with a crate's own traits, which are between our crates: named under 'Not for users', and each function promises something and asks nothing."""
    faults = []
    for trait in [item for item in crate.items if item.kind == "trait" and item.public]:
        faults += unless("`%s`" % trait.name in hidden, "%s: the trait %s is not named under 'Not for users' of %s" % (crate.name, trait.name, CLAIMS))
        # without the bracket that closes the trait
        inside = [rattle.Item(piece, trait.file) for piece in rattle.pieces(trait.text.rstrip()[:-1], "    ")[1:]]
        for item in [item for item in inside if item.kind == "fn"]:
            words = [word for word, _ in rattle.contract(item.text.rstrip()[:-1] + " {")[2]] if item.text.rstrip().endswith(";") else []
            faults += unless(words == ["ensures"], "%s::%s::%s: in the trait it has not one `ensures`" % (crate.name, trait.name, item.name))
    return faults


def call_faults(repository, call, function, crate, promise, ghosts=None):
    """What is wrong with the contract of a public call."""
    if function.promise is not None:
        return converted_faults(repository, function, crate, promise)
    parameters, answer, clauses = rattle.contract(function.text)
    words = [word for word, _ in clauses]
    if words != ["ensures"]:
        return ["it has a `%s`" % word for word in words if word != "ensures"] or ["it has not one `ensures`"]
    said = rattle.said(clauses[0][1])
    if not said:
        return ["its `ensures` is not a promise about parameters and answer alone"]
    cited, given = said
    if ghosts is not None:
        faults = instance_faults(repository, crate, promise, cited, given, function.parameter()[0], ghosts)
        given = [word for word in given if not word.startswith(function.parameter()[0] + ".")]
    else:
        faults = unless(cited == promise, "its `ensures` cites %s, and %s names %s" % (cited, CLAIMS, promise))
    if faults:
        return faults
    brought, user = rattle.brought(repository.text(function.file)), call.split("::")[0]
    defined = defined_as(repository, crate, cited)
    return (unless(antt.meanings(cited, brought) == [defined], "%s is not imported from the specs of `%s`" % (cited, crate))
            + ["in its file `%s` is another thing" % word for word in rattle.WORDS if antt.meanings(word, brought)]
            + unless(user != "stamp" or not BETWEEN_US.search(function.text.split("{")[0]), "it takes or gives a `Value` or a `Located`")
            + subject_faults(parameters, answer, cited, given))


def converted_faults(repository, function, crate, promise):
    """What is wrong with a function that a trait of std asks for: its promise is the one ghost member that the `impl` gives."""
    _, _, clauses = rattle.contract(function.text)
    meant = [whole for name in function.promise for whole in antt.meanings(name, rattle.brought(repository.text(function.file)))]
    return (["it has a `%s`" % word for word, _ in clauses]
            + unless(len(function.promise) == 1 and meant == [defined_as(repository, crate, promise)],
                     "what its `impl` gives is not %s of the specs of `%s`" % (promise, crate)))


def instance_faults(repository, crate, promise, cited, given, parameter, ghosts):
    """A promise at a type is the one that is cited, at the ghost members that the type gives: `P a r = CITED MEMBER a r`."""
    for module in antt.modules(repository.text("crates/%s/specs/Lib.antt" % crate)):
        for line in antt.declarations(repository.text("crates/%s/specs/%s.antt" % (crate, module))):
            head, defined, words = line.partition(" = ")
            name, *arguments = head.split()
            if defined and name == promise:
                own = iter(arguments)
                wanted = [ghosts.get(word.partition(".")[2], "") if word.startswith(parameter + ".") else next(own, "") for word in given]
                if [cited] + wanted == words.split() and next(own, None) is None:
                    return []
    return ["%s is not %s, which its `ensures` cites, at this type" % (promise, cited)]


def subject_faults(parameters, answer, promise, given):
    """A promise is about each parameter and the answer, once, and each word means what it seems to."""
    wanted = [part for parameter in parameters for part in rattle.about(*parameter)] + ["result"] * bool(answer)
    allowed = wanted + [name + ".old" for name, kind in parameters if kind.startswith("&mut")]
    words = [name for name, _ in parameters] + [promise, *rattle.WORDS]
    return (["its promise is not about %s" % part for part in wanted if part not in given]
            + ["its promise is about %s, which it has not" % part for part in given if part not in allowed]
            + ["its promise is about %s twice" % part for part in sorted(set(given)) if given.count(part) > 1]
            + unless(len(set(words)) == len(words), "two things in its contract have one name"))


def defined_as(repository, crate, promise):
    """The whole name of a promise; None where the crate's specs do not define it."""
    for module in antt.modules(repository.text("crates/%s/specs/Lib.antt" % crate)):
        if promise in antt.definitions(repository.text("crates/%s/specs/%s.antt" % (crate, module)), public=True):
            return "Rattle.%s.specs.%s.%s" % (crate, module, promise)
    return None


def export_faults(repository, call, function, export, promised):
    """What is wrong with the export of a call, which promises what the call does, word for word."""
    if not export or not export.for_c:
        return ["it is not exported"]
    if not function or not promised:
        return ["there is no public call of this name"]
    if export is function:
        return []
    same = rattle.contract(export.text) == rattle.contract(function.text)
    return call_faults(repository, call, export, *promised) or unless(same, "it has not the contract of the call itself")


# ---- 4. promises have one answer


def promises_have_one_answer(repository):
    for name, words in antt.ONE.items():
        file = PROMISES if name == "OneAnswer" else ONE_ANSWER
        yield unless(antt.body(repository.text(file), name + " P") == words, "%s: %s is not defined as it should be" % (file, name))
    needed, claimed = repository.crates().get("claims", []), answers_claimed(repository)
    calls, _ = documents.public_calls(repository.text(CLAIMS))
    for crate, promise in sorted({(crate, promise) for _, crate, promise in calls}):
        known = claimed if crate in needed else answers_proved(repository, crate)
        whole = defined_as(repository, crate, promise)
        if whole:
            yield unless(whole in known, "promise %s of %s: no theorem that no two answers meet it" % (promise, crate))
        else:
            yield ["promise %s of %s: the specs of the crate do not define it" % (promise, crate)]


def answers_claimed(repository):
    """The promises that no two answers meet, by the claims."""
    text = repository.text(ONE_ANSWER)
    parts = [part for claim in antt.claims(text) for part in antt.statements(antt.body(text, claim))]
    return promises_in(parts, text)


def answers_proved(repository, crate):
    """The promises that no two answers meet, by the crate's own theorems."""
    listed = antt.modules(repository.text("crates/%s/proofs/Lib.antt" % crate))
    text = repository.text("crates/%s/proofs/OneAnswer.antt" % crate) if "OneAnswer" in listed else ""
    return promises_in(antt.theorems(text), text)


def promises_in(statements, text):
    """The whole names of the promises that no two answers meet, by statements of a file."""
    brought = antt.imports(antt.uses(text))
    promises = [antt.promise_of_one_answer(statement) for statement in statements]
    return [whole for promise in promises if promise for whole in antt.meanings(promise, brought)]


# ---- 5. the crates


def crates_agree(repository):
    crates, folders = list(repository.crates()), repository.folders()
    shown = documents.crates_listed(repository.text("README.md"), "What is here")
    for crate in sorted(set(crates + folders + shown)):
        yield (unless(crate in crates, "crate %s: no line in crates.txt" % crate)
               + unless(crate in folders, "crate %s: no folder crates/%s" % (crate, crate))
               + unless(crate in shown, "crate %s: README.md does not name it under 'What is here'" % crate))


# ---- 6. wrong programs


def edits_there(repository):
    named = documents.edits_named(repository.text(CLAIMS))
    for name in named:
        crate, _, edit = name.partition("/")
        found = repository.names("crates/%s/must-fail/%s.edit" % (crate, edit))
        yield unless(found, "%s: there is no edit %s" % (CLAIMS, name))
    for file in repository.names("crates/*/must-fail/*.edit"):
        edit = "%s/%s" % (file.split("/")[1], stem(file))
        yield unless(any(fnmatch.fnmatch(edit, name) for name in named), "edit %s: %s does not name it" % (edit, CLAIMS))
