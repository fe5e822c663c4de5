"""Is every claim still there and proved, and does every public call still make
its promise?

    python3 -B .ci/claims              at the repository's root
    python3 -B .ci/claims --self-test  makes faults in copies, each of which must
                                       be found

`rt ci` proves what is there. It does not notice what is gone: a claim without
its proof, a call without its contract, a whole crate. So the source is compared
with what docs/CLAIMS.md and README.md say of it:

1. Each claim (`abbrev pub NAME : Type 0` in crates/claims/specs) has a proof in
   crates/claims/proofs: a theorem whose type is this claim and no other thing
   of the same name, in a file that is a part of the crate.
2. docs/CLAIMS.md names every claim, and what it names is there.
3. Each function that a user can call is in the table 'Public calls', and each
   call of the table is there. Its contract asks nothing of the caller (it has
   no `requires`), and what it says of the answer (its `ensures`) is the promise
   that the table names, about every parameter and the answer, and nothing else.
   Left out are the crates in the table 'Not for users'. Calls for C are
   exported: by a crate `NAME_c`, which says the call's own contract again, or
   where there is none by the crate itself.
4. Each promise is defined, and a theorem says that no two answers meet it: in
   a claim of crates/claims/specs/OneAnswer.antt or, where `claims` does not
   depend on the crate, in the crate's own proofs/OneAnswer.antt.
5. crates.txt, the folders under crates/ and the table 'What is here' of
   README.md have the same crates.
6. Each wrong program that docs/CLAIMS.md names (`CRATE/NAME`) is there, and each
   that is there is named.

The source is read in the layout of `rt fmt`, which the gate demands; an item
that is not understood is a fault. What a claim or a promise says, and in which
order a promise is given the parameters, is for people to read.

A line for each fault; last line: 'N passed, M failed', which counts the claims,
names, calls, promises, crates and wrong programs that were looked at.
"""

import sys

from checks import look_at
from self_test import self_test


def main(words):
    if words not in ([], ["--self-test"]):
        sys.exit(__doc__)
    passed, failed, lines = self_test(".") if words else look_at(".")
    for line in lines:
        print(line)
    print("%d passed, %d failed" % (passed, failed))
    sys.exit(1 if failed else 0)


main(sys.argv[1:])
