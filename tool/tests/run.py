#!/usr/bin/env python3
"""Runs the tool's transcripts: run.py COMMAND [WORDS..]

COMMAND and WORDS start the tool (words for an emulator may stand in front). A
transcript is a file beside this one whose name ends in .transcript:

    # what it is about
    $ stamp read date 00
    Date        compact   digits -  2020-01-01  00
    exit 0

A command is a line for the shell; its output (both streams) follows, and then
its exit status. `faulty`, beside this file, gives the tool an input or output
that fails, and `octets` prints what it is given in hex. The tool's commands in
the man page and in the README are tried too, without the status. The man page's
refusals and release are compared with the tool's.
Last line: 'N passed, M failed'.
"""

import os
import re
import shlex
import shutil
import sys
import tempfile

from transcripts import HERE, MANUAL, cases_in, lines_of, manual_cases, plain, readme_cases, run, tried

# 10 to 12 are free
REFUSALS = [1, 2, 3, 4, 5, 6, 7, 8, 9, 13, 14, 15]


def refusals_agree(folder):
    """There is a sentence for each number, none twice, and the man page has the same."""
    help_lines, _ = run("stamp -h", folder)
    told = re.findall(r"^ +(\d+) (.+)$", "\n".join(help_lines), re.M)
    manual = re.findall(r"^\.TP\n\.B (\d+)\n([a-z].+)$", "\n".join(map(plain, lines_of(MANUAL))), re.M)
    good = [int(number) for number, _ in told] == REFUSALS and len({words for _, words in told}) == len(REFUSALS)
    if good and told == manual:
        return True
    print("FAILED refusals: the tool has\n%s\nand the man page\n%s" % (told, manual))
    return False


def release_agrees(folder):
    """The man page is that of the tool's release."""
    release, _ = run("stamp -V", folder)
    good = len(release) == 1 and '"%s"' % release[0] in lines_of(MANUAL)[0]
    print("" if good else "FAILED release: %s is not in the man page's first line\n" % release, end="")
    return good


def make_stamp(folder, words):
    """A command `stamp` in the folder. Paths are made absolute: transcripts run in that folder, first on the PATH."""
    program = shutil.which(words[0])
    if program is None:
        sys.exit("no such program: " + words[0])
    words = [program] + words[1:]
    words = [os.path.abspath(word) if os.path.exists(word) else word for word in words]
    path = os.path.join(folder, "stamp")
    with open(path, "w", encoding="utf-8") as file:
        file.write('#!/bin/sh\nexec %s "$@"\n' % " ".join(map(shlex.quote, words)))
    os.chmod(path, 0o755)


def main(words):
    if not words:
        sys.exit(__doc__)
    results = []
    with tempfile.TemporaryDirectory() as folder:
        make_stamp(folder, words)
        for name in sorted(os.listdir(HERE)):
            if name.endswith(".transcript"):
                # Blank lines and comments stand between cases for the reader alone.
                lines = [line for line in lines_of(os.path.join(HERE, name)) if line and not line.startswith("#")]
                results += [case[2] is not None and tried(name, case, folder) for case in cases_in(lines)]
        results += [tried("stamp.1", case, folder) for case in manual_cases()]
        results += [tried("README.md", case, folder) for case in readme_cases(of_the_tool=True)]
        results += [refusals_agree(folder), release_agrees(folder)]
    print("%d passed, %d failed" % (results.count(True), results.count(False)))
    return 0 if all(results) else 1


if __name__ == "__main__":
    sys.exit(main(sys.argv[1:]))
