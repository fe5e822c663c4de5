"""The check tries itself: in a copy of what it reads, one fault at a time is made,
and must be found, by the message that belongs to it.
"""

import os
import re
import shutil
import tempfile

from checks import look_at
from faults import FAULTS, export_faults
from repository import READ, Repository


def self_test(root):
    """(passed, failed, lines): the copy as it is has no fault, and each fault that is made is found."""
    repository, lines = Repository(root), []
    faults = FAULTS + export_faults(repository)
    names = [name for pattern in READ for name in repository.names(pattern)]
    folder = tempfile.mkdtemp()
    try:
        copy(root, folder, names)
        lines += ["self-test: nothing is changed, but: " + line for line in look_at(folder)[2][:1]]
        for what, message, changes in faults:
            lines += tried(folder, what, message, changes)
            changed = tuple(file for file, _, _ in changes)
            copy(root, folder, [name for name in names if name.startswith(changed)])
    finally:
        shutil.rmtree(folder)
    return 1 + len(faults) - len(lines), len(lines), lines


def copy(root, folder, names):
    """Puts files of the repository into a folder, as they are."""
    for name in names:
        path = os.path.join(folder, name)
        os.makedirs(os.path.dirname(path), exist_ok=True)
        shutil.copyfile(os.path.join(root, name), path)


def tried(folder, what, message, changes):
    """No line, or the one that says what went wrong with a fault."""
    for file, old, new in changes:
        if not change(os.path.join(folder, file), old, new):
            return ["self-test: %s: there is nothing to change in %s" % (what, file)]
    if message in look_at(folder)[2]:
        return []
    return ["self-test: %s, and this was not said: %s" % (what, message)]


def change(path, old, new):
    """Makes a change; whether there was anything to change."""
    if not os.path.exists(path):
        return False
    if old is None:
        shutil.rmtree(path) if os.path.isdir(path) else os.remove(path)
        return True
    with open(path, encoding="utf-8") as file:
        text = file.read()
    with open(path, "w", encoding="utf-8") as file:
        file.write(re.sub(old, new, text, flags=re.M))
    return re.search(old, text, flags=re.M) is not None
