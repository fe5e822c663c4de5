"""The files that are compared."""

import glob
import os

# All that is read; the self-test copies these.
READ = (
    "README.md",
    "crates.txt",
    "docs/CLAIMS.md",
    "crates/*/src/**/*.rt",
    "crates/*/specs/*.antt",
    "crates/*/proofs/*.antt",
    "crates/*/must-fail/*.edit",
)


class Repository:
    def __init__(self, root):
        self.root, self.texts = root, {}

    def names(self, pattern):
        """The files or folders of a pattern, as paths from the root."""
        found = glob.glob(os.path.join(glob.escape(self.root), pattern), recursive=True)
        return sorted(os.path.relpath(path, self.root) for path in found)

    def text(self, name):
        """A file's text; nothing where there is no such file."""
        if name not in self.texts:
            path = os.path.join(self.root, name)
            self.texts[name] = ""
            if os.path.isfile(path):
                with open(path, encoding="utf-8") as file:
                    self.texts[name] = file.read()
        return self.texts[name]

    def crates(self):
        """{crate: the crates that it depends on}, from crates.txt; behind a crate's name may stand what is made of it."""
        lines = [line.partition("#")[0] for line in self.text("crates.txt").splitlines()]
        pairs = [line.split(":", 1) for line in lines if ":" in line]
        return {name.split()[0]: needed.split() for name, needed in pairs}

    def folders(self):
        """The folders under crates/."""
        return [os.path.basename(name) for name in self.names("crates/*/")]
