"""Commands with what they print, in files of transcripts, in the README and in the man page, and trying them."""

import os
import re
import signal
import subprocess

HERE = os.path.dirname(os.path.abspath(__file__))
ROOT = os.path.dirname(os.path.dirname(HERE))
MANUAL = os.path.join(ROOT, "docs", "stamp.1")
README = os.path.join(ROOT, "README.md")
PATIENCE = 60  # seconds for a command


def lines_of(path):
    with open(path, encoding="utf-8") as file:
        return file.read().split("\n")


def cases_in(lines):
    """Yields (command, output, status); the status is None where none is given."""
    command, output = None, []
    for line in lines + ["$ "]:
        if line.startswith("$ "):
            if command is not None:
                yield command, output, None
            command, output = line[2:], []
        elif command is not None and re.fullmatch(r"exit \d+", line):
            yield command, output, int(line[5:])
            command = None
        elif command is not None:
            output.append(line)


def plain(line):
    """A line of the man page without its escapes."""
    return line.replace("\\-", "-").replace("\\&", "").replace("\\(ha", "^")


def manual_cases():
    """The commands in the man page's examples."""
    inside, examples = False, []
    for line in lines_of(MANUAL):
        if line in (".EX", ".EE"):
            inside = line == ".EX"
        elif inside:
            examples.append(plain(line))
    return cases_in(examples)


def readme_cases(of_the_tool):
    """The commands in the README's indented blocks, each with what is printed below it: those of `stamp`, or the others."""
    inside, examples = False, []
    for line in lines_of(README):
        if line.startswith("    $ "):
            inside = bool(re.search(r"[$|] stamp ", line)) == of_the_tool
        inside = inside and line.startswith("    ")
        if inside:
            examples.append(line[4:])
    return cases_in(examples)


def run(command, folder, **environment):
    """What the shell prints in the folder, and its status. Programs of the folder come first, then those beside this file."""
    path = os.pathsep.join([folder, HERE, os.environ.get("PATH", "")])
    shell = subprocess.Popen(["sh", "-c", command], cwd=folder, env=dict(os.environ, PATH=path, LC_ALL="C", **environment),
                             stdin=subprocess.DEVNULL, stdout=subprocess.PIPE, stderr=subprocess.STDOUT, start_new_session=True)
    try:
        printed, _ = shell.communicate(timeout=PATIENCE)
    except subprocess.TimeoutExpired:
        os.killpg(shell.pid, signal.SIGKILL)
        printed = shell.communicate()[0][-1000:] + b"\nit did not end\n"
    text = printed.decode("utf-8", "replace")
    return text.split("\n")[:-1] if text.endswith("\n") else text.split("\n") if text else [], shell.returncode


def tried(where, case, folder, **environment):
    """Whether the command still does what the transcript says; tells the difference where not."""
    command, expected, status = case
    found, found_status = run(command, folder, **environment)
    if found == expected and status in (None, found_status):
        return True
    print("FAILED %s: $ %s" % (where, command))
    for sign, lines in (("- ", expected + ["exit %s" % status]), ("+ ", found + ["exit %d" % found_status])):
        print("\n".join(sign + line[:300] for line in lines))
    return False
