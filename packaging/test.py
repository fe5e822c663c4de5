#!/usr/bin/env python3
"""Tries what `make` and `make install` give, as those who build and link with it would: test.py, at the root of the repository, after `make`.

Installs into folders of its own, takes away again what it installed there, links the examples with what is installed, and tries the README's
commands (those of the tool are tried in tool/tests).
Last line: 'N passed, M failed'."""

import os
import re
import shutil
import subprocess
import sys
import tempfile
import textwrap
from pathlib import Path

ROOT = Path(__file__).resolve().parent.parent
sys.path.insert(0, str(ROOT / 'tool' / 'tests'))
from transcripts import README, readme_cases, tried  # noqa: E402

RELEASE = '1.4'
SHARED = f'libstamp.so.{RELEASE}'
# What is installed, each file with its mode, each link with where it leads.
INSTALLED = {'bin/stamp': '755', 'include/stamp.h': '644', 'lib/libstamp.a': '644', 'lib/libstamp.so': 'libstamp.so.1', 'lib/libstamp.so.1': SHARED,
             f'lib/{SHARED}': '755', 'lib/pkgconfig/stamp.pc': '644', 'share/man/man1/stamp.1': '644'}
passed = failed = 0


def expect(what, wanted, found):
    global passed, failed
    if wanted == found:
        passed += 1
    else:
        failed += 1
        print(f'FAILED {what}:\n- {wanted}\n+ {found}')


# make's own variables, of which those of a make that runs this must not count here
OWN = ('MAKEFLAGS', 'MAKELEVEL', 'MFLAGS', 'PREFIX', 'LIBDIR', 'DESTDIR')


def output(*command, **environment):
    """What the command prints on both streams, and its status."""
    around = {name: value for name, value in os.environ.items() if name not in OWN}
    done = subprocess.run(command, cwd=ROOT, env=dict(around, LC_ALL='C', **environment), stdin=subprocess.DEVNULL,
                          stdout=subprocess.PIPE, stderr=subprocess.STDOUT, text=True, timeout=600)
    return done.stdout, done.returncode


def make(*words):
    printed, status = output('make', *words)
    if status != 0:
        print(printed)
    expect('make ' + ' '.join(words), 0, status)


def files_in(folder):
    """Each file below the folder with its mode, each link with where it leads."""
    return {str(path.relative_to(folder)): os.readlink(path) if path.is_symlink() else f'{path.stat().st_mode & 0o777:o}'
            for path in folder.rglob('*') if path.is_symlink() or path.is_file()}


def dynamic(program, entry):
    """What the program's or library's dynamic section says of an entry, as NEEDED."""
    return re.findall(r'\(%s\).*\[(.*)\]' % entry, output('readelf', '-dW', str(program))[0])


class Installation:
    """One `make install`: its words, where its files come to stand, and what its stamp.pc has."""

    def __init__(self, prefix, libdir=None, destdir=''):
        self.words = [f'PREFIX={prefix}'] + ([f'LIBDIR={libdir}'] if libdir else []) + ([f'DESTDIR={destdir}'] if destdir else [])
        libdir = libdir or f'{prefix}/lib'
        self.root, self.library = Path(f'{destdir}{prefix}'), Path(f'{destdir}{libdir}')
        own = str(self.library.relative_to(self.root)) + '/'
        self.files = {name.replace('lib/', own, 1) if name.startswith('lib/') else name: mode for name, mode in INSTALLED.items()}
        self.pc = ['prefix=' + str(prefix), 'libdir=' + str(libdir).replace(f'{prefix}/', '${prefix}/'), 'Name: stamp',
                   'Description: dates and times in the BDE BER date-and-time format, proved', f'Version: {RELEASE}',
                   'Cflags: -I${prefix}/include', 'Libs: -L${libdir} -lstamp']


def installations(scratch):
    """The second has a LIBDIR, the third is below a DESTDIR, which its stamp.pc does not know of."""
    return [Installation(scratch / 'first'), Installation(scratch / 'second', libdir=scratch / 'second/lib/here'),
            Installation('/usr', destdir=f'{scratch}/below')]


def try_install(each):
    make('install', *each.words)
    expect(f'what is installed by {each.words}', each.files, files_in(each.root))
    expect(f'stamp.pc after {each.words}', each.pc, (each.library / 'pkgconfig/stamp.pc').read_text().splitlines())
    expect('the release', f'stamp {RELEASE}\n', output(str(each.root / 'bin/stamp'), '-V')[0])


def try_uninstall(each):
    """What others have put into the same folders stays."""
    foreign = [str(Path(name).parent / 'libstamp-another.so') for name in each.files]
    for name in foreign:
        (each.root / name).touch()
    make('uninstall', *each.words)
    expect(f'what uninstall leaves of {each.words}', sorted(set(foreign)), sorted(files_in(each.root)))


def try_shared(prefix):
    shared = prefix / 'lib' / SHARED
    expect('the soname', ['libstamp.so.1'], dynamic(shared, 'SONAME'))
    expect('libraries that the library needs', [], dynamic(shared, 'NEEDED'))
    printed, _ = output('nm', '-D', '--defined-only', str(shared))
    declared = re.findall(r'^uint32_t (stamp_\w+)\(', (ROOT / 'include/stamp.h').read_text(), re.M)
    expect('what the shared library exports', sorted(declared), sorted(line.split()[-1] for line in printed.splitlines()))


def try_readme(scratch, prefix):
    """The README's commands but those of the tool, as they stand, in a folder that has what the repository's root has."""
    root = scratch / 'root'
    root.mkdir()
    for name in ('include', 'examples', 'libstamp.a', SHARED, 'build'):
        (root / name).symlink_to(ROOT / name)
    environment = dict(PKG_CONFIG_PATH=f'{prefix}/lib/pkgconfig', LD_LIBRARY_PATH=f'{prefix}/lib')
    linked = {'-static': [], '--libs': ['libstamp.so.1'], 'libstamp.a': []}
    has_rust = shutil.which('rustc') is not None and output('rustc', '--version')[1] == 0
    left_out = False
    for case in readme_cases(of_the_tool=False):
        command = case[0]
        # Rust's compiler need not be there; its program is then not run either
        left_out = not has_rust and (command.startswith('rustc') or left_out and command.startswith('./'))
        if left_out:
            continue
        expect(f'README: {command}', True, tried('README.md', case, str(root), **environment))
        if command.startswith('cc'):
            wanted = next(needed for word, needed in linked.items() if word in command)
            found = [name for name in dynamic(root / command.split()[-1], 'NEEDED') if 'stamp' in name]
            expect(f'what is linked by: {command}', wanted, found)


def try_console(root):
    """The console and the files that the README's commands made: without a moment, and where something is refused or fails. How it begins, its status."""
    plan, manual = str(root / 'plan'), ['--manual', str(root / 'manual')]
    for words, begins, status in (([plan], 'channel  1: +90 parts in 10^18 since 2020-06-01T12:00:00.000000+00:00\nchannel  2: none yet\n', 0),
                                  ([plan, '0001-01-01T00:00:00+23:59'], 'channel  1: none yet\nchannel  2: none yet\n', 0),
                                  ([plan, '2021-02-29T00:00:00+00:00'], '2021-02-29T00:00:00+00:00: refusal 8: ', 1), ([plan, '9'], '9: refusal 5: ', 1),
                                  (['/dev/null'], '/dev/null: refusal 13: ', 1), (['/dev/zero'], '/dev/zero: no schedule is longer than 44016 octets\n', 1),
                                  (['nowhere'], 'nowhere: No such file or directory\n', 2), (['/'], '/: Is a directory\n', 2), ([], 'usage: ', 2),
                                  ([plan, *manual], 'channel  1: +0 parts in 10^18 since 2020-06-01T12:00:00.000000+00:00 (manual)\nchannel  2: none', 0),
                                  ([plan, *manual, '2020-01-02T00:00:00+00:00'],
                                   'channel  1: +25 parts in 10^18 since 2019-12-31T23:59:59.999000-04:30 (plan)\nchannel  2: none yet\n', 0),
                                  ([plan, *manual, '9'], '9: refusal 5: ', 1), ([plan, '--manual', '/dev/null'], '/dev/null: refusal 13: ', 1),
                                  (['/dev/null', *manual], '/dev/null: refusal 13: ', 1), ([plan, '--manual', '/dev/zero'], '/dev/zero: no schedule is ', 1),
                                  ([plan, '--manual', 'nowhere'], 'nowhere: No such file or directory\n', 2), ([plan, '--manual'], 'usage: ', 2),
                                  ([*manual, plan], 'usage: ', 2), ([plan, *manual, '9', '9'], 'usage: ', 2)):
        printed, found = output(str(root / 'console'), *words)
        expect(f'console {words}', (begins, status), (printed[:len(begins)], found))


def try_printed():
    """The README prints the examples as they are; of the sites', the schedule's and the console's, the calls that it is about, and of Rust's, the block of
    the functions."""
    readme = Path(README).read_text()
    for name, start, end in (('roundtrip.c', '', None), ('sites.c', '    accepted(stamp_decode', '    print_stamp("first'),
                             ('schedule.c', '    uint32_t refusal = stamp_schedule', '}\n\nint main'),
                             ('console.c', '    for (channel = 1', '    return GIVEN;\n}\n\nint main'), ('as_text.py', '', None),
                             ('as_text.rs', '#[link', 'fn main')):
        text = (ROOT / 'examples' / name).read_text()
        text = textwrap.dedent(text[text.index(start):text.index(end) if end else None]).strip()
        expect(f'examples/{name} is in the README', True, f'\n{text}\n```\n' in readme)


def try_targets():
    """The README's make commands are there."""
    for words in re.findall(r'^    make( .*?)? *(?:#.*)?$', Path(README).read_text(), re.M):
        expect(f'README: make {words}', 0, output('make', '-n', *words.split())[1])


def try_missing(scratch):
    """What is said where something is missing: all of it, before the work begins."""
    rt = "make: the Rattle kit's command 'rt' is not on the PATH; it proves and compiles the library\n"
    cc = "make: there is no C compiler 'cc'; install gcc, or name the compiler: make CC=..\n"
    python = 'make: python3 is not on the PATH; it runs the tests and the measure\n'
    python_later = "make: python3 is not on the PATH; the library is built without it, but 'make test' and 'make measure' need it\n"
    for gone, build, tests in ((['rt'], (rt, 1), (rt, 1)), (['cc'], (cc, 1), (cc, 1)), (['python3'], (python_later, 0), (python, 1)),
                               (['rt', 'cc', 'python3'], (rt + cc + python_later, 1), (rt + cc + python, 1))):
        path = scratch / ('without-' + '-'.join(gone))
        path.mkdir()
        for folder in os.environ['PATH'].split(os.pathsep):
            for program in Path(folder).glob('*'):
                if program.name not in gone and not (path / program.name).is_symlink():
                    (path / program.name).symlink_to(program)
        expect(f'needs build without {gone}', build, output('packaging/needs', 'build', 'cc', PATH=str(path)))
        expect(f'needs tests without {gone}', tests, output('packaging/needs', 'tests', 'cc', PATH=str(path)))
    # and it is asked first (-W: as if that file were new, so that there is something to build)
    for target, what in (('libstamp.a', 'build'), ('test', 'tests'), ('measure', 'tests')):
        said, _ = output('make', '-n', '-W', 'crates.txt', 'CC=cc', target)
        expect(f'what make {target} does first', f'packaging/needs {what} cc', said.splitlines()[0])


def main():
    with tempfile.TemporaryDirectory() as folder:
        scratch = Path(folder)
        made = installations(scratch)
        for each in made:
            try_install(each)
        try_shared(made[0].root)
        try_readme(scratch, made[0].root)
        try_console(scratch / 'root')
        try_printed()
        try_targets()
        try_missing(scratch)
        for each in made:
            try_uninstall(each)
    print(f'{passed} passed, {failed} failed')
    return 0 if failed == 0 else 1


if __name__ == '__main__':
    sys.exit(main())
