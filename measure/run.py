#!/usr/bin/env python3
"""Runs the driver of `make measure` in several processes, and writes the table of medians to docs/MEASURE.md: the section of this machine, while
those of other machines stay as they were measured there, unless their columns are an older measure's.

usage: run.py PROGRAM [PROCESSES]"""
import os
import platform
import re
import subprocess
import sys
from pathlib import Path
from statistics import median

SLOWER = 1.05
COLUMNS = '| Call | Ours, ns | Plain, ns | Ratio |'


def run(program):
    """What one process prints: what was compiled, and name -> (ours, plain), in nanoseconds."""
    about, rows = {}, {}
    done = subprocess.run([program], stdout=subprocess.PIPE, text=True)
    if done.returncode != 0:
        sys.exit(f'run.py: {program} failed; nothing is written')
    for line in done.stdout.splitlines():
        name, *cells = line.split('\t')
        if len(cells) == 1:
            about[name] = cells[0]
        else:
            rows[name] = (float(cells[0]), float(cells[1]))
    return about, rows


class Row:
    """One row over all processes: medians, and the ratio as the median of the processes' own ratios."""

    def __init__(self, name, runs):
        own = [rows[name] for rows in runs]
        self.name = name
        self.ours = median(ours for ours, _ in own)
        self.plain = median(plain for _, plain in own)
        ratios = [ours / plain for ours, plain in own]
        self.ratio = median(ratios)
        self.spread = (max(ratios) - min(ratios)) / self.ratio

    def slower(self):
        return self.ratio > SLOWER

    def line(self):
        ratio = f'{self.ratio:.2f}'
        return f"| {self.name} | {self.ours:.1f} | {self.plain:.1f} | {f'**{ratio}**' if self.slower() else ratio} |"


def processor():
    """The model's name; Arm gives numbers instead."""
    facts = {}
    for line in Path('/proc/cpuinfo').read_text().splitlines():
        key, _, value = line.partition(':')
        facts.setdefault(key.strip(), value.strip())
    if 'model name' in facts:
        return facts['model name']
    return f"implementer {facts.get('CPU implementer', '?')}, part {facts.get('CPU part', '?')}"


HEAD = '''# Measure

Our calls beside a plain C version of the same work (`measure/plain_*.c`). `make measure` writes this page, a section for each machine that it was run on, with the commit that was measured. Nothing in it is written by hand. A section whose first line names no kit is of an older kit's library, and was not measured again.
'''


def machine():
    return platform.machine().replace('x86_64', 'x86-64')


def code():
    """The commit that is measured."""
    done = subprocess.run(['git', 'describe', '--always', '--dirty= with changes'], stdout=subprocess.PIPE, stderr=subprocess.DEVNULL, text=True)
    return done.stdout.strip() or 'not known'


def section(about, rows, runs, load):
    spreads = sorted(row.spread for row in rows)
    return '\n'.join([
        f'## {machine()}',
        '',
        f"- Code: {code()}. Measured is the delivered archive, `libstamp.a`, by the kit `{about['kit']}`.",
        f'- Processor: {processor()}, {os.cpu_count()} of them; load average {load:.2f} at the start.',
        f"- Compiler: the kit's {about['compiler']}, for both.",
        f"- How: {len(runs)} processes, one after the other. In each, {int(about['values']):,} values a row, ours and plain in turns, {about['turns']} "
        'turns; a time is the median of the turns, and here the median of the processes. Both give the same answers to these values, or nothing is '
        f"measured. A row of schedules reads {about['files']} files of 1,000 records, and its times are nanoseconds a record. A row of which "
        f"correction holds asks it of {about['files']} such files, or of files of 10 records, at the instant of the record named and on channels by "
        'chance: the record behind that one, if there is one, is the last that is read. It has as many questions as other rows have values, or fewer '
        'where each of them reads many records; its times are nanoseconds a call. A row of manual over plan asks two of these files at once, with a '
        'record each in the same hours, at the later one of the records named: of either file the record behind it, if there is one, is the last '
        'that is read.',
        f'- Ratio: ours by plain, the median of the processes, among which it moved by {100 * median(spreads):.0f} % at the median row, by '
        f'{100 * spreads[-1]:.0f} % at the worst. Above {SLOWER} ours is slower; between 1 and {SLOWER} the difference may be chance.',
        '',
        COLUMNS,
        '|---|---:|---:|---:|',
        *[row.line() for row in rows],
        '',
        f'Bold: slower than plain: {sum(row.slower() for row in rows)} of {len(rows)}.',
        ''])


def sections(page):
    """The sections of a page by their machine's name."""
    return {found.split('\n', 1)[0][3:]: found for found in re.split(r'^(?=## )', page, flags=re.M)[1:]}


def page(old, new):
    """The old page with this section in the place of its machine's. A section with other columns is from an older measure, and goes."""
    found = {name: text.rstrip() + '\n' for name, text in {**sections(old), **sections(new)}.items() if COLUMNS in text.splitlines()}
    return '\n'.join([HEAD, *[found[name] for name in sorted(found)]])


def main():
    if len(sys.argv) not in (2, 3):
        sys.exit(__doc__)
    load = os.getloadavg()[0]
    results = [run(sys.argv[1]) for _ in range(int(sys.argv[2]) if len(sys.argv) == 3 else 9)]
    runs = [rows for _, rows in results]
    text = section(results[0][0], [Row(name, runs) for name in runs[0]], runs, load)
    path = Path(__file__).resolve().parent.parent / 'docs' / 'MEASURE.md'
    path.write_text(page(path.read_text() if path.exists() else '', text))
    print(text, end='')


if __name__ == '__main__':
    main()
