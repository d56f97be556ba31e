#!/usr/bin/env python3
"""Runs the examples of docs/CONSOLE.md on the bench console and compares their whole output; the first must be the console's own test.

Usage: examples.py PROGRAM
"""
import pathlib
import re
import subprocess
import sys
import textwrap

ROOT = pathlib.Path(__file__).resolve().parent.parent
PAPER = ROOT / 'docs' / 'CONSOLE.md'
# the first example is the console's own test
OWN = [ROOT / 'crates' / 'bench' / name for name in ('stdin', 'stdout')]
# a script, the words between, and what it writes; both are set in by four blanks
EXAMPLE = re.compile(r'((?:    .*\n|\n)+)It writes.*:\n((?:    .*\n|\n)+)')
# how many there are, so that none is passed over for its form
EXAMPLES = 6


def main(program):
    failed, examples = 0, EXAMPLE.findall(PAPER.read_text())
    if len(examples) != EXAMPLES:
        failed += 1
        print(f'FAILED: {len(examples)} examples found, not {EXAMPLES}')
    for script, output in examples:
        script, output = (textwrap.dedent(part).strip('\n') + '\n' for part in (script, output))
        done = subprocess.run([str(pathlib.Path(program).resolve())], input=script.encode(), capture_output=True, timeout=60)
        if done.stdout.decode() != output:
            failed += 1
            print(f'FAILED: {script.splitlines()[0]}: wanted {output!r}, got {done.stdout!r}')
    own = tuple(textwrap.dedent(part).strip('\n') + '\n' for part in examples[0]) if examples else ()
    if own != tuple(path.read_text() for path in OWN):
        failed += 1
        print("FAILED: the first example is not the console's own test, crates/bench")
    print(f'examples: {len(examples)} run, {failed} failed')
    return 1 if failed else 0


if __name__ == '__main__':
    if len(sys.argv) != 2:
        sys.exit(__doc__)
    sys.exit(main(sys.argv[1]))
