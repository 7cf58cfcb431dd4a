#!/usr/bin/env python3
"""readme.py PROGRAM [PAGE..]: runs the commands that stand in the blocks ```console of these pages, or of README.md and of each
page of docs/ that has some, and compares what they write on the standard output, and their statuses, with what stands below
them. The status is 0 where README.md, or each page that is named, has a command and each command does as its page says.

The blocks of a page are run in order in one folder, which has a copy of examples/ and the program as dyckmon. A line `$ COMMAND`
is run by bash; the lines below it, up to the next such line or the block's end, are what it writes. A last line `# status N`
among them is its status, which else is 0. `$ ./build` and `$ bash .ci/run` are not run, and a block with `$ cc ..` is left out, as
a line says, where there is no cc."""
import os
import pathlib
import re
import shutil
import subprocess
import sys
import tempfile

TOP = pathlib.Path(__file__).resolve().parent.parent
SECONDS = 60
NOT_RUN = ('./build', 'bash .ci/run')


def blocks(page):
    """The number of the first line of each block of the page, and its lines."""
    found = None
    for number, line in enumerate(page.read_text().split('\n'), 1):
        if found is None and line.strip() == '```console':
            found = (number + 1, [])
        elif found and line.strip() == '```':
            yield found
            found = None
        elif found:
            found[1].append(line)
    if found:
        sys.exit(f'{page}, line {found[0]}: the block has no end')


def commands(first, lines):
    """Each command of a block: the number of its line, the command, what it writes and its status."""
    found = []
    for number, line in enumerate(lines, first):
        if line.startswith('$ '):
            found.append([number, line[2:], [], 0])
        elif not found:
            sys.exit(f'line {number}: a block begins with a line `$ COMMAND`')
        elif re.fullmatch(r'# status \d+', line):
            found[-1][3] = int(line.split()[2])
        else:
            found[-1][2].append(line)
    return found


def differs(command, folder, wanted, status):
    """How what the command does differs from what is wanted, or None."""
    try:
        done = subprocess.run(['bash', '-c', command], cwd=folder, stdin=subprocess.DEVNULL, capture_output=True, timeout=SECONDS)
    except subprocess.TimeoutExpired:
        return f'  no end within {SECONDS} s'
    out = done.stdout.decode(errors='replace')
    if (out, done.returncode) == (wanted, status):
        return None
    err = done.stderr.decode(errors='replace')
    return f'  wanted status {status}, and\n{wanted}  got status {done.returncode}, and\n{out}  with on the error stream\n{err}'.rstrip('\n')


def run_page(page, program):
    """How many commands of the page were run, and what was wrong."""
    count, wrong = 0, []
    with tempfile.TemporaryDirectory() as folder:
        shutil.copytree(TOP / 'examples', pathlib.Path(folder, 'examples'))
        os.symlink(program, pathlib.Path(folder, 'dyckmon'))
        for first, lines in blocks(page):
            if any(line.startswith('$ cc ') for line in lines) and not shutil.which('cc'):
                print(f'{page.name}, line {first}: there is no cc, so this block is left out')
                continue
            for number, command, out, status in commands(first, lines):
                if command in NOT_RUN:
                    continue
                count += 1
                why = differs(command, folder, ''.join(line + '\n' for line in out), status)
                if why:
                    wrong.append(f'{page.name}, line {number}: {command}\n{why}')
    return count, wrong


def main():
    program = os.path.abspath(sys.argv[1])
    status = 0
    pages = [pathlib.Path(it) for it in sys.argv[2:]]
    if not pages:
        pages = [TOP / 'README.md', *(it for it in sorted((TOP / 'docs').glob('*.md')) if any(blocks(it)))]
    for page in pages:
        count, wrong = run_page(page, program)
        for text in wrong:
            print(text)
        print(f'{page.name}: {count} commands, {len(wrong)} wrong')
        status |= bool(wrong) or not count
    return int(status)


if __name__ == '__main__':
    sys.exit(main())
