#!/usr/bin/env python3
"""explain.py PROGRAM: gives the program each C text of .ci/cases/check.cases as it is, and each of fewer than 1000 bytes that has no
double quote also with line markers put in, and compares what `explain` writes with what `check` says of it, by a line, a column and
a part of the line that are found here anew. The reasons are those that `codes` writes. The status is 0 where there are texts and
each is explained so."""
import concurrent.futures
import os
import pathlib
import re
import subprocess
import sys
import tempfile

import cases

BEFORE = BEHIND = 60
MARKER = re.compile(rb'[ \t]*# (0|[1-9][0-9]{0,9}) "(.*)"(?: [1-4])*[ \t\r]*')


def marked(text):
    """The number and the name that a line marker line gives to the line behind it, or None."""
    found = MARKER.fullmatch(text)
    return (int(found[1]), found[2]) if found and int(found[1]) < 2 ** 32 else None


def located(name, text, place):
    """The file, the line, the column and where the line of the place begins."""
    file, line, begins = name, 1, text.rfind(b'\n', 0, place) + 1
    for before in text[:begins].split(b'\n')[:-1]:
        found = marked(before)
        file, line = (found[1], found[0]) if found else (file, line + 1)
    return file, line, place - begins + 1, begins


def shown(text):
    return bytes(byte if 32 <= byte <= 126 else 32 for byte in text)


def explained(name, text, code, place, reason):
    """What `explain` is to write on the error stream."""
    file, line, column, begins = located(name, text, place)
    ends = text.find(b'\n', place)
    start = max(begins, place - BEFORE)
    part = text[start:min(place + BEHIND, ends if ends >= 0 else len(text))]
    return b'%s:%d:%d: %s: %s\n%s\n%s^\n' % (shown(file), line, column, code, reason, shown(part), b' ' * (place - start))


def run(program, words, folder):
    done = subprocess.run([program, *words], cwd=folder, stdin=subprocess.DEVNULL, capture_output=True, timeout=cases.SECONDS)
    return done.returncode, done.stdout, done.stderr


def differs(program, reasons, text):
    """What is wrong with the answer on the text, or None."""
    with tempfile.TemporaryDirectory() as folder:
        pathlib.Path(folder, 'f').write_bytes(text)
        status, out, err = run(program, ['check', 'f'], folder)
        found = re.fullmatch(rb'source refused (\w+) at (\d+)\n', err)
        wanted = (3, b'', explained(b'f', text, found[1], int(found[2]), reasons[found[1]])) if found else (status, out, err)
        got = run(program, ['explain', 'f'], folder)
    return None if got == wanted else f'{text[:200]!r}\n  wanted {wanted}\n  got    {got}'


def texts():
    """Each text that a case of `check` reads."""
    for case in cases.cases_of(cases.TOP / '.ci/cases/check.cases'):
        for fields in case['rows']:
            for said in case['files'].values():
                yield cases.made(said, case, fields)


def main():
    program = os.path.abspath(sys.argv[1])
    listed = subprocess.run([program, 'codes'], capture_output=True, timeout=cases.SECONDS).stdout.splitlines()
    reasons = dict(line.split(b' ', 1) for line in listed)
    plain = list(texts())
    # the same with another name and number for each line: a marker before the text and one behind each semicolon
    changed = [b'# 40 "a.h" 1\n' + text.replace(b'; ', b';\n\t# 7 "dir/b c.h" 2 \n', 3) for text in plain if b'"' not in text and len(text) < 1000]
    with concurrent.futures.ThreadPoolExecutor(os.cpu_count()) as pool:
        found = list(pool.map(lambda text: differs(program, reasons, text), plain + changed))
    wrong = [text for text in found if text]
    for text in wrong:
        print(text)
    print(f'{len(found)} texts explained, {len(wrong)} wrong')
    return 1 if wrong or not found else 0


if __name__ == '__main__':
    sys.exit(main())
