#!/usr/bin/env python3
"""cases.py PROGRAM [COMMAND..]: runs the program on the cases of .ci/cases/COMMAND.cases, or on all cases, and prints each that
differs from what is wanted. The status is 0 where there are cases and each is as wanted. Cases of a command that the program's
--help does not name are left out, and a line says so; those of tool.cases, on words that are no such command, never are.

A file of cases is a list of blocks. A line that begins with # is a comment.

    text NAME           a text that the cases below may name
    case TITLE          begins a case; its title says what it shows
    file NAME           a file that lies where the program runs
    run WORD..          the words that the program gets
    status N            its exit status; 0 where there is no such line
    out, out begins     what it writes, or what that begins with; nothing where there is no such line
    out facts           a certificate that it writes, with its facts in this or another order
    err                 what it writes on the error stream; nothing where there is no such line
    each                lines of fields with ' :: ' between them; the case is run for each, with @1, @2 .. for the fields
    cut NAME            the case is run for each proper prefix of the file
    spoil NAME          the case is run for each byte of the file, with byte 31 in its place and @k for the number of its line

A text stands in the lines below, each after four spaces; or as one line behind the word, as in `err usage`; or as `= TEXT`, with
no line feed at its end; or as `is NAME` of a text, or `from PATH` of a file of the repository. In texts and fields \\n is a line
feed, \\t a tab, \\r a carriage return, \\\\ a backslash and \\xHH a byte. @<N:PIECE@> is the piece N times, with @n for the
number of the time, from 1, and @d for the same with five digits; @<M-N:PIECE@> counts from M to N."""
import concurrent.futures
import os
import pathlib
import re
import subprocess
import sys
import tempfile

TOP = pathlib.Path(__file__).resolve().parent.parent
SECONDS = 60
SHOWN = 400
ESCAPES = {'n': '\n', 't': '\t', 'r': '\r', '\\': '\\'}


def unescaped(text):
    return re.sub(r'\\(x[0-9a-f]{2}|.)', lambda m: chr(int(m[1][1:], 16)) if len(m[1]) > 1 else ESCAPES[m[1]], text)


def repeated(match):
    first, last, piece = int(match[1] or 1), int(match[2]), match[3]
    if '@n' not in piece and '@d' not in piece:
        return piece * (last - first + 1)
    return ''.join(piece.replace('@n', str(n)).replace('@d', '%05d' % n) for n in range(first, last + 1))


def spelled(text):
    return re.sub(r'@<(?:(\d+)-)?(\d+):(.*?)@>', repeated, unescaped(text), flags=re.S)


def filled(text, fields):
    return re.sub(r'@([1-9])', lambda m: fields[int(m[1]) - 1] if int(m[1]) <= len(fields) else m[0], text)


def made(said, case, fields):
    """The bytes of a text, as it is said behind a word or in the lines below it."""
    said = filled(said, fields)
    if said.startswith('from '):
        return (TOP / said[5:]).read_bytes()
    if said.startswith('is '):
        said = case['texts'][said[3:]]
    return spelled(said[2:] if said.startswith('= ') else said).encode('latin-1')


def blocks(path):
    """Each line of the file that isn't indented, its number, and the indented lines below it."""
    head = None
    for number, line in enumerate(path.read_text().splitlines(), 1):
        if line.startswith('    '):
            head[2].append(line[4:])
        elif line and not line.startswith('#'):
            if head:
                yield head
            head = (number, line.split(' ', 1), [])
    if head:
        yield head


def whole(said, lines):
    """What is said behind a word, or in the lines below it; a text has a line feed at its end where that is not said otherwise."""
    if lines:
        return ''.join(line + '\n' for line in lines)
    return said if re.match('= |is |from ', said) or not said else said + '\n'


def cases_of(path):
    """The cases of a file."""
    texts, case = {}, None
    for number, (word, *said), lines in blocks(path):
        said = said[0] if said else ''
        if word == 'case':
            if case:
                yield case
            case = dict(place=f'{path.name}, line {number}: {said}', texts=texts, files={}, words='', status='0', out='', err='',
                        begins=False, facts=False, rows=[()], cut=None, spoil=None)
        elif word in ('text', 'file'):
            name, _, said = said.partition(' ')
            (texts if word == 'text' else case['files'])[name] = whole(said, lines)
        elif word == 'run':
            case['words'] = said
        elif word in ('status', 'cut', 'spoil'):
            case[word] = said
        elif word in ('out', 'err'):
            case['begins'] |= said == 'begins'
            case['facts'] |= said == 'facts'
            case[word] = whole(said, lines)
        elif word == 'each':
            case['rows'] = [[field.strip() for field in line.split('::')] for line in lines]
        else:
            sys.exit(f'{path}, line {number}: no such word: {word}')
    if case:
        yield case


def variants_of(case, fields):
    """How the files of a case are changed: the name of a file, what it is changed to, and the number of the changed line."""
    if case['cut']:
        text = made(case['files'][case['cut']], case, fields)
        return [(case['cut'], text[:i], 0) for i in range(len(text))]
    if case['spoil']:
        text = made(case['files'][case['spoil']], case, fields)
        return [(case['spoil'], text[:i] + b'\x1f' + text[i + 1:], text.count(b'\n', 0, i) + 1) for i in range(len(text))]
    return [(None, b'', 0)]


def in_any_order(text):
    """The head, the facts and the end of a certificate: the facts sorted, each with those that its reason names in place of their
    numbers."""
    lines, facts, said = text.decode('latin-1').split('\n'), [], []
    stack = lines[1:2] == ['which stack']
    for words in (line.split(' ') for line in lines[3:-2]):
        columns = 6 if words[0] == 'l' else 5 if stack else 3
        reason = ' '.join(words[columns:])
        # all its numbers are those of facts, or the first one is, and the second that of a site
        count = 0 if stack and not reason.startswith('enter') else 1
        named = re.sub(r'\d+', lambda m: facts[int(m[0]) - 1] if 0 < int(m[0]) <= len(facts) else m[0], reason, count=count)
        facts.append(' '.join(words[:columns]))
        said.append(f'{facts[-1]}: {named}')
    return lines[:3], sorted(said), lines[-2:]


def shown(status, out, err):
    return f'status {status}, out {out[:SHOWN]!r}, err {err[:SHOWN]!r}'


def differs(program, case, fields, variant):
    """What is wrong with the run of the case with these fields and this change of its files, or None."""
    name, changed, line = variant
    words = spelled(filled(case['words'], fields)).split()
    wanted = filled(case['status'], fields), made(case['out'], case, fields), made(case['err'], case, fields).replace(b'@k', b'%d' % line)
    with tempfile.TemporaryDirectory() as folder:
        for file, text in case['files'].items():
            pathlib.Path(folder, file).write_bytes(changed if file == name else made(text, case, fields))
        try:
            done = subprocess.run([program, *words], cwd=folder, stdin=subprocess.DEVNULL, capture_output=True, timeout=SECONDS)
            got = str(done.returncode), done.stdout, done.stderr
        except subprocess.TimeoutExpired:
            got = f'none in {SECONDS} s', b'', b''
    out = got[1][:len(wanted[1])] if case['begins'] else got[1]
    if case['facts'] and in_any_order(out) == in_any_order(wanted[1]):
        out = wanted[1]
    if (got[0], out, got[2]) == wanted:
        return None
    return '\n'.join([case['place'], f'  {" :: ".join(fields)}' + (f'  {name}: {changed[:SHOWN]!r}' if name else ''),
                      f'  words  {words}', f'  wanted {shown(*wanted)}', f'  got    {shown(*got)}'])


def main():
    program, commands = os.path.abspath(sys.argv[1]), sys.argv[2:]
    help_text = subprocess.run([program, '--help'], capture_output=True, text=True, timeout=SECONDS).stdout
    known = ['tool'] + re.findall(r'^dyckmon (\w+)', help_text, flags=re.M)
    runs = []
    with concurrent.futures.ThreadPoolExecutor(os.cpu_count()) as pool:
        for command in commands or sorted(path.stem for path in (TOP / '.ci/cases').glob('*.cases')):
            if command not in known:
                print(f'the program has no command {command}, so its cases are left out')
                continue
            for case in cases_of(TOP / f'.ci/cases/{command}.cases'):
                for fields in case['rows']:
                    runs += [pool.submit(differs, program, case, fields, variant) for variant in variants_of(case, fields)]
        found = [run.result() for run in runs]
    wrong = [text for text in found if text]
    for text in wrong:
        print(text)
    print(f'{len(found)} cases, {len(wrong)} wrong')
    return 1 if wrong or not found else 0


if __name__ == '__main__':
    sys.exit(main())
