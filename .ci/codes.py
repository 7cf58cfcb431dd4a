#!/usr/bin/env python3
"""codes.py PROGRAM: gives the program each example of docs/CODES.md and compares what it writes on the error stream
with the example's last line. The status is 0 where there are examples and each is refused as its page says.

An example is a block ```text whose last line is a refusal. What stands before it is the file, or where it begins with
`$ ` a command, and the file is what bash writes for it. Files are C texts, models, traces, interleaved traces,
recorded results, schedules or certificates, as the line says."""
import os
import pathlib
import re
import subprocess
import sys
import tempfile

PAGE = pathlib.Path(__file__).resolve().parent.parent / 'docs/CODES.md'
SECONDS = 60
MODEL = 'dyckmon-model 1\nfunctions 1\nf main 0 1\nnodes 2\ns 0 getpid 1\nstart 0\nend\n'
PROGRAM = 'int main(void) { return 0; }\n'
TRACE = 'dyckmon-trace 1\nS getpid = 100\nS getpid = 101\nend open\n'


def words_of(line):
    """The words with which the file `it` is refused by this line."""
    kind, code = line.split()[0], line.split()[2]
    if kind == 'source':
        return [{'G': 'model', 'N': 'instrument'}.get(code[0], 'check'), 'it']
    if kind == 'model':
        return ['inline' if code[0] == 'I' else 'upgrade', 'it']
    if code[0] == 'F':
        return ['run', 'program', 'it', '10']
    if code[0] == 'S':
        return ['fleet', 'it', 'stack']
    if code[0] == 'Q':
        return ['confirm', 'model', 'trace', 'it']
    return ['watch' if code == 'X4' else 'judge', 'model', 'it', 'all']


def differs(program, lines):
    """What is wrong with an example, or None."""
    wanted = lines[-1]
    with tempfile.TemporaryDirectory() as folder:
        pathlib.Path(folder, 'model').write_text(MODEL)
        pathlib.Path(folder, 'program').write_text(PROGRAM)
        pathlib.Path(folder, 'trace').write_text(TRACE)
        with open(pathlib.Path(folder, 'it'), 'wb') as it:
            if lines[0].startswith('$ '):
                subprocess.run(['bash', '-c', '\n'.join(lines[:-1])[2:]], stdout=it, check=True, timeout=SECONDS)
            else:
                it.write(''.join(line + '\n' for line in lines[:-1]).encode())
        try:
            words = [program, *words_of(wanted)]
            done = subprocess.run(words, cwd=folder, capture_output=True, text=True, timeout=SECONDS)
        except subprocess.TimeoutExpired:
            return f'wanted {wanted}, got no end within {SECONDS} s'
    if done.stderr == wanted + '\n' and not done.stdout:
        return None
    return f'wanted {wanted}, got status {done.returncode}, {done.stderr.strip()} {done.stdout[:200]}'


def main():
    program = os.path.abspath(sys.argv[1])
    texts = re.findall(r'^```text\n(.*?)^```', PAGE.read_text(), flags=re.S | re.M)
    blocks = [text.rstrip('\n').split('\n') for text in texts]
    examples = [block for block in blocks if re.match(r'(source|model|record) refused ', block[-1])]
    wrong = [why for why in (differs(program, block) for block in examples) if why]
    for why in wrong:
        print(why)
    print(f'{len(examples)} examples of codes, {len(wrong)} wrong')
    return int(bool(wrong) or not examples)


if __name__ == '__main__':
    sys.exit(main())
