#!/usr/bin/env python3
"""memory.py PROGRAM: runs a small case of each command as often as it asks for memory, and refuses it once in each run
(refuse.c). The status has to be 8 then, with nothing on out and the line of it on the error stream, or none where the words could
not be had; or 6 where the system could not open a file for want of memory; or the run answers as it does with memory, where it
goes on without. Where there is no cc, a line says so. The status is 0 where each run ends so, each case writes nothing on the
error stream with memory and is refused it in some run, and each command has a case."""
import concurrent.futures
import os
import pathlib
import shutil
import subprocess
import sys
import tempfile

TOP = pathlib.Path(__file__).resolve().parent.parent
# The words of a case for each command, over the files of examples and those below; of `confirm` there are two, since a rejected
# claim asks for more.
CASES = [
    '--version', '--help', 'audit two_calls.c two_calls.results 1000 1000', 'certify two_callers.model two_callers.trace stack', 'check two_calls.c',
    'codes', 'confirm one_getpid.model one_getpid.trace one_getpid.certificate',
    'confirm two_callers.model two_callers.trace two_callers.certificate', 'depth two_callers.model', 'expected two_callers.model two_callers.trace all',
    'explain two_calls.c', 'fleet two_callers.schedule stack', 'inline two_callers.model', 'instrument two_calls.c',
    'judge two_callers.model two_callers.trace all', 'measure two_callers.model two_callers.trace all', 'model two_calls.c', 'picture two_callers.model',
    'run two_calls.c two_calls.results 1000', 'selftest 1 2', 'sites two_calls.c', 'upgrade two_callers.model', 'watch echo_server.model echo_server.traces all',
]
# What the program answers by its status, what it writes and its error stream.
REFUSED, WITHOUT_WORDS, NOT_OPENED = (8, '', 'out of memory\n'), (8, '', ''), (6, '', 'read fault\n')
FILES = {
    'one_getpid.certificate': 'dyckmon-certificate 1\nwhich callgraph\naccepted 1\na 0 0 start\na 1 1 event 1\nend\n',
    'two_callers.certificate': 'dyckmon-certificate 1\nwhich stack\nrejected 4\na 0 0 1 3 start\na 0 0 0 0 enter 1 1\nl 0 0 0 1 1 1\n'
                               'a 1 0 0 2 event 2\na 1 0 0 1 silent 4\na 1 0 1 5 return 5 3\na 2 0 1 6 event 6\na 2 2 0 0 enter 7 3\n'
                               'l 2 0 0 1 3 7\na 3 2 0 2 event 8\na 3 2 0 1 silent 10\na 3 0 1 7 return 11 9\na 3 0 1 4 silent 12\nend\n',
    'two_callers.schedule': 'dyckmon-fleet 1\np 7 two_callers.c two_callers.model two_calls.results 1000 1000\na 7\na 7\nend\n',
}


class Runs:
    """Runs of a program with a library before its others, in a folder with the files of the cases."""

    def __init__(self, program, folder):
        self.program, self.folder, self.library = program, folder, f'{folder}/refuse.so'
        for path in (TOP / 'examples').iterdir():
            shutil.copy(path, folder)
        for name, text in FILES.items():
            pathlib.Path(folder, name).write_text(text)
        subprocess.run(['cc', '-shared', '-fPIC', '-O1', '-o', self.library, TOP / '.ci/refuse.c'], check=True)

    def run(self, words, number=0):
        """What a run answers where this allocation is refused, and how many it asked for."""
        read, write = os.pipe()
        with open(read) as asked:
            try:
                setting = {'LD_PRELOAD': self.library, 'REFUSED': str(number), 'ASKED': str(write)}
                made = subprocess.run([self.program, *words], cwd=self.folder, env=setting, pass_fds=[write], stdin=subprocess.DEVNULL,
                                      capture_output=True, timeout=60)
            finally:
                os.close(write)
            return (made.returncode, made.stdout.decode('latin-1'), made.stderr.decode('latin-1')), int(asked.read() or 0)


def main():
    program = os.path.abspath(sys.argv[1])
    if not shutil.which('cc'):
        print('memory.py: there is no cc, so no memory is refused')
        return 0
    said = subprocess.run([program, '--help'], capture_output=True, text=True).stdout
    commands = {line.split()[1] for line in said.splitlines() if line.startswith('dyckmon ')}
    wrong = [f'no case of {it}' for it in sorted(commands - {it.split()[0] for it in CASES})]
    runs = 0
    with tempfile.TemporaryDirectory() as folder, concurrent.futures.ThreadPoolExecutor(os.cpu_count()) as pool:
        program = Runs(program, folder)
        for case in CASES:
            if case.split()[0] not in commands:
                continue
            words = case.split()
            own, asked = program.run(words)
            answers = [it for it, _ in pool.map(lambda number: program.run(words, number), range(1, asked + 1))]
            runs += asked
            if own[2]:
                wrong.append(f'{case}: {own}')
            if REFUSED not in answers:
                wrong.append(f'{case}: {asked} allocations, of which none is refused')
            for number, answer in enumerate(answers, 1):
                if answer not in (REFUSED, WITHOUT_WORDS, NOT_OPENED, own):
                    wrong.append(f'{case}, where allocation {number} of {asked} is refused: {answer}')
    for line in wrong:
        print(f'memory.py: {line}')
    print(f'{runs} allocations refused, {len(wrong)} wrong')
    return 1 if wrong else 0


if __name__ == '__main__':
    sys.exit(main())
