#!/usr/bin/env python3
"""faults.py PROGRAM: runs a small case of each command, and a few that are refused, as often as it reads and writes, and lets one
read or one write fail in each run (faults.c). Where a read fails, the status has to be 6, with nothing on out and the line of
it on the error stream; where a write to out fails, 7, with what stood before it on out; where a write to the error stream
fails, status and out are as they are else. Where both a read or a write to out and a write to the error stream fail, the
status is that of the first. Where reads and writes take few bytes, all is as it is else. Where there is no cc, a line says
so. The status is 0 where each run ends so, and each case reads what it has to."""
import concurrent.futures
import os
import pathlib
import shutil
import subprocess
import sys
import tempfile

import memory

# Words without a command of their own that reads, and cases of refusals.
READ_NOTHING = ['--version', '--help', 'codes', 'selftest']
REFUSALS = ['judge two_callers.model', 'check unknown_name.c', 'judge two_callers.model bad_number.trace callgraph', 'run two_calls.c empty.results 1000']
FILES = memory.FILES | {
    'unknown_name.c': 'int main(void) { return x; }',
    'bad_number.trace': 'dyckmon-trace 1\nS getpid = 0100\nend open\n',
    'empty.results': '',
}
# How few bytes reads and writes take.
SHORT = 48


class Runs:
    """Runs of a program with a library before its others, in a folder with the files of the cases."""

    def __init__(self, program, folder):
        self.program, self.folder, self.library = program, folder, f'{folder}/faults.so'
        for path in (memory.TOP / 'examples').iterdir():
            shutil.copy(path, folder)
        for name, text in FILES.items():
            pathlib.Path(folder, name).write_text(text)
        subprocess.run(['cc', '-shared', '-fPIC', '-O1', '-o', self.library, memory.TOP / '.ci/faults.c'], check=True)

    def run(self, words, **faults):
        """What a run answers where these reads and writes fail, and how many there were of each."""
        read, write = os.pipe()
        with open(read) as asked:
            try:
                setting = {'LD_PRELOAD': self.library, 'ASKED': str(write)} | {name: str(number) for name, number in faults.items()}
                made = subprocess.run([self.program, *words], cwd=self.folder, env=setting, pass_fds=[write], stdin=subprocess.DEVNULL,
                                      capture_output=True, timeout=60)
            finally:
                os.close(write)
            return (made.returncode, made.stdout.decode('latin-1'), made.stderr.decode('latin-1')), [int(it) for it in asked.read().split()]


def fault(status, out, err):
    return f'status {status}, out {out!r}, err {err!r}'


def wrong_of(program, pool, case):
    """The lines that tell what is wrong of a case, and how many runs it had."""
    words, wrong = case.split(), []
    own, _ = program.run(words)
    short, (reads, to_out, to_err) = program.run(words, SHORT=SHORT)
    status, out, err = own

    def each(kind, count, **more):
        return [it for it, _ in pool.map(lambda number: program.run(words, SHORT=SHORT, **{kind: number}, **more), range(1, count + 1))]

    def see(holds, what, answer):
        if not holds:
            wrong.append(f'{case}, {what}: {fault(*answer)}')

    see(short == own, f'where reads and writes take {SHORT} bytes', short)
    tiny, _ = program.run(words, SHORT=1)
    see(tiny == own, 'where reads and writes take one byte', tiny)
    reads_files = words[0] not in READ_NOTHING and status != 2
    see((reads > 0) == reads_files, f'{reads} reads', own)
    see((to_out > 0) == (out != '') and (to_err > 0) == (err != ''), f'{to_out} and {to_err} writes', own)
    for number, answer in enumerate(each('READ', reads), 1):
        see(answer == (6, '', 'read fault\n'), f'where read {number} of {reads} fails', answer)
    before = -1
    for number, answer in enumerate(each('OUT', to_out), 1):
        taken = answer[1]
        see(answer == (7, taken, 'write fault\n') and out.startswith(taken) and before < len(taken) < len(out), f'where write {number} of {to_out} to out fails', answer)
        before = len(taken)
    for number, answer in enumerate(each('ERR', to_err), 1):
        see(answer[:2] == own[:2] and err.startswith(answer[2]) and len(answer[2]) < len(err), f'where write {number} of {to_err} to the error stream fails', answer)
    if reads:
        answer, _ = program.run(words, READ=1, ERR=1)
        see(answer == (6, '', ''), 'where the first read and the first write to the error stream fail', answer)
    if to_out:
        answer, _ = program.run(words, OUT=1, ERR=1)
        see(answer == (7, '', ''), 'where the first writes to out and to the error stream fail', answer)
    return wrong, reads + to_out + to_err + (reads > 0) + (to_out > 0)


def main():
    program = os.path.abspath(sys.argv[1])
    if not shutil.which('cc'):
        print('faults.py: there is no cc, so no read and no write fails')
        return 0
    said = subprocess.run([program, '--help'], capture_output=True, text=True).stdout
    commands = {line.split()[1] for line in said.splitlines() if line.startswith('dyckmon ')}
    wrong, runs = [], 0
    with tempfile.TemporaryDirectory() as folder, concurrent.futures.ThreadPoolExecutor(os.cpu_count()) as pool:
        program = Runs(program, folder)
        for case in memory.CASES + REFUSALS:
            if case.split()[0] in commands:
                more, count = wrong_of(program, pool, case)
                wrong += more
                runs += count
    for line in wrong:
        print(f'faults.py: {line}')
    print(f'{runs} runs with faults, {len(wrong)} wrong')
    return 1 if wrong else 0


if __name__ == '__main__':
    sys.exit(main())
