#!/usr/bin/env python3
"""scripts.py PROGRAM: tries ./dyckmon, ./build and .ci/run in a small repository with stand-ins for rt, which runs PROGRAM where
rt try would compile it, and for .ci/smoke. The status is 0 where all three do as their heads say."""
import os
import pathlib
import shutil
import subprocess
import sys
import tempfile
import time

TOP = pathlib.Path(__file__).resolve().parent.parent
TOOLS = 'awk bash cat chmod cp cut dirname env find flock grep head mkdir mktemp mv readlink rm sed sha256sum sleep sort stat tail tar xargs'
RT = r'''#!/usr/bin/env bash
# A stand-in for rt: mode in the file MODE beside it, a line for each call in the file CALLS, and one for each rt ci
# of a repository in which a copy stands that a build made.
here=$(dirname "$0")
mode=$(cat "$here/MODE")
echo "$1" >>"$here/CALLS"
if [ "$1" = ci ]; then
    [ -e out/build ] && echo left >>"$here/CALLS"
    sleep 1
    echo 'rt: low is kept: an earlier run on this machine proved the same files over the same libraries'
    [ "$mode" = broken ] && echo 'rt: dyckmon NOT PROVED' && echo '1 passed, 1 failed' && exit 1
    echo 'fn dyckmon::main: proved'
    echo 'rt: dyckmon proved'
    mkdir -p crates/dyckmon/out && cp "$here/PROGRAM" crates/dyckmon/out/dyckmon
    echo '2 passed, 0 failed'
    exit
fi
shift
folder=$(mktemp -d)
trap 'rm -rf "$folder"' EXIT
while [ "$1" = --data ]; do
    mkdir -p "$folder/$(dirname "${2%%=*}")" && cp "${2#*=}" "$folder/${2%%=*}"
    shift 2
done
shift
[ "$mode" = limit ] && printf 'checked: no-answer: the program did not end within the time limit\nrun=no-answer proved=no\n' >&2 && exit 6
[ "$mode" = broken ] && printf 'error: a file is missing\nrun=none proved=no\n' >&2 && exit 1
echo 'rt: a check will refuse this: nothing' >&2
(cd "$folder" && env -i "$here/PROGRAM" "$@")
status=$?
printf 'checked: ended status=%s\nrun=ended status=%s runners=1 proved=no\n' "$status" "$status" >&2
exit "$status"
'''
UNPROVED, CHANGED = 'dyckmon: no proved program is in out/ yet', 'dyckmon: the sources have changed'
wrong, tried = [], 0


class Repository:
    """A small repository, with a folder of tools that has rt or lacks it."""

    def __init__(self, folder, program):
        self.top, self.tools = pathlib.Path(folder, 'repository'), pathlib.Path(folder, 'tools')
        self.program, self.path = program, str(self.tools)
        for crate in ('dyckmon', 'low', 'other'):
            (self.top / f'crates/{crate}/src').mkdir(parents=True)
            (self.top / f'crates/{crate}/src/main.rt').write_text(f'// {crate}\n')
            (self.top / f'crates/{crate}/must-fail').mkdir()
        (self.top / 'crates.txt').write_text('# A comment.\nlow:\ndyckmon: low\nother: low\n')
        (self.top / 'HANDLES').write_text('Handles allowed: none.\n')
        (self.top / '.ci').mkdir()
        for name in ('dyckmon', 'build', '.ci/program', '.ci/run'):
            shutil.copy(TOP / name, self.top / name)
        (self.top / '.ci/smoke').write_text('echo tried\n')
        shutil.copytree(TOP / 'examples', self.top / 'examples')
        self.tools.mkdir()
        for name in TOOLS.split():
            os.symlink(shutil.which(name), self.tools / name)

    def add_rt(self):
        (self.tools / 'rt').write_text(RT)
        (self.tools / 'rt').chmod(0o755)
        shutil.copy(self.program, self.tools / 'PROGRAM')
        self.mode('well')

    def mode(self, mode):
        (self.tools / 'MODE').write_text(mode)

    def calls(self):
        calls = self.tools / 'CALLS'
        return calls.read_text().split() if calls.exists() else []

    def start(self, *words, text=b'', within='.'):
        where = self.top / within
        script = os.path.relpath(self.top / words[0], where)
        script = script if '/' in script else './' + script
        made = subprocess.Popen([script, *words[1:]], cwd=where, env={'PATH': self.path}, stdin=subprocess.PIPE, stdout=subprocess.PIPE,
                                stderr=subprocess.PIPE)
        made.stdin.write(text)
        made.stdin.close()
        made.stdin = None
        return made

    def run(self, *words, **how):
        made = self.start(*words, **how)
        out, err = made.communicate(timeout=60)
        return made.returncode, out.decode(), err.decode().splitlines()


def wants(what, holds, got):
    global tried
    tried += 1
    if not holds:
        wrong.append(f'{what}: {got}')


def begin(lines, *beginnings):
    """Whether there are as many lines as beginnings, each of which begins one."""
    return len(lines) == len(beginnings) and all(map(str.startswith, lines, beginnings))


def try_trials(repository):
    """While no proved program is there."""
    judge = ('examples/one_getpid.model', 'examples/two_getpids.trace', 'callgraph')
    rejected = 'callgraph rejected 2 S getpid = 101\n'
    got = repository.run('dyckmon', 'judge', *judge)
    wants('no rt: dyckmon', got[:2] == (70, '') and begin(got[2], 'dyckmon: no proved program'), got)
    got = repository.run('build')
    wants('no rt: build', got[:2] == (70, '') and begin(got[2], 'build: there is no command rt'), got)
    repository.add_rt()
    got = repository.run('dyckmon', 'judge', *judge)
    wants('a trial', got[:2] == (1, rejected) and begin(got[2], UNPROVED), got)
    got = repository.run('dyckmon', 'judge', *('../' + it for it in judge[:2]), judge[2], within='crates')
    wants('a trial with files elsewhere', got[:2] == (1, rejected) and begin(got[2], UNPROVED), got)
    got = repository.run('dyckmon', 'judge', *(str(repository.top / it) for it in judge[:2]), judge[2], within='crates')
    wants('a trial with whole paths', got[:2] == (1, rejected) and begin(got[2], UNPROVED), got)
    text = (repository.top / judge[1]).read_bytes()
    got = repository.run('dyckmon', 'judge', judge[0], '-', 'callgraph', text=text)
    wants('a trial from a pipe', got[:2] == (1, rejected) and begin(got[2], UNPROVED), got)
    for word in ('stdin', 'program', '../nothing', 'src/main.rt', ''):
        got = repository.run('dyckmon', 'check', word)
        wants(f'a trial without the file {word!r}', got[:2] == (6, '') and begin(got[2], UNPROVED, 'read fault'), got)
    got = repository.run('dyckmon', 'check', 'a b', '--')
    wants('a trial of other words', got[:2] == (2, '') and begin(got[2], UNPROVED, 'usage'), got)
    repository.mode('limit')
    got = repository.run('dyckmon', 'judge', *judge)
    wants('a limit of a trial', got[:2] == (71, '') and begin(got[2], UNPROVED, 'dyckmon: the unproved build gives no answer'), got)
    got = repository.run('dyckmon', 'judge', judge[0], '-', 'callgraph', text=bytes(1 << 26))
    wants('the limit of input', got[:2] == (71, '') and begin(got[2], UNPROVED, 'dyckmon: a trial takes less than 64 MiB'), got)
    repository.mode('broken')
    got = repository.run('dyckmon', 'judge', *judge)
    wants('a broken trial', got[:2] == (72, '') and got[2][-1].startswith('dyckmon: the unproved build failed'), got)
    wants('no call of ./dyckmon proves', set(repository.calls()) == {'try'}, repository.calls())


def try_builds(repository):
    """The program is built, and then run."""
    got = repository.run('build')
    wants('a crate is not proved', got[:2] == (75, '') and got[2][-1].startswith('build: a crate is not proved'), got)
    wants('nothing is left then', not (repository.top / 'out/dyckmon').exists(), 'there is a program')
    (repository.top / 'out').rename(repository.top / 'elsewhere')
    (repository.top / 'out').write_text('')
    got = repository.run('build')
    wants('no folder for the program', got[:2] == (73, '') and got[2][-1].startswith('build: ') and "out can't be written" in got[2][-1], got)
    (repository.top / 'out').unlink()
    (repository.top / '.ci/program').rename(repository.top / 'program')
    got = repository.run('dyckmon', '--version')
    wants('a part of the repository', got[:2] == (73, '') and got[2][-1].startswith('dyckmon: a part of the repository'), got)
    (repository.top / 'program').rename(repository.top / '.ci/program')
    repository.mode('well')
    made = [repository.start('build') for _ in range(2)]
    ended = [(it.communicate(timeout=60), it.returncode) for it in made]
    lines = [said[1].decode().splitlines() for said, _ in ended]
    waits = 'build: another call proves and builds; this one waits for it'
    wants('two builds', [it for _, it in ended] == [0, 0] and sorted(waits in it for it in lines) == [False, True], lines)
    wants('the second one waits', repository.calls().count('ci') == 2, repository.calls())
    builds = next(it for it in lines if waits not in it)
    wants('progress', begin(builds, 'build: 2 crates are proved', 'build: 1 of 2 crates are done: low',
                            'build: 2 of 2 crates are done: dyckmon, the program is built next', 'build: the proved program is out/dyckmon'), builds)
    got = repository.run('dyckmon', 'check', 'examples/echo.c')
    wants('the proved program', got == (0, 'ok functions 4 sites 12\n', []), got)
    (repository.top / 'crates/low/must-fail/an.edit').write_text('new\n')
    (repository.top / 'crates/other/src/main.rt').write_text('// new\n')
    got = repository.run('dyckmon', '--version')
    wants('what the program does not stand on', got == (0, 'dyckmon 1\n', []), got)
    (repository.top / 'crates/low/src/main.rt').write_text('// new\n')
    got = repository.run('dyckmon', '--version')
    wants('changed sources', got[:2] == (0, 'dyckmon 1\n') and begin(got[2], CHANGED), got)
    wants('no call of ./dyckmon proves or tries', repository.calls()[-1] == 'ci', repository.calls())
    got = repository.run('build')
    wants('built anew', got[0] == 0 and repository.calls().count('ci') == 3, got)
    got = repository.run('build')
    wants('nothing is to be done', got[0] == 0 and repository.calls().count('ci') == 3 and begin(got[2], 'build: the proved program is'), got)


def try_gate(repository):
    """The gate after a build that was broken off, and beside one that is under way."""
    left = repository.top / 'out/build/crates/low'
    left.mkdir(parents=True)
    repository.mode('broken')
    got = repository.run('.ci/run')
    wants('a gate that does not pass', got[0] == 1 and not got[1].endswith('tried\n'), got)
    left.mkdir(parents=True, exist_ok=True)
    repository.mode('well')
    got = repository.run('.ci/run')
    wants('the gate', got[0] == 0 and got[1].endswith('tried\n'), got)
    wants('a left copy is gone before rt ci', 'left' not in repository.calls() and not left.exists(), repository.calls())
    (repository.top / 'crates/low/src/main.rt').write_text('// newer\n')
    build = repository.start('build')
    while build.poll() is None and not (repository.top / 'out/build/crates.txt').exists():
        time.sleep(0.01)
    got = repository.run('.ci/run')
    said = build.communicate(timeout=60)
    wants('the gate waits for a build', (build.returncode, got[0]) == (0, 0) and 'left' not in repository.calls(), (said, got))
    got = repository.run('dyckmon', '--version')
    wants('the program that the gate left', got == (0, 'dyckmon 1\n', []), got)


def try_elsewhere(repository):
    """The proved program where there is no rt, and on another machine."""
    (repository.tools / 'rt').unlink()
    got = repository.run('dyckmon', '--version')
    wants('the proved program without rt', got == (0, 'dyckmon 1\n', []), got)
    (repository.top / 'out/dyckmon').write_bytes(b'\x7fELF\0\0\0\0')
    got = repository.run('dyckmon', '--version')
    wants('a program of another machine', got[:2] == (74, '') and got[2][-1].startswith("dyckmon: out/dyckmon doesn't run"), got)


def main():
    with tempfile.TemporaryDirectory() as folder:
        repository = Repository(folder, os.path.abspath(sys.argv[1]))
        try_trials(repository)
        try_builds(repository)
        try_gate(repository)
        try_elsewhere(repository)
    for line in wrong:
        print(line)
    print(f'{tried} trials of the scripts, {len(wrong)} wrong')
    return 1 if wrong else 0


if __name__ == '__main__':
    sys.exit(main())
