#!/usr/bin/env python3
"""alarms.py PROGRAM: for each C text of .ci/alarms.txt and each number of turns from 0 to 30, the trace that the command `run` writes is
judged by the model that `model` writes of the text: the callgraph and the stack monitor have to accept it whole. The text that
`instrument` writes is run too: it has to end alike, with the same events but for null calls, and the three monitors have to accept its
trace whole. `audit` has to write that trace and those verdicts. The status is 0 where all is so.

.ci/alarms.txt has a line `# WHAT IT SHOWS`, a line `R RESULT ..` with the results in their order, and the text in the lines below,
for each text; an empty line ends it. A text may be that of a file of the repository: `from PATH`."""
import concurrent.futures
import os
import pathlib
import re
import subprocess
import sys
import tempfile

TOP = pathlib.Path(__file__).resolve().parent.parent
MOST_TURNS = 30


def texts():
    """What each text shows, its results, and the text."""
    for block in (TOP / '.ci/alarms.txt').read_text().strip().split('\n\n'):
        shows, results, *text = block.split('\n')
        text = '\n'.join(text) + '\n'
        if text.startswith('from '):
            text = (TOP / text[5:].strip()).read_text()
        yield shows[2:], results.split('R ')[1:], text


def wrong(program, shows, results, text):
    """What is not as it has to be with this text, for all numbers of turns."""
    found = []
    with tempfile.TemporaryDirectory() as folder:

        def said(*words):
            done = subprocess.run([program, *words], cwd=folder, stdin=subprocess.DEVNULL, capture_output=True, text=True, timeout=60)
            return done.returncode, done.stdout, done.stderr

        pathlib.Path(folder, 'f').write_text(text)
        pathlib.Path(folder, 'r').write_text('dyckmon-results 1\n' + ''.join(f'R {it.strip()}\n' for it in results) + 'end\n')
        status, model, error = said('model', 'f')
        pathlib.Path(folder, 'm').write_text(model)
        if status:
            return [f'{shows}: model ends with {status}: {error}']
        status, instrumented, error = said('instrument', 'f')
        pathlib.Path(folder, 'i').write_text(instrumented)
        if status:
            return [f'{shows}: instrument ends with {status}: {error}']
        longest = 0
        for turns in range(MOST_TURNS + 1):
            status, trace, error = said('run', 'f', 'r', str(turns))
            pathlib.Path(folder, 't').write_text(trace)
            events = trace.count('\n') - 2
            longest = max(longest, events)
            if status:
                found.append(f'{shows}, {turns} turns: run ends with {status}: {error}')
                continue
            for monitor in ('callgraph', 'stack'):
                if said('judge', 'm', 't', monitor) != (0, f'{monitor} accepted {events}\n', ''):
                    found.append(f'{shows}, {turns} turns: {monitor} does not accept:\n{trace}')
            _, shown, _ = said('run', 'i', 'r', str(turns))
            pathlib.Path(folder, 's').write_text(shown)
            if ''.join(it for it in shown.splitlines(True) if it[:2] not in ('B ', 'E ')) != trace:
                found.append(f'{shows}, {turns} turns: the instrumented text does not do what the text does:\n{shown}')
            events = shown.count('\n') - 2
            verdicts = ''.join(f'{it} accepted {events}\n' for it in ('callgraph', 'stack', 'dyck'))
            if said('judge', 'm', 's', 'all') != (0, verdicts, ''):
                found.append(f'{shows}, {turns} turns: the trace of the instrumented text is not accepted:\n{shown}')
            status, audit, _ = said('audit', 'f', 'r', str(turns), '1000')
            if status or not re.fullmatch(re.escape(shown + verdicts) + r'next \d+ \d+ \d+\n', audit):
                found.append(f'{shows}, {turns} turns: audit writes something else, with status {status}:\n{audit}')
        if not longest:
            found.append(f'{shows}: no run has an event')
    return found


def main():
    program = os.path.abspath(sys.argv[1])
    with concurrent.futures.ThreadPoolExecutor(os.cpu_count()) as pool:
        found = list(pool.map(lambda it: wrong(program, *it), texts()))
    for line in sum(found, []):
        print(line)
    print(f'{len(found)} programs with each number of turns up to {MOST_TURNS}, {sum(map(bool, found))} raise an alarm')
    return 1 if any(found) or not found else 0


if __name__ == '__main__':
    sys.exit(main())
