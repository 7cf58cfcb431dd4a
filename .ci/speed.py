"""python3 .ci/speed.py PROGRAM [NAME..]: how long the built program takes for large inputs, and how much memory.

Each line has a name, the seconds of the quickest of three runs, the memory that it held at most, and the first words
that it wrote. What is right is asserted: a wrong answer ends with 1. The figures depend on the machine, so the gate
doesn't run this; docs/DEVELOPMENT.md has those that were seen."""
import os, pathlib, random, resource, subprocess, sys, tempfile, time

CALLS = ['getpid', 'getppid', 'getuid', 'geteuid', 'getgid', 'fork']


def run(program, words, folder):
    """The status, what was written, the seconds and the mebibytes of one run."""
    out = folder / 'out'
    began = time.perf_counter()
    with open(out, 'wb') as sink:
        child = subprocess.Popen([program, *words], cwd=folder, stdout=sink, stderr=subprocess.PIPE)
        said = child.stderr.read()
        _, status, used = os.wait4(child.pid, 0)
    child.returncode = os.waitstatus_to_exitcode(status)
    return child.returncode, out.read_bytes(), said, time.perf_counter() - began, used.ru_maxrss / 1024


def model(functions, nodes, silent, system, calls, start):
    """The text of a model: functions are (name, entry, exit), calls are (from, site, to, candidates)."""
    lines = ['dyckmon-model 2', f'functions {len(functions)}', *(f'f {n} {a} {b}' for n, a, b in functions), f'nodes {nodes}']
    lines += [f'e {a} {b}' for a, b in sorted(silent)]
    lines += [f's {a} {name} {b}' for a, name, b in system]
    lines += [f'c {a} {site} {b}' + ''.join(f' {f}' for f in those) for a, site, b, those in sorted(calls, key=lambda c: c[1])]
    return '\n'.join([*lines, f'start {start}', 'end', ''])


def servers(functions, length):
    """A main loop that calls one of the functions, each a row of system calls; the last node of a row is the exit."""
    named, silent, system, calls = [], [], [], []
    for i in range(functions):
        first = i * length
        named.append((f'f{i}', first, first + length - 1))
        system += [(first + j, CALLS[(i + j) % len(CALLS)], first + j + 1) for j in range(length - 1)]
    entry = functions * length
    named.append(('main', entry, entry + 1))
    silent += [(entry, entry + 2), (entry + 2, entry + 1), (entry + 3, entry + 2)]
    calls += [(entry + 2, i, entry + 3, [i]) for i in range(functions)]
    return model(named, entry + 4, silent, system, calls, functions)


def served(functions, length, events, brackets=False):
    """A trace of the model of servers with so many system calls."""
    drawn, lines = random.Random(1), ['dyckmon-trace 1']
    while events > 0:
        i = drawn.randrange(functions)
        row = [f'S {CALLS[(i + j) % len(CALLS)]} = 7' for j in range(min(length - 1, events))]
        events -= len(row)
        lines += [f'B {i}', *row, f'E {i}'] if brackets else row
    return '\n'.join([*lines, 'end open', ''])


def deep(functions):
    """Each function calls the next two at four sites; the last ones call none. Depth is the number of functions less one."""
    named, silent, system, calls, size = [], [], [], [], 8
    for i in range(functions):
        first = i * size
        named.append((f'f{i}', first, first + 1))
        system.append((first, 'getpid', first + 2))
        silent += [(first + 2, first + 3), (first + 7, first + 1)]
        for j, (a, b) in enumerate([(3, 4), (4, 5), (5, 6), (6, 7)]):
            those = [k for k in (i + 1, i + 2) if k < functions]
            if those: calls.append((first + a, i * 4 + j, first + b, those))
            else: silent.append((first + a, first + b))
    return model(named, functions * size, silent, system, calls, 0)


def doubled(levels, length):
    """Each function calls the next one twice: its inlined model has 2^levels copies of the last one."""
    named, silent, system, calls = [], [], [], []
    for i in range(levels):
        first = i * length
        named.append((f'f{i}', first, first + length - 1))
        if i + 1 < levels:
            calls += [(first, 2 * i, first + 1, [i + 1]), (first + 1, 2 * i + 1, first + 2, [i + 1])]
            system += [(first + j, CALLS[j % len(CALLS)], first + j + 1) for j in range(2, length - 1)]
        else:
            system += [(first + j, CALLS[j % len(CALLS)], first + j + 1) for j in range(length - 1)]
    return model(named, levels * length, silent, system, calls, 0)


def rounds(functions, length):
    """A C text whose main calls each function over and over, each of them with a row of system calls."""
    types = {'getuid': 'unsigned', 'geteuid': 'unsigned', 'getgid': 'unsigned'}
    lines = [f'{types.get(name, "int")} {name}(void);' for name in CALLS]
    for i in range(functions):
        lines.append(f'int f{i}(void) {{ ' + ' '.join(f'{CALLS[(i + j) % len(CALLS)]}();' for j in range(length)) + ' return 0; }')
    return '\n'.join([*lines, 'int main(void) { while (1) { ' + ' '.join(f'f{i}();' for i in range(functions)) + ' } return 0; }', ''])


def side_by_side(program, folder):
    """64 processes with 15,000 events each in rounds, beside 64 runs that are judged alone."""
    (folder / 'p').write_text(rounds(130, 12))
    (folder / 'r').write_text('dyckmon-results 1\n' + 'R 7\n' * 15_000 + 'end\n')
    (folder / 'm').write_bytes(run(program, ['model', 'p'], folder)[1])
    pids = range(1, 65)
    lines = ['dyckmon-fleet 1', *(f'p {pid} p m r 1000000 1000' for pid in pids)]
    for steps in (7_500, 15_000):
        (folder / 's').write_text('\n'.join([*lines, *(f'a {pid}' for _ in range(steps) for pid in pids), 'end', '']))
        status, out, said, seconds, held = min((run(program, ['fleet', 's', 'stack'], folder) for _ in range(2)), key=lambda r: r[3])
        right = out.endswith(b'fleet processes 64 open 64 ended 0 rejected 0 bound 0\n') and f'1 open {steps}\n'.encode() in out
        print(f'fleet, {steps} events each: {seconds:.2f} s, {held:.0f} MiB, status {status}{"" if right else " WRONG " + said.decode()}', flush=True)
    ran = min((run(program, ['run', 'p', 'r', '1000000'], folder) for _ in range(3)), key=lambda r: r[3])
    (folder / 't').write_bytes(ran[1])
    judged = min((run(program, ['judge', 'm', 't', 'stack'], folder) for _ in range(3)), key=lambda r: r[3])
    nodes = int((folder / 'm').read_bytes().split(b'nodes ')[1].split()[0])
    print(f'the same alone, model of {nodes} nodes: run {ran[3]:.2f} s, judge {judged[3]:.2f} s, 64 times both {64 * (ran[3] + judged[3]):.2f} s')
    return not right or not judged[1].startswith(b'stack accepted 15000')


def benchmarks(folder):
    """Name, files to make, words, and what is right of status and output."""
    def begins(text): return lambda status, out: out.startswith(text.encode())
    big = lambda: {'m': servers(200, 10), 't': served(200, 10, 1_000_000)}
    bracketed = lambda: {'m': servers(200, 10), 'n': served(200, 10, 799_992, True)}
    yield 'judge callgraph', big, ['judge', 'm', 't', 'callgraph'], begins('callgraph accepted 1000000')
    yield 'judge stack', big, ['judge', 'm', 't', 'stack'], begins('stack accepted 1000000')
    yield 'judge dyck', bracketed, ['judge', 'm', 'n', 'dyck'], begins('dyck accepted ')
    yield 'depth', lambda: {'d': deep(25_000)}, ['depth', 'd'], begins('depth 24999')
    yield 'inline', lambda: {'i': doubled(14, 12)}, ['inline', 'i'], begins('dyckmon-model 2')
    yield 'judge inlined callgraph', lambda: {'m': servers(200, 10), 't': served(200, 10, 1_000_000), 'j': ['inline', 'm']}, \
        ['judge', 'j', 't', 'callgraph'], begins('callgraph accepted 1000000')
    yield 'certify', lambda: {'m': servers(200, 10), 'k': served(200, 10, 4_400)}, ['certify', 'm', 'k', 'callgraph'], begins('dyckmon-certificate 1')
    yield 'confirm', lambda: {'m': servers(200, 10), 'k': served(200, 10, 4_400), 'c': ['certify', 'm', 'k', 'callgraph']}, \
        ['confirm', 'm', 'k', 'c'], begins('confirmed callgraph accepted 4400')
    yield 'selftest', lambda: {}, ['selftest', '1', '500'], begins('functions ')


def main():
    program, asked = os.path.abspath(sys.argv[1]), sys.argv[2:]
    built = subprocess.run([program, '--help'], capture_output=True, text=True).stdout
    wrong = 0
    with tempfile.TemporaryDirectory() as place:
        folder = pathlib.Path(place)
        for name, files, words, is_right in benchmarks(folder):
            if asked and name not in asked: continue
            made = files()
            if any(f'dyckmon {command} ' not in built for command in [words[0], *(text[0] for text in made.values() if isinstance(text, list))]):
                print(f'{name}: the program lacks a command for it')
                continue
            for file, text in made.items():
                if isinstance(text, list): text = run(program, text, folder)[1]
                (folder / file).write_bytes(text if isinstance(text, bytes) else text.encode())
            runs = [run(program, words, folder) for _ in range(3)]
            status, out, said, seconds, held = min(runs, key=lambda r: r[3])
            right = is_right(status, out)
            wrong += not right
            told = out[:60].split(b'\n')[0].decode(errors='replace')
            print(f'{name}: {seconds:.2f} s, {held:.0f} MiB, status {status}, {told!r}{"" if right else " WRONG " + said.decode()}', flush=True)
        if (not asked or 'fleet' in asked) and 'dyckmon fleet ' in built: wrong += side_by_side(program, folder)
    return 1 if wrong else 0


if __name__ == '__main__': sys.exit(main())
