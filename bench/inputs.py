#!/usr/bin/env python3
"""inputs.py FOLDER [EVENTS]: writes the models, the traces and the C text that bench/run measures into the folder, in the
forms of docs/FILES.md, docs/RECORDING.md and docs/LANGUAGE.md. The long traces have EVENTS events, 1,000 to 1,000,000,
or 1,000,000.

    server.model             2,004 nodes: a loop that may call any of 200 functions, each nine system calls with arguments
    server_bare_N.trace      N events of it, where N is EVENTS, a tenth and a hundredth of that; no null calls
    server_marked_N.trace    N events of it, null calls among them
    deep.model, .trace       a function that calls itself between two system calls, up to 50,000 times; with null calls
    hostile.model, .trace    200,000 nodes, all of which an event may lead to, in many ways; a ten-thousandth of EVENTS
    server.traces            EVENTS records, or 24,576, of 4,096 processes of server.model; half are forked, 64 rejected
    text.c                   950,000 bytes of functions with loops, a switch, a struct and arrays, each of which calls getpid"""
import pathlib
import random
import sys

# Name, pattern, recorded arguments and result of the calls in the rows.
CALLS = [('read', ' * 8', ' 3 8', 8), ('write', ' 1 *', ' 1 68690a', 3), ('open', ' * 2 *', ' 2f746d70 2 0', 3),
         ('close', ' *', ' 3', 0), ('lseek', ' * 0 2', ' 3 0 2', 40), ('getpid', '', '', 77)]
FUNCTIONS, LENGTH = 200, 10
PROCESSES = 4_096


def model(functions, nodes, silent, system, calls, start):
    """The text of a model: functions are (name, entry, exit), system calls (from, name, to, pattern) in their order,
    calls (from, site, to, candidates)."""
    lines = ['dyckmon-model 2', f'functions {len(functions)}', *(f'f {n} {a} {b}' for n, a, b in functions)]
    lines += [f'nodes {nodes}', *(f'e {a} {b}' for a, b in sorted(silent))]
    lines += [f's {a} {name} {b}{pattern}' for a, name, b, pattern in system]
    for a, site, b, candidates in sorted(calls, key=lambda call: call[1]):
        lines.append(f'c {a} {site} {b}' + ''.join(f' {f}' for f in candidates))
    return '\n'.join([*lines, f'start {start}', 'end', ''])


def trace(events):
    return '\n'.join(['dyckmon-trace 1', *events, 'end open', ''])


def row_call(function, place):
    return CALLS[(function + place) % len(CALLS)]


def server():
    """A main loop that may fork, or call one of the functions, each a row of system calls."""
    functions, system = [], []
    for f in range(FUNCTIONS):
        first = f * LENGTH
        functions.append((f'f{f}', first, first + LENGTH - 1))
        for place in range(LENGTH - 1):
            name, pattern, _, _ = row_call(f, place)
            system.append((first + place, name, first + place + 1, pattern))
    main = FUNCTIONS * LENGTH
    functions.append(('main', main, main + 1))
    system.append((main + 2, 'fork', main + 2, ''))
    silent = [(main, main + 2), (main + 2, main + 1), (main + 3, main + 2)]
    calls = [(main + 2, f, main + 3, [f]) for f in range(FUNCTIONS)]
    return model(functions, main + 4, silent, system, calls, FUNCTIONS)


def row(function, marked):
    """The events of a call of the function."""
    calls = [row_call(function, place) for place in range(LENGTH - 1)]
    events = [f'S {name}{arguments} = {result}' for name, _, arguments, result in calls]
    return [f'B {function}', *events, f'E {function}'] if marked else events


def served(events, marked):
    """So many events of calls of functions that are drawn."""
    drawn, found = random.Random(1), []
    while len(found) < events:
        found += row(drawn.randrange(FUNCTIONS), marked)
    return found[:events]


def watched(records):
    """So many records of the processes. The second half of them is forked by the first, each after one call of a function;
    then come the records of drawn processes. One in 64 makes a system call that the model doesn't have, after five calls."""
    drawn, lines, half = random.Random(2), ['dyckmon-traces 2'], PROCESSES // 2
    for pid in range(1, half + 1):
        lines += [f'{pid} {event}' for event in [*row(pid % FUNCTIONS, True), f'S fork = {pid + half}']]
    living = list(range(1, PROCESSES + 1))
    waiting, rows = {pid: [] for pid in living}, dict.fromkeys(living, 0)
    while len(lines) <= records:
        pid = living[drawn.randrange(len(living))]
        if not waiting[pid] and pid % 64 == 0 and rows[pid] == 5:
            lines.append(f'{pid} S setuid 0 = 0')
            living.remove(pid)
            continue
        if not waiting[pid]:
            waiting[pid] = row(drawn.randrange(FUNCTIONS), True)[::-1]
            rows[pid] += 1
        lines.append(f'{pid} {waiting[pid].pop()}')
    return '\n'.join([*lines, 'end', ''])


def deep():
    """A function that calls dup, then itself or getpid, then close; main calls it over and over."""
    system = [(0, 'dup', 2, ' *'), (2, 'getpid', 3, ''), (3, 'close', 1, ' *')]
    return model([('f', 0, 1), ('main', 4, 5)], 7, [(4, 5), (6, 4)], system, [(2, 0, 3, [0]), (4, 1, 6, [0])], 1)


def descents(events):
    """So many events of calls that are open at once, 50,000 or a quarter of the events, and their returns, over and over."""
    depth = min(50_000, events // 4)
    down = ['B 1', 'S dup 1 = 3'] + ['B 0', 'S dup 1 = 3'] * (depth - 1)
    up = ['S close 3 = 0', 'E 0'] * (depth - 1) + ['S close 3 = 0', 'E 1']
    found = []
    while len(found) < events:
        found += [*down, 'S getpid = 77', *up]
    return found[:events]


def hostile():
    """A main function of 100,000 nodes in a ring of silent edges with two more from each, and 20,000 calls of three of the
    1,000 other functions; each of these is a ring of 100 nodes, and calls later ones. So where main's own event was the last
    one, each node may be reached, in many ways. The model, and the sites of the calls in main."""
    drawn, size, main = random.Random(3), 100, 100_000
    count = main // size
    functions, silent, system, calls = [], set(), [], []
    for f in range(count):
        first = f * size
        functions.append((f'f{f}', first, first + 1))
        for k in range(size):
            silent |= {(first + k, first + (k + 1) % size), (first + k, first + drawn.randrange(size))}
            if k % 10 == 0:
                system.append((first + k, 'getpid', first + drawn.randrange(size), ''))
        for _ in range(2 if f + 2 < count else 0):
            a, b = first + drawn.randrange(size), first + drawn.randrange(size)
            calls.append((a, len(calls), b, sorted(drawn.sample(range(f + 1, count), 2))))
    functions.append(('main', main, main + 1))
    for k in range(main):
        silent |= {(main + k, main + (k + 1) % main), *((main + k, main + drawn.randrange(main)) for _ in range(2))}
        if k % 50 == 0:
            system.append((main + k, 'getpid', main + drawn.randrange(main), ''))
    inner = len(calls)
    for site in range(inner, inner + 20_000):
        a, b = main + drawn.randrange(main), main + drawn.randrange(main)
        calls.append((a, site, b, sorted(drawn.sample(range(count), 3))))
    return model(functions, 2 * main, silent, system, calls, count), range(inner, inner + 20_000)


def besieged(events, sites):
    """So many events of calls of getpid in main, and of calls of functions that make one."""
    drawn, found = random.Random(4), []
    while len(found) < events:
        site = drawn.choice(sites)
        found += ['S getpid = 77', f'B {site}', 'S getpid = 77', f'E {site}']
    return found[:events]


# One function of the C text, of its number.
FUNCTION = '''int f%(n)d(int a, int b) {
    int total = 0;
    int i;
    struct point p;
    int local[4] = { %(n)d %% 100, 2, 3 };
    p.x = a * %(n)d + (b << 2);
    p.y = (a ^ b) & 255;
    p.name[0] = 'n';
    for (i = 0; i < 16; i++) {
        table[i %% 16] = table[i & 15] + p.x * local[i %% 4] - p.y;
        if (table[i & 15] > 1000 && i != 7) {
            total = total + i;
            continue;
        } else {
            total -= 1;
        }
    }
    while (total > 100) {
        total = total / 2;
    }
    switch (a) {
    case 1:
        total += getpid();
        break;
    case 2:
    default:
        total = -total;
    }
    return total ? total : p.x;
}
'''


def text_of(size):
    """A C text of the profile, of so many bytes or a few less."""
    first = 'int getpid(void);\nstruct point { int x; int y; char name[8]; };\nstatic int table[16];\n'
    last = 'int main(void) {\n    return f0(3, 4);\n}\n'
    found, left = [first], size - len(first) - len(last)
    while True:
        function = FUNCTION % {'n': len(found) - 1}
        left -= len(function)
        if left < 0:
            return ''.join([*found, last])
        found.append(function)


def main():
    folder, events = pathlib.Path(sys.argv[1]), int(sys.argv[2]) if len(sys.argv) > 2 else 1_000_000
    if not 1_000 <= events <= 1_000_000:
        sys.exit('inputs.py: EVENTS is 1,000 to 1,000,000')
    (folder / 'server.model').write_text(server())
    for name, marked in (('bare', False), ('marked', True)):
        found = served(events, marked)
        for size in (events // 100, events // 10, events):
            (folder / f'server_{name}_{size}.trace').write_text(trace(found[:size]))
    (folder / 'deep.model').write_text(deep())
    (folder / 'deep.trace').write_text(trace(descents(events)))
    text, sites = hostile()
    (folder / 'hostile.model').write_text(text)
    (folder / 'hostile.trace').write_text(trace(besieged(max(20, events // 10_000), sites)))
    (folder / 'server.traces').write_text(watched(events))
    (folder / 'text.c').write_text(text_of(950_000))


if __name__ == '__main__':
    main()
