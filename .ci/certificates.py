#!/usr/bin/env python3
"""certificates.py PROGRAM: gives each model and trace of .ci/cases/judge.cases to `certify`, and what it writes to `confirm`, by
callgraph and by stack, and compares both with the verdict of `judge`. The status is 0 where there are verdicts and each certificate
is confirmed with the verdict and lists as many facts as follow, each once, or more than 1,000,000 follow and there is none (Q3)."""
import collections
import concurrent.futures
import os
import pathlib
import re
import subprocess
import sys
import tempfile

import cases

MOST = 1_000_000


def parts_of(model):
    """The entries and exits of a model's functions, its start, and the words of its edges by their kind and the node they leave."""
    functions, start, edges = [], 0, collections.defaultdict(list)
    for kind, *words in (line.split(' ') for line in model.decode().splitlines()):
        if kind == 'f':
            functions.append((int(words[1]), int(words[2])))
        elif kind == 'start':
            start = int(words[0])
        elif kind in ('e', 's', 'c'):
            edges[kind, int(words[0])].append(words[1:])
    return functions, start, edges


def ends_of(event, node, edges):
    """The nodes to which an event, a line of a trace, leads from a node."""
    kind, *words = event.split(' ')
    if kind != 'S':
        return [node]
    arguments = words[1:words.index('=')]
    return [int(end) for name, end, *pattern in edges['s', node]
            if name == words[0] and all(entry in ('*', argument) for entry, argument in zip(pattern, arguments))]


def number_of_facts(model, trace, which, kept):
    """How many facts about at most so many events follow. A fact about k events is a node with the activation at it, None by
    callgraph; a link of an activation is the one that may have called it, with the site and the node behind the call."""
    functions, start, edges = parts_of(model)
    calls = [words for (kind, _), all_words in edges.items() if kind == 'c' for words in all_words]
    behind = {(functions[int(callee)][1], int(end)) for _, end, *callees in calls for callee in callees}
    events = trace.decode().splitlines()[1:]
    links = collections.defaultdict(set)

    def following(k, activation, node):
        """The facts about k events that follow from one of them, once its links are noted."""
        for end, in edges['e', node]:
            yield activation, int(end)
        for site, end, *callees in edges['c', node]:
            for callee in map(int, callees):
                called = (k, callee) if activation else None
                yield called, functions[callee][0]
                if activation:
                    links[called].add((activation, site, int(end)))
                    if (called, functions[callee][1]) in facts:
                        yield activation, int(end)
        if not activation:
            yield from ((None, end) for leaves, end in behind if leaves == node)
        elif node == functions[activation[1]][1]:
            yield from ((caller, end) for caller, _, end in links[activation])

    facts, number = {((0, start) if which == 'stack' else None, functions[start][0])}, 0
    for k in range(kept + 1):
        left = list(facts)
        while left:
            found = set(following(k, *left.pop())) - facts
            facts |= found
            left += found
        number += len(facts)
        facts = {(activation, end) for activation, node in facts for end in ends_of(events[k], node, edges)}
    return number + sum(map(len, links.values()))


def run(program, words, folder):
    done = subprocess.run([program, *words], cwd=folder, stdin=subprocess.DEVNULL, capture_output=True, timeout=cases.SECONDS)
    return done.returncode, done.stdout, done.stderr


def differs(program, model, trace, which):
    """Whether there is a verdict, and what is wrong with its certificate, or None."""
    with tempfile.TemporaryDirectory() as folder:
        pathlib.Path(folder, 'm').write_bytes(model)
        pathlib.Path(folder, 't').write_bytes(trace)
        status, out, err = run(program, ['judge', 'm', 't', which], folder)
        verdict = re.match(rb'\w+ (accepted|rejected) (\d+)', out)
        made = run(program, ['certify', 'm', 't', which], folder)
        if not verdict:
            return False, None if made[:2] == (status, b'') and made[2] == err else f'{which}: judge gives {err}, certify {made}'
        kept = int(verdict[2]) - (verdict[1] == b'rejected')
        # each number of events that are kept has a fact at least
        number = kept + 1 if kept >= MOST else number_of_facts(model, trace, which, kept)
        if number > MOST and made == (5, b'', b'record refused Q3\n'):
            return False, None
        pathlib.Path(folder, 'c').write_bytes(made[1])
        found = run(program, ['confirm', 'm', 't', 'c'], folder)
        listed = [fact.split(':')[0] for fact in cases.in_any_order(made[1])[1]]
        good = made[0] == status and found == (0, b'confirmed ' + verdict[0] + b'\n', b'') and len(set(listed)) == len(listed) == number
        return True, None if good else (f'{which}: judge gives {verdict[0]}, certify {made[0]} {made[2]} and {len(listed)} facts, of which '
                                        f'{number} follow, confirm {found}\n{model}\n{trace}')


def main():
    program = os.path.abspath(sys.argv[1])
    runs = []
    with concurrent.futures.ThreadPoolExecutor(os.cpu_count()) as pool:
        for case in cases.cases_of(cases.TOP / '.ci/cases/judge.cases'):
            for fields in case['rows']:
                words = cases.spelled(cases.filled(case['words'], fields)).split()
                files = [case['files'].get(name) for name in words[1:3]]
                if len(files) == 2 and None not in files:
                    model, trace = (cases.made(said, case, fields) for said in files)
                    runs += [pool.submit(differs, program, model, trace, which) for which in ('callgraph', 'stack')]
        found = [it.result() for it in runs]
    wrong = [text for _, text in found if text]
    verdicts = sum(is_verdict for is_verdict, _ in found)
    for text in wrong:
        print(text)
    print(f'{verdicts} verdicts certified, {len(wrong)} wrong')
    return 1 if wrong or not verdicts else 0


if __name__ == '__main__':
    sys.exit(main())
