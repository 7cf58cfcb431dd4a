#!/usr/bin/env python3
"""check.py BASELINE: runs the baseline on those cases of .ci/cases/judge.cases and .ci/cases/watch.cases that have the
status 0, 1 or 9, so that their files are in form, and prints each in which the status or what is written differs from what
is wanted. The status is 0 where there are cases and each is as wanted."""
import concurrent.futures
import os
import pathlib
import sys

TOP = pathlib.Path(__file__).resolve().parent.parent
sys.path.insert(0, str(TOP / '.ci'))
sys.dont_write_bytecode = True
from cases import cases_of, differs, filled, variants_of


def runs():
    """Each case with the fields and the change of its files with which it is run."""
    for command in ('judge', 'watch'):
        for case in cases_of(TOP / f'.ci/cases/{command}.cases'):
            for fields in case['rows']:
                if filled(case['status'], fields) in ('0', '1', '9'):
                    for variant in variants_of(case, fields):
                        yield case, fields, variant


def main():
    baseline = os.path.abspath(sys.argv[1])
    with concurrent.futures.ThreadPoolExecutor(os.cpu_count()) as pool:
        found = list(pool.map(lambda run: differs(baseline, *run), runs()))
    wrong = [text for text in found if text]
    for text in wrong:
        print(text)
    print(f'{len(found)} cases, {len(wrong)} wrong')
    return 1 if wrong or not found else 0


if __name__ == '__main__':
    sys.exit(main())
