"""python3 .ci/check_times.py CRATE [LINES]: where the time of a crate's last check from nothing went.

`rt check --jobs 1` in a crate's folder without out/ writes a file for each module of the check as it ends with it, below
out/incremental. So the difference between the times of two files that follow each other is the time of the second one's
module, by the clock. The lines are the modules that took longest, then the sums by kind: F.Proof is the search for the
goals of the function F, F.Lts the borrow checker's part, which grows with the exits of F times what F owns at them;
other names of the crate are files of its proofs. A later check writes only what changed, so it is seen beside what the
first one wrote. The gate doesn't run this."""
import collections, pathlib, sys

LONGEST_GAP = 120  # between two checks nothing is written


def times(folder):
    """The seconds, the bytes and the name of each module, in the order in which the check ended with them."""
    files = sorted((path.stat().st_mtime_ns / 1e9, path.stat().st_size, path.name.removesuffix('.oantt'))
                   for path in folder.rglob('*.oantt') if 'records' not in path.parts)
    return [(after[0] - before[0], after[1], after[2]) for before, after in zip(files, files[1:]) if after[0] - before[0] < LONGEST_GAP]


def main(name, lines):
    folder = pathlib.Path(__file__).resolve().parent.parent / 'crates' / name / 'out' / 'incremental'
    if not folder.is_dir():
        sys.exit(f'{folder} is not there: run `rt check --jobs 1` in crates/{name} first')
    rows = times(folder)
    for seconds, size, module in sorted(rows, reverse=True)[:lines]:
        print(f'{seconds:7.1f} s {size:9} bytes  {module}')
    kinds = collections.Counter()
    for seconds, _, module in rows:
        kinds[module.split('.')[-1].split('-')[0] if '-proofs.' in module else 'statements'] += seconds
    print(', '.join(f'{kind} {seconds:.0f} s' for kind, seconds in kinds.most_common(10)))


if __name__ == '__main__':
    if len(sys.argv) not in (2, 3):
        sys.exit(__doc__)
    main(sys.argv[1], int(sys.argv[2]) if len(sys.argv) == 3 else 30)
