#!/usr/bin/env python3
"""refusals.py [ROOT]: reads the code of the crates, without the tests, for lines that build the answer `out of memory`.

It is an answer to an allocation that was refused. So it is built by the `From` impls that take the allocator's error, which
`?` and `OutOfMemory::from(..)` call, and by the few functions of ALLOCATING, which call an allocating function whose error
isn't of this kind. Everywhere else it is only handed on: by `?`, in an arm whose pattern has it (`Err(OutOfMemory) =>
Err(X::OutOfMemory)`), below a test that an error is it, or in an arm `Err(_)` or behind the `else` of a `let Ok(..)` of a
call whose error is the type OutOfMemory. A line that does none of this is named, unless it is one of the functions of AGAIN,
and so is a function of a list that builds it nowhere: the lists only get shorter. The status is 0 where no line is named."""
import pathlib
import re
import sys

# Functions that turn a refused allocation into this answer.
ALLOCATING = {
    'c_check_scopes/numbering.rt push', 'c_check_scopes/scopes.rt declare', 'c_lexer/lexer.rt take_token', 'dyckmon/main.rt words',
    'line_text/hexadecimal.rt hexadecimal_in',
}
# Functions that answer again what was answered before: memory was refused to the process.
AGAIN = {'fleet/stepping.rt advance', 'fleet/telling.rt standing_of'}
# What the impls of `From` for it may take.
TAKEN = r'OutOfMemory|dm_base::OutOfMemory|AllocError|AllocFailed<\w+>|ReadError|LexError|ParseError|CheckError|SourceError|PhraseError|ReadFail'


class Source:
    """The lines of a file of code, without comments, contracts and ghost lines."""

    def __init__(self, crate, path):
        self.crate, self.name = crate, f'{crate}/{path.name}'
        self.lines = [self.code(line) for line in path.read_text().splitlines()]
        self.text = path.read_text()

    @staticmethod
    def code(line):
        bare = line.split('//')[0]
        return '' if re.match(r'\s*(ghost|ensures|requires|use|pub use)\b', bare) else bare

    def function(self, at):
        """The name of the function in which the line stands."""
        for line in reversed(self.lines[:at + 1]):
            found = re.search(r'\bfn (\w+)', line)
            if found:
                return found[1]
        return ''

    def block(self, at):
        """The nearest earlier line that opens the block in which the line stands."""
        indent = len(self.lines[at]) - len(self.lines[at].lstrip())
        for line in reversed(self.lines[:at]):
            if line.strip() and len(line) - len(line.lstrip()) < indent:
                return line
        return ''


def signatures(sources):
    """For each name of a function the errors that its results have."""
    found = {}
    for source in sources:
        for name, error in re.findall(r'\bfn (\w+)[^{;]*?-> Result<(?:[^{;\n]*?), (\w+(?:::\w+)?)>\s*(?:\n|\{|where)', source.text):
            found.setdefault(name, set()).add(error)
    return found


def is_handed_on(source, at, errors):
    """Whether the line hands on an answer that was given."""
    line = source.lines[at]
    pattern, arrow, _ = line.partition('=>')
    if arrow and 'OutOfMemory' in pattern:
        return True
    block = source.block(at)
    if re.search(r'OutOfMemory\)? (=>|\{)', block) or re.search(r'if \w+ == [\w:]+::OutOfMemory \{', block):
        return True
    refused = re.search(r'let Ok\(\w+\) = (?:\w+::)*(\w+)\(.*\) else \{', block)
    if refused and errors.get(refused[1]) == {'OutOfMemory'}:
        return True
    called = re.search(r'match (?:\w+::)*(\w+)(?:::<[^>]*>)?\(', block)
    return bool(arrow and re.search(r'Err\(_\)', pattern) and called and errors.get(called[1]) == {'OutOfMemory'})


def is_from(source, at):
    """Whether the line stands in an impl of `From` that takes a refusal."""
    for line in reversed(source.lines[:at]):
        found = re.match(r'impl.* From<(.*)> for', line)
        if found:
            return bool(re.fullmatch(TAKEN, found[1]))
        if line.startswith('}'):
            return False
    return False


def main():
    root = pathlib.Path(sys.argv[1] if len(sys.argv) > 1 else pathlib.Path(__file__).resolve().parent.parent)
    paths = [path for path in sorted(root.glob('crates/*/src/**/*.rt')) if not path.parts[len(root.parts) + 1].endswith(('_tests', '_trials'))]
    sources = [Source(path.parts[len(root.parts) + 1], path) for path in paths]
    errors, wrong, named = signatures(sources), [], set()
    for source in sources:
        for at, line in enumerate(source.lines):
            builds = re.search(r'(?:\(|=> |= |return |^\s*)(?:\w+::)*OutOfMemory\b(?!::from\()(?!\s*(?:=>|>|\{|\) =>|\)? \||,$))', line)
            if not builds or re.search(r'->.*OutOfMemory>', line) or re.search(r'(struct|enum|impl|fn) |^\s*\w+\(OutOfMemory\),$', line):
                continue
            where = f'{source.name} {source.function(at)}'
            if is_from(source, at) or is_handed_on(source, at, errors):
                continue
            if where in ALLOCATING | AGAIN:
                named.add(where)
                continue
            wrong.append(f'{source.name}:{at + 1}: in {source.function(at)}: {line.strip()}')
    wrong += [f'{where} builds it nowhere: take it out of the list' for where in sorted((ALLOCATING | AGAIN) - named)]
    for line in wrong:
        print(f'refusals.py: {line}')
    print(f'{len(sources)} files of code, {len(ALLOCATING | AGAIN)} functions tell of a refused allocation, {len(wrong)} wrong')
    return 1 if wrong else 0


if __name__ == '__main__':
    sys.exit(main())
