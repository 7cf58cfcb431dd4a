#!/usr/bin/env python3
"""manual.py PROGRAM [write]: compares the commands of dyckmon.1 (the manual page) and of dyckmon.bash (completion in bash) with
those of the program's --help, and the codes of dyckmon.1 with what `codes` writes, and tries the completion. The status is 0 where
each has what the program says and nothing else. With `write` it writes the three lists anew first; the rest of both files is
written by hand."""
import pathlib
import re
import subprocess
import sys

TOP = pathlib.Path(__file__).resolve().parent.parent
PAGE = TOP / 'dyckmon.1'
COMPLETION = TOP / 'dyckmon.bash'
PAGE_PART = ('.\\" Made from dyckmon --help by .ci/manual.py.\n', '.\\" The end of what is made.\n')
CODES_PART = ('.\\" Made from dyckmon codes by .ci/manual.py.\n', '.\\" The end of the codes.\n')
COMPLETION_PART = ('# Made from dyckmon --help by .ci/manual.py.\n', '# The end of what is made.\n')


def read_help(text):
    """Each line of a command, as what is typed and what it gives; and the lines on words, joined."""
    lines = [re.fullmatch(r'(dyckmon\b.*?) {2,}(\S.*)', line) or line for line in text.splitlines()]
    return [it.groups() for it in lines if isinstance(it, re.Match)], ' '.join(it for it in lines if isinstance(it, str))


def escaped(text):
    """The text as a manual page has it."""
    text = text.replace('\\', '\\e').replace('-', '\\-')
    return '\\&' + text if text[:1] in ".'" else text


def page_of(calls, words):
    """The part of the manual page that lists the commands."""
    made = ''
    for typed, gives in calls:
        shown = ' '.join(('\\fI%s\\fR' if re.search('[A-Z]', it) else '\\fB%s\\fR') % escaped(it) for it in typed.split())
        made += f'.TP\n{shown}\n{escaped(gives[0].upper() + gives[1:])}.\n'
    return made + f'.PP\n{escaped(words)}\n'


def codes_of(text):
    """The part of the manual page that lists the codes with their reasons."""
    return ''.join(f'.TP\n.B {code}\n{escaped(reason)}\n' for code, reason in (line.split(' ', 1) for line in text.splitlines()))


def completion_of(calls):
    """The part of the completion that lists the commands with their words."""
    made = 'declare -gA _dyckmon_words=(\n'
    for command, words in commands_of(calls):
        made += f"    [{command}]='{words}'\n"
    return made + ')\n'


def commands_of(calls):
    """Each command that is no flag, with its words."""
    for typed, _ in calls:
        found = re.fullmatch(r'dyckmon ([a-z]\w*)((?: \S+)*)', typed)
        if found:
            yield found[1], found[2].strip()


def parts(path, part):
    """What stands before, in and behind the part that is made."""
    text = path.read_text()
    before, begin, rest = text.partition(part[0])
    inside, end, behind = rest.partition(part[1])
    if not begin or not end:
        sys.exit(f'{path.name} lacks the line {(part[1] if begin else part[0])!r}')
    return before + begin, inside, end + behind


def completed(words):
    """What the completion offers for the last of the words."""
    script = 'source "$1"; shift; COMP_WORDS=("$@"); COMP_CWORD=$(($# - 1)); _dyckmon; printf "%s\\n" "${COMPREPLY[@]}"'
    done = subprocess.run(['bash', '-c', script, 'bash', COMPLETION, *words], capture_output=True, text=True)
    return sorted(done.stdout.split()), done.stderr


def main():
    program, *more = sys.argv[1:]
    text, codes = (
        subprocess.run([str(pathlib.Path(program).resolve()), word], capture_output=True, text=True, timeout=60).stdout
        for word in ('--help', 'codes')
    )
    calls, words = read_help(text)
    wrong = []
    for path, part, made in (
        (PAGE, PAGE_PART, page_of(calls, words)),
        (PAGE, CODES_PART, codes_of(codes)),
        (COMPLETION, COMPLETION_PART, completion_of(calls)),
    ):
        before, inside, behind = parts(path, part)
        if more == ['write'] and calls and codes:
            path.write_text(before + made + behind)
        elif inside != made:
            wrong.append(f'{path.name} is not made from what this program says: run .ci/manual.py PROGRAM write')
    for typed, wanted in (
        (['dyckmon', ''], sorted(['--help', '--version', *(it for it, _ in commands_of(calls))])),
        (['dyckmon', 'judge', 'm', 't', ''], ['all', 'callgraph', 'dyck', 'stack']),
        (['dyckmon', 'judge', 'm', 't', 'all', ''], []),
        (['dyckmon', 'check', str(TOP / 'READ')], [str(TOP / 'README.md')]),
    ):
        if completed(typed) != (wanted, ''):
            wrong.append(f'dyckmon.bash completes {typed} by {completed(typed)}, and not by {wanted}')
    for line in wrong:
        print(line)
    print(f'the manual page and the completion have {len(calls)} lines of --help and {len(codes.splitlines())} codes, {len(wrong)} wrong')
    return 1 if wrong or not calls or not codes else 0


if __name__ == '__main__':
    sys.exit(main())
