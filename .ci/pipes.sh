#!/usr/bin/env bash
# pipes.sh PROGRAM: what judge and watch answer of a trace that is piped in is what they answer of the file; a file that is no
# seekable one is read too; the standard input is read once, and a second file of that name is a read fault.
set -u
program=$(readlink -f "$1")
cd "$(dirname "${BASH_SOURCE[0]}")/../examples" || exit 1
wrong=0

# Compares what a call says of a pipe with what it says of the file.
same() {
    local of_file of_pipe
    of_file=$("$program" "$1" "$2" "$3" "${@:4}" 2>&1; echo "status $?")
    of_pipe=$(cat "$3" | "$program" "$1" "$2" - "${@:4}" 2>&1; echo "status $?")
    if [ "$of_file" != "$of_pipe" ]; then
        printf 'pipes: %s of a pipe differs from that of the file:\n%s\n%s\n' "$*" "$of_file" "$of_pipe"
        wrong=$((wrong + 1))
    fi
}

same judge echo_server.model echo_child.trace all
same judge two_callers.model two_callers.trace all
same judge recursive.model recursive.trace dyck 2
same watch echo_server.model echo_server.traces all
same watch echo_server.model echo_server_taken_over.traces stack
same measure two_callers.model two_callers.trace all
said=$("$program" judge - - all <one_getpid.model 2>&1)
status=$?
if [ "$status" -ne 6 ] || [ "$said" != 'read fault' ]; then
    printf 'pipes: two files that are the standard input: status %s, %s\n' "$status" "$said"
    wrong=$((wrong + 1))
fi
said=$("$program" judge <(cat one_getpid.model) <(cat one_getpid.trace) callgraph 2>&1)
status=$?
if [ "$status" -ne 0 ] || [ "$said" != 'callgraph accepted 1' ]; then
    printf 'pipes: files that are pipes: status %s, %s\n' "$status" "$said"
    wrong=$((wrong + 1))
fi
echo "8 pipes, $wrong wrong"
[ "$wrong" -eq 0 ]
