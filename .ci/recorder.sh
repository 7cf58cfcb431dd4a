#!/usr/bin/env bash
# recorder.sh PROGRAM: records runs of C texts, compiled with examples/recorder.c, and judges them by the texts' own
# models. The three monitors have to accept each process of examples/line_server.c, and to reject it where the trace
# was changed. Of .ci/each_call.c, which makes each call that a model knows, the events of .ci/each_call.events have
# to be recorded. The status is 0 where all is so.
set -u
program=$(readlink -f "$1") && cd "$(dirname "${BASH_SOURCE[0]}")/.." && ci=$PWD/.ci examples=$PWD/examples && folder=$(mktemp -d) && cd "$folder" || exit 1
trap 'rm -rf "$folder"' EXIT
wrong=0
command -v cc >/dev/null || { echo "recorder.sh: there is no cc, so nothing is recorded"; exit 0; }

# Runs the program and compares its status and what it writes.
wants() {
    local status=$1 text=$2 out
    shift 2
    out=$("$program" "$@" 2>&1)
    [ "$? $out" = "$status $text" ] && return
    printf 'recorder.sh, %s:\nwanted status %s, and\n%s\ngot\n%s\n' "$*" "$status" "$text" "$out"
    wrong=1
}

# The verdict lines of all monitors, each with something before it.
accepted() { printf "${1}callgraph accepted $2\n${1}stack accepted $2\n${1}dyck accepted $2\n"; }

# The trace of one process: its own events, and for the child those of the parent up to the fork before them.
trace_of() {
    echo dyckmon-trace 1
    [ "$1" = "$parent" ] || sed -n "/^$parent /{s///p; /^S fork /q}" server.traces
    sed -n "s/^$1 //p" server.traces
    echo end open
}

# Judges the traces with one change in the child, which these monitors have to reject.
rejects() {
    local monitors=$1 what=$2 out
    sed "${@:3}" server.traces >changed.traces
    cmp -s server.traces changed.traces && echo "recorder.sh: nothing was changed: $what" && wrong=1
    out=$("$program" watch server.model changed.traces all)
    [ "$? $(sed -n "s/^$child \([a-z]*\) rejected .*/\1/p" <<<"$out" | paste -sd ' ')" = "1 $monitors" ] && return
    printf 'recorder.sh: %s has to be rejected by %s:\n%s\n' "$what" "$monitors" "$out"
    wrong=1
}

# Records the run of a C text, whose standard input is that of the call, into NAME.traces, and writes what it writes.
record() {
    local text=$1 name=$2
    "$program" model "$text" >"$name.model" && "$program" instrument "$text" >"$name.c" &&
        cc -o "$name" "$name.c" "$examples/recorder.c" @"$examples/recorder.wraps" || exit 1
    DYCKMON_TRACES=$name.traces "./$name" | cat
    echo end >>"$name.traces"
}

printf 'hi\np\nq\n' | record "$examples/line_server.c" server >answers
read -r parent _ _ _ child < <(grep -m 1 ' S fork = ' server.traces)
[ "$(cat answers)" = "hi"$'\n'"$child" ] || { echo "recorder.sh: the server answers otherwise:"; cat answers; wrong=1; }
events_of_parent=$(($(trace_of "$parent" | wc -l) - 2))
events_of_child=$(($(trace_of "$child" | wc -l) - 2))
[ "$events_of_child" -gt 20 ] || { echo "recorder.sh: few events were recorded"; wrong=1; }

for process in "$parent" "$child"; do trace_of "$process" >"$process.trace"; done
wants 0 "$(accepted '' "$events_of_parent")" judge server.model "$parent.trace" all
wants 0 "$(accepted '' "$events_of_child")" judge server.model "$child.trace" all
wants 0 "$(accepted "$parent " "$events_of_parent"; accepted "$child " "$events_of_child"; echo verdicts 6 accepted 6 rejected 0 bound 0)" watch server.model server.traces all

rejects 'callgraph stack dyck' 'a call that the program has not' -e "0,/^$child S getpid /s//$child S setuid 0 = 0\n&/"
rejects 'callgraph stack dyck' 'a pid that is not written' -e "/^$child S write 1 3/d"
rejects dyck 'an answer that is given twice' -e "s/^$child S write 1 68690a = 3\$/&\n&/"

record "$ci/each_call.c" each </dev/null
read -r parent _ _ _ child < <(grep -m 1 ' S fork = ' each.traces)
sed "s/PARENT/$parent/; s/CHILD/$child/; s/SHELL/$(sed -n "s/^$parent S getppid = //p" each.traces)/; s/USER/$(id -u)/; s/GROUP/$(id -g)/" "$ci/each_call.events" >wanted
if ! sed -n "s/^$parent //p" each.traces | grep '^S' | diff - wanted; then
    echo "recorder.sh: the calls are recorded otherwise (>)"
    wrong=1
fi
wants 0 "$(accepted "$parent " 34; accepted "$child " 34; echo verdicts 6 accepted 6 rejected 0 bound 0)" watch each.model each.traces all

echo "recorder.sh: $((events_of_parent + events_of_child)) events of a server and each call of the table, $([ "$wrong" -eq 0 ] && echo as wanted || echo not as wanted)"
exit "$wrong"
