#!/usr/bin/env bash
# bare.sh PROGRAM: tries the program in a root that has nothing but its file and the libraries that ldd names. Where
# no such root can be entered, a line says so. The status is 0 where the program answers there as it does here.
set -u
program=$(readlink -f "$1") && examples=$(cd "$(dirname "${BASH_SOURCE[0]}")/../examples" && pwd) && root=$(mktemp -d) || exit 1
trap 'rm -rf "$root"' EXIT
inside=(unshare -r chroot)
[ "$(id -u)" -eq 0 ] && inside=(chroot)
if ! "${inside[@]}" / true 2>/dev/null; then
    echo 'bare.sh: no other root can be entered here, so the program is not tried in one'
    exit 0
fi
wrong=0

# Compares what the program says in the bare root with what it says here.
same() {
    local here there
    here=$(cd "$examples" && "$program" "$@" 2>&1 <two_callers.trace; echo "status $?")
    there=$("${inside[@]}" "$root" /dyckmon "$@" 2>&1 <"$examples/two_callers.trace"; echo "status $?")
    [ "$here" = "$there" ] && return
    printf 'bare.sh, %s: here\n%s\nand in a bare root\n%s\n' "$*" "$here" "$there"
    wrong=1
}

cp "$program" "$root/dyckmon" && cp "$examples"/two_callers.* "$examples"/echo.c "$root" || exit 1
libraries=$(ldd "$program" | grep -o '/[^ ]*')
for library in $libraries; do
    mkdir -p "$root$(dirname "$library")" && cp -L "$library" "$root$library" || exit 1
done
same --version
same model echo.c
same judge two_callers.model two_callers.trace all
same judge two_callers.model - stack
same check nothing
echo "bare.sh: the program, with $(wc -w <<<"$libraries") libraries of the system, in a root of its own: $([ "$wrong" -eq 0 ] && echo as here || echo not as here)"
exit "$wrong"
