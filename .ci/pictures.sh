#!/usr/bin/env bash
# pictures.sh PROGRAM: the pictures of the shipped models have a label for each function of the model, in order, and are graphs for
# `dot` of Graphviz, where it is installed, which draws each node and each edge.
set -u
program=$(readlink -f "$1")
cd "$(dirname "${BASH_SOURCE[0]}")/../examples" || exit 1
if ! command -v dot >/dev/null; then
    echo 'no dot here: the pictures are not drawn'
    exit 0
fi
drawn=0
wrong=0
for model in *.model; do
    drawn=$((drawn + 1))
    picture=$("$program" picture "$model") || picture=
    plain=$(dot -Tplain <<<"$picture") || plain=
    names=$(sed -n 's/^f \([^ ]*\) .*/\1/p' "$model")
    nodes=$(sed -n 's/^nodes //p' "$model")
    edges=$(grep -c '^[esc] ' "$model")
    if [ "$(sed -n 's/^label="\(.*\)"$/\1/p' <<<"$picture")" != "$names" ] || [ "$(grep -c '^node ' <<<"$plain")" != "$nodes" ] ||
        [ "$(grep -c '^edge ' <<<"$plain")" != "$edges" ]; then
        printf 'pictures: %s is not drawn whole\n' "$model"
        wrong=$((wrong + 1))
    fi
done
echo "$drawn pictures, $wrong wrong"
[ "$wrong" -eq 0 ] && [ "$drawn" -gt 0 ]
