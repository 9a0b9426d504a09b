#!/bin/sh
# Blocks a second of crates/aes_block beside a plain C implementation of the same form. It compares what both print.
set -eu
top=$(cd "$(dirname "$0")/../.." && pwd)
. "$top/bench/workspace.sh"
blocks=4000000

workspace_of aes_bench "$top/bench/aes/main.txt" aes_block
run_program >/dev/null
built=$(find "$work/crates/aes_bench/out" -type f -perm -u+x -name 'aes_bench*' | head -1)

{
    echo 'static const uint8_t SUBSTITUTION[256] = {'
    sed -n '/^static SUBSTITUTION/,/^];/p' "$top/crates/aes_block/src/substitution.rt" | sed '1d;$d'
    echo '};'
} >"$work/table.h"
"${CC:-cc}" -O2 -I"$work" -o "$work/plain" "$top/bench/aes/aes.c"
[ "$("$built")" = "$("$work/plain")" ] || { echo 'the two disagree' >&2; exit 1; }

# The best of five runs each, since other work may share the machine.
for name in "rattle $built" "c $work/plain"; do
    best=$(for _ in 1 2 3 4 5; do
        start=$(date +%s%N)
        "${name#* }" >/dev/null
        echo $(($(date +%s%N) - start))
    done | sort -n | head -1)
    echo "${name%% *}: $((blocks * 1000 / (best / 1000000))) blocks a second"
done
