#!/bin/sh
# Bytes a second of read_line of crates/zw_text, and of a C loop that splits the same lines and reads their numbers.
set -eu
top=$(cd "$(dirname "$0")/../.." && pwd)
. "$top/bench/workspace.sh"

workspace_of lines_bench "$top/bench/lines/main.txt" zw_base zw_words zw_text
run_program
"${CC:-cc}" -O2 -o "$work/loop" "$top/bench/lines/loop.c"
"$work/loop"
