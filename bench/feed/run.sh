#!/bin/sh
# Bytes a second of the decoder of crates/serial_frame, and of a C loop that does the same work.
set -eu
top=$(cd "$(dirname "$0")/../.." && pwd)
. "$top/bench/workspace.sh"

workspace_of feed_bench "$top/bench/feed/main.txt" zw_base serial_frame
run_program
"${CC:-cc}" -O2 -o "$work/loop" "$top/bench/feed/loop.c"
"$work/loop"
