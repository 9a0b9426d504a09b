#!/bin/sh
# Nanoseconds of a tick and of a report, by crates/host_core, with one node and with 231.
set -eu
top=$(cd "$(dirname "$0")/../.." && pwd)
. "$top/bench/workspace.sh"

uses="zw_base zw_base serial_frame host_keep host_core"
workspace_of host_bench "$top/bench/host/main.txt" $(all_below $uses)
sed -i "s/^host_bench: .*/host_bench: $uses/" "$work/crates.txt"
run_program
