#!/bin/sh
# Frames a second of crates/mesh_sim.
set -eu
top=$(cd "$(dirname "$0")/../.." && pwd)
. "$top/bench/workspace.sh"

workspace_of air_bench "$top/bench/air/main.txt" $(all_below mesh_sim)
sed -i 's/^air_bench: .*/air_bench: zw_base route_table device_sim mesh_sim/' "$work/crates.txt"
run_program
