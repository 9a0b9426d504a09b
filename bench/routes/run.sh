#!/bin/sh
# Routes a second of full tables of crates/route_table.
set -eu
top=$(cd "$(dirname "$0")/../.." && pwd)
. "$top/bench/workspace.sh"

workspace_of routes_bench "$top/bench/routes/main.txt" zw_base route_table
run_program
