#!/bin/sh
# Lines a second of crates/event_flow.
set -eu
top=$(cd "$(dirname "$0")/../.." && pwd)
. "$top/bench/workspace.sh"

workspace_of events_bench "$top/bench/events/main.txt" zw_base supervision zw_words zw_text zw_print zw_parse event_flow
sed -i 's/^events_bench: .*/events_bench: zw_base event_flow/' "$work/crates.txt"
run_program
