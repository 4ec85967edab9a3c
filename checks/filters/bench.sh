#!/bin/sh
# Measures how many filters a second are run over 5,000 songs.
# Usage: bench.sh [ROOT]     (ROOT is the top folder of the repository; by default the one that this script is in)
set -eu
here=$(cd "$(dirname "$0")" && pwd)
. "$here/../in_a_copy.sh"
run_program filter_bench filters mpd_text
grep -E '^[a-z_]+ [0-9]+ [0-9]+ [0-9]+ [0-9]+$' "$work/log" | awk '
    BEGIN { printf "%-18s %14s %18s %14s %8s\n", "", "filters/s", "ms a filter", "target, ms", "songs" }
    { printf "%-18s %14.0f %18.3f %14s %8d\n", $1, $2 * 1e9 / $3, $3 / 1e6 / $2, ($5 == 0 ? "-" : $5), $4 / $2 }
'
