#!/bin/sh
# Measures frames a second of frames_at, in blocks of 1,024 frames of 16 bits and two channels, next to copying the same bytes.
# Usage: bench.sh [ROOT]     (ROOT is the top folder of the repository; by default the one that this script is in)
set -eu
here=$(cd "$(dirname "$0")" && pwd)
. "$here/../in_a_copy.sh"
run_program wave_bench wave counted_devices
grep -E '^[a-z]+ [0-9]+ [0-9]+ [0-9]+$' "$work/log" | awk '
    NR == 1 { copy = $3 / $2; printf "%-10s %16s %14s\n", "", "million frames/s", "time to memcpy" }
    { printf "%-10s %16.1f %14.1f\n", $1, $2 * 1000 / $3, $3 / $2 / copy }
'
