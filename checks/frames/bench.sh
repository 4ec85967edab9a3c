#!/bin/sh
# Measures frames a second of the sample kernels and of a ring buffer, next to plain C loops.
# Usage: bench.sh [ROOT]     (ROOT is the top folder of the repository; by default the one that this script is in)
set -eu
here=$(cd "$(dirname "$0")" && pwd)
. "$here/../in_a_copy.sh"
gcc -O2 -o "$work/kernels" "$here/kernels.c"
run_program frame_bench output_ring pcm_mix counted_devices
"$work/kernels" > "$work/c.txt"
grep -E '^[a-z_0-9]+ [0-9]+ [0-9]+ [0-9]+$' "$work/log" > "$work/ours.txt"
awk '
    NR == FNR { time[$1] = $3; sum[$1] = $4; next }
    FNR == 1 { printf "%-22s %14s %14s %7s  %s\n", "", "million/s", "C, million/s", "ratio", "same result" }
    {
        printf "%-22s %14.1f", $1, $2 * 1000 / $3
        if ($1 in time) printf " %14.1f %7.2f  %s\n", $2 * 1000 / time[$1], $3 / time[$1], ($4 == sum[$1] ? "yes" : "NO")
        else printf "\n"
    }
' "$work/c.txt" "$work/ours.txt"
