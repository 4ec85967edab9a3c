#!/bin/sh
# Measures microseconds of commands on stored playlists and stickers, next to the bare calls of a playlist store in memory: a
# queue of 16,384 entries is saved and loaded, its list is emptied, and 10,000 stickers are searched. Then it prints what parts
# of these commands take. Each figure is the best of three.
# Usage: bench.sh [ROOT]     (ROOT is the top folder of the repository; by default the one that this script is in)
set -eu
here=$(cd "$(dirname "$0")" && pwd)
. "$here/../in_a_copy.sh"
run_program list_bench partition player_events transitions player_state shelf_contents shelf mpd_command song_db mpd_text
grep -E '^lists [a-z_]+ [0-9]+ [0-9]+ (yes|NO)$' "$work/log" | awk '
    {
        if (!($2 in best)) { rows[++count] = $2; best[$2] = $3; least[$2] = $4; right[$2] = "yes" }
        if ($3 < best[$2]) best[$2] = $3
        if ($4 < least[$2]) least[$2] = $4
        if ($5 == "NO") right[$2] = "NO"
    }
    END {
        printf "%-14s %15s %17s %8s  %s\n", "command", "us, command", "us, bare call", "times", "right"
        for (i = 1; i <= count; i++) {
            n = rows[i]
            printf "%-14s %15.1f %17.1f %8.1f  %s\n", n, best[n] / 1000, least[n] / 1000, best[n] / (least[n] ? least[n] : 1), right[n]
        }
    }
'
grep -E '^parts [0-9]+ ' "$work/log" | awk '
    {
        nanos = $2
        sub(/^parts [0-9]+ /, "")
        if (!($0 in best)) { rows[++count] = $0; best[$0] = nanos }
        if (nanos < best[$0]) best[$0] = nanos
    }
    END {
        printf "\n%-40s %10s\n", "part", "us"
        for (i = 1; i <= count; i++) printf "%-40s %10.1f\n", rows[i], best[rows[i]] / 1000
    }
'
