#!/bin/sh
# Measures microseconds of a change that is reported to clients waiting in `idle`, and of their next `idle`s; and how many lines
# with `ping` a player reads and answers in a second while 1 or 60 clients are connected. Each figure is the best of five.
# Usage: bench.sh [ROOT]     (ROOT is the top folder of the repository; by default the one that this script is in)
set -eu
here=$(cd "$(dirname "$0")" && pwd)
. "$here/../in_a_copy.sh"
run_program notice_bench partition player_events transitions player_state shelf mpd_command song_db mpd_text
grep -E '^notices [0-9]+ [0-9]+ [0-9]+ [0-9]+ [0-9]+$' "$work/log" | awk '
    {
        change = $4 / 1000 / $3
        idles = $5 / 1000 / $3
        if (!($2 in best)) { rows[++count] = $2; best[$2] = change; least[$2] = idles; all[$2] = "yes" }
        if (change < best[$2]) best[$2] = change
        if (idles < least[$2]) least[$2] = idles
        if ($6 != $2 * $3) all[$2] = "NO"
    }
    END {
        printf "%-8s %14s %19s %9s %14s %12s  %s\n", "clients", "us a change", "us more a client", "target", "us, all idle", "us an idle", "all got it"
        for (i = 1; i <= count; i++) {
            n = rows[i]
            if (n == 0) printf "%-8d %14.2f %19s %9s %14s %12s  %s\n", n, best[n], "-", "-", "-", "-", all[n]
            else printf "%-8d %14.2f %19.3f %9s %14.2f %12.3f  %s\n", n, best[n], (best[n] - best[0]) / n, "2", least[n], least[n] / n, all[n]
        }
    }
'
grep -E '^pings [0-9]+ [0-9]+ [0-9]+$' "$work/log" | awk '
    {
        each = $4 / $3
        if (!($2 in best)) { rows[++count] = $2; best[$2] = each }
        if (each < best[$2]) best[$2] = each
    }
    END {
        printf "\n%-10s %16s\n", "connected", "lines a second"
        for (i = 1; i <= count; i++) printf "%-10d %16.0f\n", rows[i], 1e9 / best[rows[i]]
    }
'
