#!/bin/sh
# Measures microseconds of questions to a library of 100,000 songs with three tags each, in 100 folders, next to the targets; and
# the most memory that the program used, as bytes for each song in addition to its texts (its URI and its tags).
# Usage: bench.sh [ROOT]     (ROOT is the top folder of the repository; by default the one that this script is in)
set -eu
here=$(cd "$(dirname "$0")" && pwd)
. "$here/../in_a_copy.sh"
build_program search_bench song_groups song_search song_db filters mpd_text
python3 - "$built" > "$work/told" <<'END'
import resource, subprocess, sys
print(subprocess.run(sys.argv[1:], stdout=subprocess.PIPE, check=True, text=True).stdout, end='')
texts = len('000/000000.wav') + len('Title 000000') + len('Artist 00') + len('Album 000')
print('memory', resource.getrusage(resource.RUSAGE_CHILDREN).ru_maxrss * 1024 // 100000 - texts)
END
awk '
    BEGIN { wanted["artist"] = 3000; wanted["any"] = 60000; wanted["albums"] = 40000; printf "%-8s %12s %12s %8s\n", "", "microseconds", "target", "answer" }
    $1 == "memory" { printf "\n%d bytes for each song in addition to its texts (target: 200 or less)\n", $2; next }
    { printf "%-8s %12d %12s %8d\n", $1, $2, wanted[$1], $3 }
' "$work/told"
