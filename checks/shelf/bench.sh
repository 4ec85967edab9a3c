#!/bin/sh
# Measures how long calls of a playlist store in a database take, next to the same statements run by sqlite3 (see bench.py).
# Usage: bench.sh [ROOT]     (ROOT is the top folder of the repository; by default the one that this script is in)
set -eu
here=$(cd "$(dirname "$0")" && pwd)
. "$here/build.sh"
python3 "$here/bench.py" "$built"
