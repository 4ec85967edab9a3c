#!/bin/sh
# Lets sqlite3 read database files that the playlist store has written (see reader.py).
# Usage: reader.sh [ROOT]     (ROOT is the top folder of the repository; by default the one that this script is in)
set -eu
here=$(cd "$(dirname "$0")" && pwd)
. "$here/build.sh"
python3 "$here/reader.py" "$built"
