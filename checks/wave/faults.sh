#!/bin/sh
# Reads a file with each allocation refused in turn, with each read failing in turn, and by reads of a few bytes (see faults.py).
# Usage: faults.sh [ROOT]     (ROOT is the top folder of the repository; by default the one that this script is in)
set -eu
here=$(cd "$(dirname "$0")" && pwd)
. "$here/../in_a_copy.sh"
gcc -shared -fPIC -O2 -o "$work/faulty.so" "$root/checks/faulty.c" -ldl
build_program wave_show wave counted_devices
python3 "$here/faults.py" "$built" "$work/faulty.so"
