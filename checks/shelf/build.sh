# Builds shelf_bench for bench.sh and reader.sh, which read this file with `.`; afterwards `built` is the program. What else it
# needs and sets is explained in in_a_copy.sh.
. "$here/../in_a_copy.sh"
command -v sqlite3 > /dev/null || { echo 'sqlite3 is not installed (Debian: apt-get install sqlite3)'; exit 1; }
copy_program shelf_bench shelf_database shelf sqlite
run_copy -- list memory 1
