# What the scripts in the folders next to this file have in common; they read it with `.`. A program is built in a copy of the crates
# that it depends on, together with what is proved already; the rest is proved there first. The copy is kept in the user's cache, so
# that a later run proves and builds only what has changed. Scripts of the same folder share it, and must not run at the same time.
#
# A script sets `here` to its own folder before it reads this file. Its first argument is the top folder of the repository, by
# default the one that the script is in. Afterwards `root` is that folder, and `work` is the folder with the copy, where the script
# may put files of its own.
root=$(cd "${1:-$here/../..}" && pwd)
work=${XDG_CACHE_HOME:-$HOME/.cache}/music_daemon/$(printf '%s' "$here" | cksum | cut -d ' ' -f 1)
mkdir -p "$work"

# copy_program PROGRAM CRATE... copies these crates, all crates below them, and as a crate above them the folder PROGRAM, which is
# next to the script. Afterwards `built` says where the program will be when it is built.
copy_program() {
  program=$1
  built=$work/crates/$program/out/$program
  shift
  python3 "$here/../crates.py" "$root" "$@" --for "$here/$program" "$work"
}

# run_copy [WORD...] builds the program that was copied, and runs it; `rt run` gets the WORDs. What is printed meanwhile is in the
# file log of `work`; if something fails, the script prints this file and ends.
run_copy() {
  (cd "$work/crates/$program" && rt run "$@" > "$work/log" 2>&1) || { cat "$work/log"; exit 1; }
}

# run_program PROGRAM CRATE... copies a program, builds it and runs it.
run_program() {
  copy_program "$@"
  run_copy
}

# build_program PROGRAM CRATE... copies a program and only builds it. It also runs it, since `rt run` is what builds a program, but
# this run may fail. The stamp tells that the program was built from the files as they are, and not by an earlier run.
build_program() {
  copy_program "$@"
  (cd "$work/crates/$program" && rt run > "$work/log" 2>&1) || true
  [ -e "$built.stamp" ] || { cat "$work/log"; exit 1; }
}
