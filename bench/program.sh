# shellcheck shell=bash
# For the scripts beside it, which source it from the top of the repository.
#
# make_program NAME "CRATES" "LIBRARIES" makes a crate of this name, in a scratch folder that goes at the end of the script, on
# these crates of the repository, what they stand on, and libraries of the kit. They come with what earlier checks kept, so that of them only
# what was not kept is proved. `$program` is then the crate's folder, where the script writes its files.
make_program() {
  local scratch crate
  scratch=$(mktemp -d)
  # shellcheck disable=SC2064
  trap "rm -rf '$scratch'" EXIT
  program="$scratch/crates/$1"
  mkdir -p "$program/src"
  for crate in $2; do
    grep -q "^$crate:" crates.txt || { echo "no crate $crate" >&2; exit 1; }
  done
  for crate in $(crates_under "$2"); do
    cp -r "crates/$crate" "$scratch/crates/"
    grep "^$crate:" crates.txt >>"$scratch/crates.txt"
  done
  echo "$1: $2 $3" >>"$scratch/crates.txt"
}

# crates_under "CRATES" names these crates and those that they stand on, lowest first.
crates_under() {
  awk -F: -v crates="$1" 'BEGIN { for (i = split(crates, it, " "); i; i--) needed[it[i]] = 1 }
    /^[a-z]/ { names[++n] = $1; below[$1] = $2 }
    END {
      for (i = n; i; i--) if (names[i] in needed) { k = split(below[names[i]], it, " "); while (k) needed[it[k--]] = 1 }
      for (i = 1; i <= n; i++) if (names[i] in needed) print names[i]
    }' crates.txt
}

# run_program proves it, and runs it as it was built.
run_program() {
  touch "$program/stdin"
  (cd "$program" && rt run)
}
