# What the scripts of this folder share. It is sourced first, and makes a folder of the run's own, `work`, which is gone when the run ends.
set -eu
shopt -s inherit_errexit
top=$(cd "$(dirname "$(readlink -f "${BASH_SOURCE[0]}")")/.." && pwd)
work=$(mktemp -d)
trap 'rm -rf "$work"' EXIT
mkdir "$work/crates"
cp "$top/HANDLES" "$work/"
: >"$work/crates.txt"

# take CRATE..: copies these crates of the repository, and all below them, with the libraries that were built of them: `rt` takes such a
# library where it is of these very sources, and else proves and builds it anew
take() {
  local crate part line lower
  for crate; do
    if [ -d "$top/crates/$crate" ] && [ ! -d "$work/crates/$crate" ]; then
      mkdir "$work/crates/$crate"
      for part in src specs proofs; do
        [ ! -d "$top/crates/$crate/$part" ] || cp -r "$top/crates/$crate/$part" "$work/crates/$crate/"
      done
      if [ -d "$top/crates/$crate/out/rlib" ]; then
        mkdir "$work/crates/$crate/out"
        cp -a "$top/crates/$crate/out/rlib" "$work/crates/$crate/out/"
      fi
      line=$(grep -E "^$crate:" "$top/crates.txt")
      echo "$line" >>"$work/crates.txt"
      read -r -a lower <<<"${line#*:}"
      take "${lower[@]}"
    fi
  done
}

# build CRATE WORD..: proves and builds a program, with what is below where no check has kept it, and runs it once with the words. Where
# `keep` is the path of a file, the program is put there, and that is all.
build() {
  local crate=$1
  shift
  built="$work/crates/$crate/out/$crate"
  (cd "$work/crates/$crate" && rt all check && rt run -- "$@") >"$work/log" 2>&1 </dev/null || [ -x "$built" ] || {
    tail -n 40 "$work/log" >&2
    exit 1
  }
  [ -z "${keep-}" ] || { cp "$built" "$keep"; exit 0; }
}

# milliseconds COMMAND..: the processor's time of a program itself, the least of three, which other work on the machine changes least
milliseconds() {
  local TIMEFORMAT='%U' turn
  for turn in 1 2 3; do
    { time "$@" || { echo "the program ended with $? in turn $turn" >&2; exit 1; }; } 2>&1
  done | sort -n | awk 'NR == 1 { print $1 * 1000 }'
}

# held WHAT STATUS COMMAND..: the processor's time of a program, system calls included, and the most memory that it held
held() {
  python3 - "$@" <<'P'
import resource, subprocess, sys
what, wanted, *command = sys.argv[1:]
ended = subprocess.run(command).returncode
used = resource.getrusage(resource.RUSAGE_CHILDREN)
if ended != int(wanted):
    sys.exit(f"the program ended with {ended}")
print(f"{what}: {used.ru_utime + used.ru_stime:.3f} s, {used.ru_maxrss // 1024} MB")
P
}
