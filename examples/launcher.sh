#!/usr/bin/env bash
# Tries what stands around the programs: --help, help WORD and --version of the launcher and of installed programs, what is shown of wrong words, manual pages and
# completion, and what a call costs beside the executable, in processor time. Ends with 1 where one differs, and with 77 where release/ isn't of these sources, so
# that nothing could be tried without a build. Usage: examples/launcher.sh
set -u
here=$(cd "$(dirname "$(readlink -f "${BASH_SOURCE[0]}")")/.." && pwd)
"$here/tools/release" --fresh >/dev/null || { echo "passed over: release/ isn't of these sources"; exit 77; }
work=$(mktemp -d) || exit 1
trap 'rm -rf "$work"' EXIT
cd "$work" || exit 1
different=0

# Says whether a command ends with a status and puts what is in a pattern of the shell on standard output and on standard error: tries NAME STATUS OUT TOLD COMMAND..
tries() {
  local name=$1 wanted=$2 out=$3 told=$4 found
  shift 4
  "$@" >out.txt 2>told.txt </dev/null
  found=$?
  # shellcheck disable=SC2053
  if [ "$found" = "$wanted" ] && [[ $(cat out.txt) == $out && $(cat told.txt) == $told ]]; then
    echo "$name: as expected"
  else
    echo "$name: different, status $found"
    head -n 5 out.txt told.txt
    different=1
  fi
}

"$here/pgguard" gen 1 1 >first.txt 2>&1
"$here/pgsession" run </dev/null >first.txt 2>&1
"$here/pgfollow" follow </dev/null >first.txt 2>&1
"$here/pgcheck" schema </dev/null >first.txt 2>&1
version=$(cat "$here/VERSION")
"$here/tools/install" "$work/an installed" || exit 1

for bin in "$here" "$work/an installed/bin"; do
  for program in pgguard pgsession pgfollow pgcheck; do
    tries "$program --version" 0 "$program $version" "" "$bin/$program" --version
    tries "$program --help" 0 "usage:"$'\n'"  $program *" "" "$bin/$program" --help
    tries "$program help" 0 "usage:"$'\n'"  $program *" "" "$bin/$program" help
    tries "$program and no words" 2 "words refused 35" "usage: $program *" "$bin/$program"
    while read -r word; do
      tries "$program help $word" 0 "usage: $program $word*Status 0*" "" "$bin/$program" help "$word"
    done < <("$here/tools/help" --words "$here/docs/COMMANDS.md" "$program" | grep -vx 'load\|recover\|explain\|gen\|checkpoint')
  done
  tries "help of a word that isn't there" 1 "usage:"$'\n'"  pgguard try*" "" "$bin/pgguard" help nothing
  tries "right words" 0 "gen committed=6*" "" "$bin/pgguard" gen 5 6
  tries "too large a COUNT" 2 "words refused 35" "usage: pgguard gen START COUNT *at most 500,000" "$bin/pgguard" gen 5 500001
  tries "a mistyped word" 2 "words refused 35" "usage: pgguard apply NAME *" "$bin/pgguard" aply s
  tries "the beginning of a word" 2 "words refused 35" "usage: pgguard checkpoint NAME *" "$bin/pgguard" check s
  tries "no NAME" 2 "words refused 35" "usage: pgguard load NAME *" "$bin/pgguard" load
  tries "a wrong ELEM" 2 "words refused 35" "usage: pgguard explain NAME ELEM *" "$bin/pgguard" explain s x1
  tries "a word of no command" 2 "words refused 35" "usage: pgguard WORD *" "$bin/pgguard" zzzzzz 's\n'
  tries "words with signs" 2 "words refused 35" "usage: pgguard gen *" "$bin/pgguard" gen '$(exit)' '*'
  tries "help is the first word alone" 2 "words refused 35" "usage: pgguard recover NAME *" "$bin/pgguard" recover --help
  tries "words that the launcher takes for wrong and the program doesn't" 0 "gen committed=6*" "" "$bin/pgguard" gen 5 0000006
  tries "a status of its own" 4 "store refused 30 no store" "" "$bin/pgguard" recover nothing
done
tries "the program itself" 2 "words refused 35" "usage:*pgguard try*" "$("$here/tools/run" --path pgguard)" help
# In every process substitution and folder, by a link too.
ln -s "$here/pgguard" linked
tries "by a link" 0 "pgguard $version" "" ./linked --version
tries "found on the path" 0 "gen committed=1*" "" env PATH="$here:$PATH" pgguard gen 1 1
tries "read by bash" 0 "gen committed=1*" "" bash -c "cd '$here' && bash pgguard gen 1 1"

# A source that changes, comes or goes is noticed; here in a copy, whose other sources make `--path` say which executable it would build.
mkdir copy && tar -C "$here" --exclude=.git --exclude=build --exclude=out -cf - . | tar -C copy -xf -
tries "the copy runs the released executable" 0 "*/release/pgguard-x86_64-linux" "*" copy/tools/run --path pgguard
tries "and remembers it" 0 "*/release/pgguard-x86_64-linux" "" copy/tools/run --path pgguard
# What would be built is a program that says so.
printf '#!/bin/sh\necho builds >&2\nexit 1\n' >copy/tools/build
tries "a changed source" 70 "" "*builds*" bash -c 'echo >>copy/crates/pgs_base/src/lib.rt; exec copy/pgguard gen 1 1'
cp -p "$here/crates/pgs_base/src/lib.rt" copy/crates/pgs_base/src/lib.rt
tries "which is as it was" 0 "gen committed=1*" "*" copy/pgguard gen 1 1
tries "a source that comes" 70 "" "*builds*" bash -c 'echo >copy/crates/pgs_base/src/more.rt; exec copy/pgguard gen 1 1'
rm copy/crates/pgs_base/src/more.rt
tries "which has gone" 0 "gen committed=1*" "*" copy/pgguard gen 1 1
tries "a folder that comes" 70 "" "*builds*" bash -c 'rm -rf copy/crates/pgfollow/specs.away; mv copy/crates/pgs_json/specs copy/crates/pgs_json/specs.away; exec copy/pgguard gen 1 1'

tries "nothing is left behind of what wasn't built" 0 "" "" find copy/build -name '*.runs.[0-9]*'

# Manual pages and completion.
if command -v man >/dev/null && command -v nroff >/dev/null; then
  for program in pgguard pgsession pgfollow pgcheck; do
    tries "the manual page of $program" 0 "*SYNOPSIS*COMMANDS*EXIT STATUS*" "" man --warnings -l "an installed/share/man/man1/$program.1"
  done
else
  echo "manual pages: passed over, since man isn't installed"
fi
: >social.a
tries "completion of a word" 0 "explain evolve" "" bash -c '. "an installed/share/bash-completion/completions/pgguard"; COMP_WORDS=(pgguard e) COMP_CWORD=1; _pgguard; echo "${COMPREPLY[@]}"'
tries "completion of a store" 0 "social" "" bash -c '. "an installed/share/bash-completion/completions/pgguard"; COMP_WORDS=(pgguard apply so) COMP_CWORD=2; _pgguard; echo "${COMPREPLY[@]}"'

# What a call costs beside the executable.
cat >costs.py <<'P'
import resource, subprocess, sys
def cost(program, times=20):
    before = resource.getrusage(resource.RUSAGE_CHILDREN)
    for _ in range(times):
        subprocess.run([program, "gen", "1", "1"], stdin=subprocess.DEVNULL, stdout=subprocess.DEVNULL, check=True)
    after = resource.getrusage(resource.RUSAGE_CHILDREN)
    return (after.ru_utime + after.ru_stime - before.ru_utime - before.ru_stime) / times * 1000
launcher, installed, executable = sys.argv[1:]
alone = min(cost(executable) for _ in range(3))
beside = {name: min(cost(program) for _ in range(3)) - alone for name, program in (("launcher", launcher), ("installed", installed))}
print(*(f"{name} {milliseconds:.1f} ms" for name, milliseconds in beside.items()), sep=", ")
sys.exit(beside["launcher"] > 60 or beside["installed"] > 5)
P
tries "a call costs at most 60 ms by the launcher and 5 ms installed" 0 "*" "" \
  python3 costs.py "$here/pgguard" "$work/an installed/bin/pgguard" "$("$here/tools/run" --path pgguard)"
cat out.txt
"$here/tools/install" --remove "$work/an installed"
tries "what was installed is taken away" 0 "" "" find "an installed" -type f
exit "$different"
