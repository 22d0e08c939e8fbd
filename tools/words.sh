# What the launcher and an installed program know of words, in the shell's own commands alone: sourced by tools/run, copied by tools/install.

# Whether a word is a number of 1 to 20 digits.
is_number() {
  case $1 in
    "" | *[!0-9]* | ?????????????????????*) return 1 ;;
  esac
}

# Whether words are a command of a program, by how many they are and their form. The program alone decides: this chooses what is shown of wrong words.
words_fit() {
  for one_word; do
    case $one_word in
      "" | -*) return 1 ;;
    esac
  done
  case "$1 ${2-} $#" in
    "pgguard try 2" | "pgguard validate 2" | "pgguard contain 2" | "pgsession run 2" | "pgfollow follow 2" | "pgcheck schema 2" | "pgcheck try 2" | "pgcheck evolve 2") ;;
    "pgcheck evolve 3" | "pgcheck apply 3") ;;
    "pgguard load 3" | "pgguard recover 3" | "pgguard checkpoint 3" | "pgguard evolve 3") ;;
    "pgguard apply 2") return 1 ;;
    "pgguard apply "*) ;;
    "pgguard explain 4")
      case $4 in
        [ne]*) is_number "${4#?}" ;;
        *) return 1 ;;
      esac
      ;;
    "pgguard gen 4") is_number "$3" && is_number "$4" && [ ${#4} -le 6 ] && [ "$4" -le 500000 ] ;;
    *) return 1 ;;
  esac
}

# Runs an executable on wrong words, which prints `words refused 35` and ends with 2. In the place of its usage stands the line that fits best, which the
# command of the first words prints: run_wrong EXECUTABLE HELP PAGE PROGRAM WORDS..
run_wrong() {
  wrong_run=$1 wrong_help=$2 wrong_page=$3 wrong_program=$4
  shift 4
  # Without a standard output the program says so by itself.
  (true >&1) 2>/dev/null || exec "$wrong_run" "$@"
  { wrong_told=$("$wrong_run" "$@" 2>&1 >&3 3>&-); } 3>&1
  wrong_status=$?
  if [ "$wrong_status" = 2 ]; then
    "$wrong_help" --usage "$wrong_page" "$wrong_program" "$@" >&2
  elif [ -n "$wrong_told" ]; then
    printf '%s\n' "$wrong_told" >&2
  fi
  exit "$wrong_status"
}
