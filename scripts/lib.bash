# Functions that the scripts share. Source this file with the top of the repository as the current folder.
# shellcheck shell=bash

# The time since the script started, as minutes and seconds.
elapsed() {
  printf '%3d:%02d' $((SECONDS / 60)) $((SECONDS % 60))
}

# add COUNTS: adds a line 'N passed, M failed' to passed and failed; any other line counts as one failure.
add() {
  if [[ $1 =~ ^([0-9]+)' passed, '([0-9]+)' failed'$ ]]; then
    passed=$((passed + BASH_REMATCH[1]))
    failed=$((failed + BASH_REMATCH[2]))
  else
    failed=$((failed + 1))
  fi
}

# finish: prints the counts as the last line, and ends with status 0 where nothing failed.
finish() {
  echo "$passed passed, $failed failed"
  [ "$failed" -eq 0 ]
  exit
}

# sources ACTION..: does this action of find for each file that the program is made from.
sources() {
  find crates.txt HANDLES crates/*/src crates/*/specs crates/*/proofs -type f \
    \( -name '*.rt' -o -name '*.antt' -o -name crates.txt -o -name HANDLES \) "$@" 2> /dev/null
}

# copy_sources FOLDER: copies the working tree to FOLDER, without its history, its release and what rt made.
copy_sources() {
  tar --no-wildcards-match-slash --exclude=./.git --exclude=./dist --exclude=./out --exclude='./crates/*/out' \
    --exclude=./bench/by_hand/out -cf - . | tar -C "$1" -xf -
}

# prove FOLDER LOG: runs `rt ci` in FOLDER, whose status it returns. LOG gets all that it prints, standard output a
# line for each crate that is proved.
prove() {
  local folder=$1 log=$2 crates tests proved=0 line
  crates=$(grep -c '^[a-z]' "$folder/crates.txt")
  tests=$(grep -lE '^ *#\[test\]' -r "$folder"/crates/*/src --include='*.rt' | cut -d/ -f1-"$(($(tr -cd / <<< "$folder" | wc -c) + 3))" | sort -u | wc -l)
  (cd "$folder" && rt ci < /dev/null 2>&1) | tee "$log" | while IFS= read -r line; do
    case $line in
      "rt: "*" proved")
        proved=$((proved + 1))
        line=${line#rt: }
        printf '[%2d/%d] %s  %s\n' "$proved" $((crates + tests)) "$(elapsed)" "${line/: its tests are proved/: tests proved}"
        ;;
      "rt: "*"NOT PROVED"* | "rt: "*"trying its must-fail edits"*)
        printf '        %s  %s\n' "$(elapsed)" "${line#rt: }"
        ;;
    esac
  done
  return "${PIPESTATUS[0]}"
}

# edits_refused_by_a_name LOG: the must-fail edits in what rt printed that were refused, but not at a goal: only because
# a name is gone, so that no contract was tried.
edits_refused_by_a_name() {
  grep -aE '^rt: must-fail [^ ]+: refused, as it must be' "$1" |
    grep -aE '\(only because a proof file names|has no field|is not in scope|cannot be cited|was not admitted' |
    sed -E 's/^rt: (must-fail [^ ]+): .*/\1: refused by a name alone/'
}

# take_some_wrong_bodies CRATE FOLDER COUNT: in the copy of the working tree in FOLDER, adds COUNT of the crate's wrong
# bodies to its must-fail edits: others with each commit, so that all of them are tried in turn.
take_some_wrong_bodies() {
  local crate=$1 folder=$2 count=$3 all place
  mapfile -t all < <(ls "crates/$crate/wrong-bodies/")
  place=$(($(git rev-list --count HEAD 2> /dev/null || echo 0) * count % ${#all[@]}))
  mkdir -p "$folder/crates/$crate/must-fail"
  for edit in $(printf '%s\n' "${all[@]:place}" "${all[@]:0:place}" | head -n "$count"); do
    cp "crates/$crate/wrong-bodies/$edit" "$folder/crates/$crate/must-fail/"
  done
}
