# shellcheck shell=bash disable=SC2154
# What stands beside the program, in the words of `run`, which reads this file: completions and the man
# page are what is made of its help, bash (and fish, where it is) completes words by them, the schema of graph
# files has its keys and limits, README, GUIDE and FORMATS show what it prints, at a terminal it says that it
# waits, and the moves of runs can be played again.

: > "$room/err"
if is_looked_at "completions and the man page"; then
  "$top/completions/make" "$program" > "$room/out" 2> "$room/err"
  compare "completions and the man page are made of the help" "$?" /dev/null /dev/null 0
fi
"$program" --help | grep -c '^  [a-z]' > "$room/out"
echo 10 > "$room/ten"
compare "the help has ten commands" 0 "$room/ten" /dev/null 0

# completed_by_bash WORD..: what bash offers in room/offered for the last of these words behind csdf, one a line.
completed_by_bash() {
  (
    cd "$room/offered" || exit 1
    # shellcheck source=completions/csdf.bash
    source "$top/completions/csdf.bash"
    COMP_WORDS=(csdf "$@")
    COMP_CWORD="$#"
    _csdf
    for reply in "${COMPREPLY[@]}"; do echo "$reply"; done | sort
  )
}

# completed_by_fish WORD..: the same by fish, without what it says of each.
completed_by_fish() {
  (
    cd "$room/offered" || exit 1
    line="csdf $*"
    fish --no-config -c 'source $argv[1]; complete -C $argv[2]' "$top/completions/csdf.fish" "$line" | cut -f 1 | sort -u
  )
}

# offered SHELL WANTED WORD..: what the shell offers are these words.
offered() {
  local shell="$1" reply wanted
  read -r -a wanted <<< "$2"
  shift 2
  if ! is_looked_at "$shell completes csdf $*"; then return; fi
  "completed_by_$shell" "$@" > "$room/out" 2> "$room/err"
  for reply in "${wanted[@]}"; do echo "$reply"; done | sort > "$room/told"
  compare "$shell completes csdf $*" 0 "$room/told" /dev/null 0
}

mkdir -p "$room/offered/tokens" "$room/offered/other"
touch "$room/offered/graph.toml"
commands="run stream moves check repetition schedule capacity dot explain"
offered bash "$commands help --help --version" ""
offered bash "$commands" help ""
offered bash "check" help ch
offered bash "" help run ""
offered bash "graph.toml other tokens" run ""
for command in run stream explain; do
  offered bash "other tokens" "$command" graph.toml ""
  offered bash "tokens" "$command" - t
  offered bash "" "$command" graph.toml tokens ""
done
for command in moves check repetition schedule capacity dot; do
  offered bash "graph.toml other tokens" "$command" ""
  offered bash "" "$command" graph.toml ""
done
for command in run stream schedule capacity dot; do
  offered bash "auto" "$command" --room ""
  offered bash "auto" "$command" --room =
  offered bash "auto" "$command" graph.toml --room = a
  offered bash "--room=auto" "$command" --room=au
  offered bash "graph.toml" "$command" --room = auto g
done
for command in run stream; do
  offered bash "1 2 3 4 5 6 7 8 auto" "$command" --workers =
  offered bash "2" "$command" --workers = 2
  offered bash "2" "$command" --workers 2
  offered bash "other tokens" "$command" --out =
  offered bash "other tokens" "$command" --workers 2 graph.toml --room auto ""
  offered bash "--workers" "$command" graph.toml tokens --w
done
offered bash "s16be s16le" stream --format = s16
if command -v fish > /dev/null; then
  offered fish "$commands" help ""
  offered fish "check" help ch
  offered fish "" help run ""
  for command in run stream explain; do
    offered fish "other/ tokens/" "$command" graph.toml ""
  done
  for command in run stream schedule capacity dot; do
    offered fish "--room=auto" "$command" --room=a
    offered fish "auto" "$command" --room a
  done
  offered fish "--workers=2" run --workers=2
  offered fish "s16be s16le" stream --format s16
fi

# looked_over NAME SCRIPT: a script that prints what is wrong with the program, and nothing where all is well.
looked_over() {
  if ! is_looked_at "$1"; then return; fi
  python3 "$here/$2" "$program" > "$room/out" 2> "$room/err"
  compare "$1" "$?" /dev/null /dev/null 0
}

looked_over "the schema of graph files" schema.py
looked_over "what is told at a terminal" terminal.py
looked_over "what README, GUIDE and FORMATS show" told.py
looked_over "the moves of runs" journals.py
looked_over "blocks of heavy firings" heavy.py
