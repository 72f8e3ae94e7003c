# shellcheck shell=bash disable=SC2154
# Files that a run is to write and that are in use, in the words of `run`, which reads this file: the file of
# the moves that is the graph, a token file that is read or the file of a sink, by any name; and a sink's file
# or that of the moves that is the file which standard output is. Nothing is written then, and no file changes.
# Pipes and devices may be named as often as one likes.

# state_of FOLDER: its files with their bytes, and its links.
state_of() {
  (
    cd "$1" || exit 1
    find . -type f -exec cksum {} + | sort
    find . -type l -printf '%p -> %l\n' | sort
  )
}

# refused_in_use NAME FILE WORD..: a run in room/copy that is refused since FILE is in use, and changes nothing.
refused_in_use() {
  local name="in use: $1" file="$2" status before
  shift 2
  if ! is_looked_at "$name"; then return; fi
  before="$(state_of "$room/copy")"
  echo "csdf: file in use: $file" > "$room/told"
  "$program" run graph.toml tokens --periods 2 "$@" > "$room/out" 2> "$room/err" < /dev/null
  status=$?
  compare "$name" "$status" /dev/null "$room/told" 2
  expect "$name: the files" "$(state_of "$room/copy")" "$before"
}

fresh_copy complete
refused_in_use "the graph" graph.toml --journal graph.toml
refused_in_use "the graph by another spelling" ./graph.toml --journal ./graph.toml
refused_in_use "the graph by a folder and back" tokens/../graph.toml --journal tokens/../graph.toml
refused_in_use "the graph by its whole path" "$room/copy/graph.toml" --journal "$room/copy/graph.toml"
refused_in_use "a token file that is read" tokens/src.in --journal tokens/src.in
refused_in_use "the file of a sink, not there yet" tokens/snk.out --journal tokens/snk.out
refused_in_use "the file of a sink by another spelling" ./tokens/.//snk.out --journal ./tokens/.//snk.out
ln -s graph.toml link
refused_in_use "the graph by a link" link --journal link
ln graph.toml again
refused_in_use "the graph by a hard link" again --journal again
ln -s tokens folder
refused_in_use "a token file by a link to its folder" folder/src.in --journal folder/src.in
refused_in_use "the file of a sink by a link to its folder" folder/snk.out --journal folder/snk.out
ln -s tokens/snk.out later
refused_in_use "the file of a sink by a link to it, not there yet" later --journal later
ln -s later last
refused_in_use "the file of a sink by a link to a link" last --journal last
echo earlier > tokens/snk.out
refused_in_use "the file of a sink, which is there" tokens/snk.out --journal tokens/snk.out
ln tokens/snk.out hard
refused_in_use "the file of a sink by a hard link" hard --journal hard
refused_in_use "in words where an object is asked for" graph.toml --journal graph.toml --json
refused_in_use "before the run, told of the way" graph.toml --journal graph.toml --progress

# The graph of standard input.
fresh_copy complete
cp graph.toml "$room/graph"
echo "csdf: file in use: graph.toml" > "$room/told"
"$program" run - tokens --journal graph.toml < graph.toml > "$room/out" 2> "$room/err"
compare "in use: the graph on standard input" "$?" /dev/null "$room/told" 2
cp "$room/graph" "$room/out"
: > "$room/err"
compare "in use: the graph on standard input stays" 0 graph.toml /dev/null 0

# A sink's file, or that of the moves, that is the file of standard output.
for name in "by a link to the device" "by its name"; do
  fresh_copy complete
  if [[ "$name" == "by its name" ]]; then
    out=tokens/snk.out
  else
    out=report
    ln -s /dev/stdout tokens/snk.out
  fi
  echo "csdf: file in use: snk.out" > "$room/told"
  "$program" run graph.toml tokens --periods 2 > "$out" 2> "$room/err"
  status=$?
  cp "$out" "$room/out"
  compare "in use: standard output is a sink's file, $name" "$status" /dev/null "$room/told" 2
done

fresh_copy complete
echo "csdf: file in use: report" > "$room/told"
"$program" run graph.toml tokens --periods 2 --journal report > report 2> "$room/err"
status=$?
cp report "$room/out"
compare "in use: standard output is the file of the moves" "$status" /dev/null "$room/told" 2

# Two sinks whose files are one by a link.
fresh_copy two_sinks
ln -s first.out tokens/second.out
echo "csdf: file in use: second.out" > "$room/told"
run_case "in use: two sinks with one file" /dev/null /dev/null "$room/told" 2 run graph.toml tokens

# What is allowed: the moves in a file of their own, there or not; a sink's file, or two, that is standard
# output where that is a pipe, or the device for nothing, and the moves in such a file.
fresh_copy complete
for name in "not there" "there"; do
  run_case "not in use: the moves in a file of their own, $name" /dev/null stdout /dev/null 0 \
    run graph.toml tokens --periods 2 --journal moves
done
cp wanted/snk.out "$room/wanted_files"
same_files "not in use: the moves in a file of their own: the tokens" tokens
expect "not in use: the moves in a file of their own: the moves" "$(head -n 1 moves)" "[script]"

fresh_copy complete
ln -s /dev/stdout tokens/snk.out
cat wanted/snk.out stdout > "$room/told"
"$program" run graph.toml tokens --periods 2 2> "$room/err" | cat > "$room/out"
compare "not in use: standard output is a pipe and a sink's file" "${PIPESTATUS[0]}" "$room/told" /dev/null 0

fresh_copy two_sinks
ln -s /dev/null tokens/first.out
ln -s /dev/null tokens/second.out
run_case "not in use: two sinks and the moves to the device for nothing" /dev/null stdout /dev/null 0 \
  run graph.toml tokens --journal /dev/null
