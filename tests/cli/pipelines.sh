# shellcheck shell=bash disable=SC2154
# The cases of the pipelines, in the words of `run`, which reads this file. Each folder of examples/
# is one: its expected/ has what the commands answer of its graph, and what a run with the words of
# expected/options, a word on each line, prints (report) and writes (NAME.out).

# run_pipeline FOLDER NAME WORKERS: a run on a copy of the folder's token files.
run_pipeline() {
  local folder="$1" name="$2" workers="$3" tokens="$room/tokens" options=() file
  rm -rf "$tokens"
  mkdir "$tokens"
  cp "$folder"/*.in "$tokens"
  if [[ -f "$folder/expected/options" ]]; then mapfile -t options < "$folder/expected/options"; fi
  run_case "run examples/$name, workers: $workers" /dev/null "$folder/expected/report" /dev/null 0 \
    run "$folder/graph.toml" "$tokens" --workers "$workers" "${options[@]}"
  : > "$room/err"
  for file in "$folder"/expected/*.out; do
    wanted "$tokens/$(basename "$file")" > "$room/out"
    compare "$(basename "$file") of examples/$name, workers: $workers" 0 "$file" /dev/null 0
  done
}

for folder in "$top"/examples/*/; do
  name="$(basename "$folder")"
  for command in check repetition capacity schedule; do
    run_case "$command examples/$name" /dev/null "$folder/expected/$command" /dev/null 0 \
      "$command" "$folder/graph.toml"
  done
  if [[ -f "$folder/expected/dot" ]]; then
    run_case "dot examples/$name" /dev/null "$folder/expected/dot" /dev/null 0 \
      dot "$folder/graph.toml"
  fi
  for workers in 1 2 8; do
    run_pipeline "$folder" "$name" "$workers"
  done
done
