# shellcheck shell=bash disable=SC2154
# The cases of `csdf stream`, in the words of `run`, which reads this file. Each folder of streams/ is one: the
# program is run there, in a copy, with the words of its file words behind `stream`, by 1, 2 and 8 workers, and
# stdin, stdout, stderr, status, tokens and wanted are as those of cases/ and runs/. The others follow: FIFOs,
# pipes that are closed, devices that are full, signals, and each example beside `csdf run --until-dry`.

# stream_copy CASE: room/copy is the folder of streams/ once more, and room/wanted_files its tokens.
stream_copy() {
  rm -rf "$room/copy" "$room/wanted_files"
  cp -r "$here/streams/$1" "$room/copy"
  mkdir -p "$room/copy/tokens"
  cp -r "$room/copy/tokens" "$room/wanted_files"
  cd "$room/copy" || exit 1
}

# stream_case FOLDER WORKERS: the case of the folder by so many workers.
stream_case() {
  local folder="$1" workers="$2" status=0 input=/dev/null words=() name
  name="streams/$(basename "$folder"), $workers workers"
  if ! is_looked_at "$name"; then return; fi
  if [[ -f "$folder/status" ]]; then status="$(< "$folder/status")"; fi
  if [[ -f "$folder/stdin" ]]; then input="$folder/stdin"; fi
  mapfile -t words < "$folder/words"
  stream_copy "$(basename "$folder")"
  if [[ -d "$folder/wanted" ]]; then cp "$folder"/wanted/* "$room/wanted_files"; fi
  run_case "$name" "$input" "$folder/stdout" "$folder/stderr" "$status" stream "${words[@]}" --workers "$workers"
  same_files "$name" "$room/copy/tokens"
}

for folder in "$here"/streams/*/; do
  for workers in 1 2 8; do
    stream_case "$folder" "$workers"
  done
done

# Words that are refused, whose usage is not compared; and words at the ends of the ranges, which are taken:
# beside them the folder is missing.
stream_copy samples
echo "csdf: device: src.in" > "$room/no_feed"
while read -r status words; do
  if ! is_looked_at "stream graph.toml $words"; then continue; fi
  # The words of a line are separate.
  # shellcheck disable=SC2086
  "$program" stream graph.toml $words > "$room/out" 2> "$room/err" < /dev/null
  found=$?
  wanted_err="$room/no_feed"
  if [[ "$status" == 2 ]]; then
    wanted_err=/dev/null
    if grep -q "^error: " "$room/err"; then : > "$room/err"; fi
  fi
  compare "stream graph.toml $words" "$found" /dev/null "$wanted_err" "$status"
done << 'WORDS'
2 tokens more
2 tokens --workers
2 tokens --workers 0
3 missing --workers 1
3 missing --workers 8
2 tokens --workers 9
2 tokens --room
2 tokens --room 0
3 missing --room 1
3 missing --room 65535
3 missing --room auto
2 tokens --room 65536
2 tokens --room all
2 tokens --segment
2 tokens --segment 0
3 missing --segment 1
3 missing --segment 4294967295
2 tokens --segment 4294967296
2 tokens --segment -1
2 tokens --segment auto
2 tokens --segment 1 --segment 1
2 tokens --periods 0
3 missing --periods 1
3 missing --periods 4294967295
2 tokens --periods 4294967296
2 tokens --periods ten
2 tokens --periods 1 --periods 2
3 missing --segment 2 --periods 1
2 tokens --format
2 tokens --format mp3
2 tokens --format S16LE
2 tokens --format s16
2 tokens --format text,u8
2 tokens --format u8 --format u8
3 missing --format text
3 missing --format u8
3 missing --format s8
3 missing --format s16le
3 missing --format s16be
3 missing --format s32le
3 missing --format s32be
2 tokens --out
2 --out other
3 missing --out tokens
2 tokens --until-dry
2 tokens --firings 1
2 tokens --journal moves
2 tokens --progress=1
3 missing --progress
WORDS
same_files "refused words of a stream" tokens
"$program" stream graph.toml --out other < /dev/null 2>&1 > /dev/null | head -n 1 > "$room/out"
: > "$room/err"
echo "error: '--out <FOLDER>' needs DIR" > "$room/told"
compare "stream: a folder of the sinks alone" 0 "$room/told" /dev/null 0
"$program" stream < /dev/null > "$room/out" 2> "$room/err"
status=$?
if grep -q "^error: " "$room/err"; then : > "$room/err"; fi
compare "stream: no graph is named" "$status" /dev/null /dev/null 2

# What is so where nothing is said: text, room for many periods, and long segments.
stream_copy text
cat > "$room/told" << 'REPORT'
ending dry
x written 5 taken 5 held 0 peak 5 capacity 4096 closed
y written 5 taken 5 held 0 peak 5 capacity 4096 open
REPORT
run_case "stream: where nothing is said" stdin stdout "$room/told" 0 stream graph.toml
run_case "stream: format text" stdin stdout "$room/told" 0 stream graph.toml --format text --room auto

# Each example beside `run --until-dry`, but for those without a source, and those that starve.
# sources_in FILE: the names of its sources, one a line.
sources_in() {
  "$program" dot "$1" | sed -n 's/^  n[0-9]* \[label="\([A-Za-z0-9_]*\)\\nsource\\n.*/\1/p'
}
for graph in "$top"/examples/*.toml "$top"/examples/*/graph.toml; do
  name="${graph#"$top"/examples/}"
  if ! is_looked_at "stream examples/$name"; then continue; fi
  rm -rf "$room/fed" "$room/run"
  mkdir "$room/fed" "$room/run"
  while read -r source; do
    if ! cp "$(dirname "$graph")/$source.in" "$room/fed" 2> /dev/null; then seq 300 > "$room/fed/$source.in"; fi
  done < <(sources_in "$graph")
  if [[ -z "$(ls "$room/fed")" ]]; then continue; fi
  "$program" run "$graph" "$room/fed" --until-dry --room auto --out "$room/run" | sed 's/peak [0-9]*/peak/' > "$room/told"
  if [[ "$(head -n 1 "$room/told")" == "ending starved" ]]; then continue; fi
  rm -rf "$room/wanted_files"
  cp -r "$room/run" "$room/wanted_files"
  for segment in 1 2 3 17 auto; do
    options=(--segment "$segment")
    if [[ "$segment" == auto ]]; then options=(); fi
    for workers in 1 2 4 8; do
      case_name="stream examples/$name, segments: $segment, workers: $workers"
      rm -rf "$room/streamed"
      mkdir "$room/streamed"
      "$program" stream "$graph" "$room/fed" --out "$room/streamed" --workers "$workers" "${options[@]}" 2> "$room/err" \
        | sed 's/peak [0-9]*/peak/' > "$room/out"
      compare "$case_name" "${PIPESTATUS[0]}" "$room/told" /dev/null 0
      same_files "$case_name" "$room/streamed"
    done
  done
done

# More tokens than a token file may have, from a pipe to a pipe, and told of the way; the same by samples.
stream_copy text
if is_looked_at "stream: more than a million tokens"; then
  for workers in 1 2; do
    seq 1200000 | "$program" stream graph.toml --workers "$workers" 2> "$room/err" | cksum > "$room/out"
    status="${PIPESTATUS[1]}"
    sed -i 's/peak [0-9]*/peak/' "$room/err"
    seq 2 2 2400000 | cksum > "$room/told"
    cat > "$room/report" << 'REPORT'
ending dry
x written 1200000 taken 1200000 held 0 peak capacity 4096 closed
y written 1200000 taken 1200000 held 0 peak capacity 4096 open
REPORT
    compare "stream: more than a million tokens, $workers workers" "$status" "$room/told" "$room/report" 0
  done
fi
if is_looked_at "stream: a long one that is told of"; then
  seq 1000000 > tokens/src.in
  for workers in 1 2; do
    "$program" stream graph.toml tokens --workers "$workers" --progress 2>&1 > /dev/null \
      | tr '\r' '\n' | sed 's/^csdf: 2[01][0-9]* /csdf: some /' > "$room/out"
    printf '\ncsdf: 0 firings\ncsdf: some firings\ncsdf: 3000000 firings\n' > "$room/told"
    : > "$room/err"
    compare "stream: a long one that is told of, $workers workers" 0 "$room/told" /dev/null 0
  done
fi
seq 3 > tokens/src.in
printf '\rcsdf: 0 firings\rcsdf: 9 firings\n' > "$room/told"
"$program" stream graph.toml tokens --segment 1 --progress > /dev/null 2> "$room/out"
: > "$room/err"
compare "stream: one that is told of" "$?" "$room/told" /dev/null 0

# Sinks in another folder and in this one.
stream_copy files
mkdir other
run_case "stream: sinks in another folder" /dev/null stdout /dev/null 0 stream graph.toml tokens --segment 1 --room 1 --out other
same_files "stream: sinks in another folder: the sources' folder" tokens
rm -r "$room/wanted_files"
cp -r wanted "$room/wanted_files"
same_files "stream: sinks in another folder: their files" other
run_case "stream: sinks in this folder" /dev/null stdout /dev/null 0 stream graph.toml tokens --segment 1 --room 1 --out=
written_here "stream: sinks in this folder"

# ---- FIFOs. This shell holds both ends of each, so that opening one waits for nobody here.

# A writer that is slow: with segments of one period the sink has each token before the next one is written.
# lock_step NAME OPTION..: three tokens, one after another, through a stream between two FIFOs.
lock_step() {
  local name="$1" pid token="" told="" number
  shift
  if ! is_looked_at "$name"; then return; fi
  stream_copy text
  mkfifo tokens/src.in tokens/snk.out
  "$program" stream graph.toml tokens --room 1 "$@" > "$room/out" 2> "$room/err" &
  pid=$!
  exec 3<> tokens/src.in 4<> tokens/snk.out
  for number in 1 2 3; do
    echo "$number" >&3
    read -r -t 20 token <&4
    told+="$token "
  done
  exec 3>&-
  wait "$pid"
  compare "$name" "$?" "$room/report" /dev/null 0
  exec 4>&-
  expect "$name: what is taken" "$told" "2 4 6 "
}
cat > "$room/report" << 'REPORT'
ending dry
x written 3 taken 3 held 0 peak 1 capacity 1 closed
y written 3 taken 3 held 0 peak 1 capacity 1 open
REPORT
lock_step "stream: FIFOs in lock step" --segment 1
lock_step "stream: FIFOs in lock step, 2 workers" --segment 1 --workers 2

# A period at a time of two sources, in file order, whoever writes first.
if is_looked_at "stream: two FIFOs in turn"; then
  stream_copy files
  rm tokens/*
  mkfifo tokens/p.in tokens/q.in tokens/snk.out
  "$program" stream graph.toml tokens --room 1 --segment 1 > "$room/out" 2> "$room/err" &
  pid=$!
  exec 3<> tokens/p.in 4<> tokens/q.in 5<> tokens/snk.out
  told=""
  for number in 1 2 3; do
    if [[ "$number" == 2 ]]; then
      echo 20 >&4
      echo 10 >&3
    else
      echo 10 >&3
      echo 20 >&4
    fi
    read -r -t 20 token <&5
    told+="$token "
  done
  exec 3>&- 4>&-
  wait "$pid"
  expect "stream: two FIFOs in turn: its status" "$?" 0
  exec 5>&-
  expect "stream: two FIFOs in turn: what is taken" "$told" "30 30 30 "
  expect "stream: two FIFOs in turn: the plain file" "$(tr '\n' ' ' < tokens/tap.out)" "20 20 20 "
fi

# Writers that sleep between their lines; each opens its FIFO when it comes to it.
if is_looked_at "stream: slow writers"; then
  stream_copy files
  mkdir feeds
  mv tokens/*.in feeds
  mkfifo tokens/p.in tokens/q.in tokens/snk.out
  for source in p q; do
    timeout 30 bash -c "while read -r line; do echo \"\$line\"; sleep 0.1; done < feeds/$source.in > tokens/$source.in" &
  done
  timeout 30 sh -c "cat tokens/snk.out > taken" &
  run_case "stream: slow writers" /dev/null stdout /dev/null 0 stream graph.toml tokens --segment 1 --room 1
  wait
  cp taken "$room/out"
  : > "$room/err"
  compare "stream: slow writers: what is taken" 0 wanted/snk.out /dev/null 0
fi

# Two processes joined by a pipe are one graph.
stream_copy text
"$program" stream graph.toml --segment 1 < stdin 2> /dev/null | "$program" stream graph.toml --segment 2 > "$room/out" 2> "$room/err"
status="${PIPESTATUS[1]}"
printf '4\n-8\n12\n28\n0\n' > "$room/told"
sed -i 's/peak [0-9]*/peak/' "$room/err"
cat > "$room/report" << 'REPORT'
ending dry
x written 5 taken 5 held 0 peak capacity 4096 closed
y written 5 taken 5 held 0 peak capacity 4096 open
REPORT
compare "stream: two processes joined by a pipe" "$status" "$room/told" "$room/report" 0

# ---- plain files

# A sink's plain file is written beside its place, and put there at the end: the one that is there is not
# written to, and its permissions stay. A link is written to.
if is_looked_at "stream: a file is replaced"; then
  stream_copy text
  mkfifo tokens/src.in
  echo earlier > tokens/snk.out
  chmod 600 tokens/snk.out
  ln tokens/snk.out old
  "$program" stream graph.toml tokens --segment 1 > "$room/out" 2> "$room/err" &
  pid=$!
  exec 3<> tokens/src.in
  printf '1\n2\n3\n' >&3
  for _ in {1..200}; do
    if [[ -s tokens/snk.out.part ]]; then break; fi
    sleep 0.05
  done
  expect "stream: a file is replaced: while the stream goes on" "$(< tokens/snk.out)" earlier
  exec 3>&-
  wait "$pid"
  expect "stream: a file is replaced: its status" "$?" 0
  expect "stream: a file is replaced: the old one" "$(< old)" earlier
  expect "stream: a file is replaced: the new one" "$(tr '\n' ' ' < tokens/snk.out)" "2 4 6 "
  expect "stream: a file is replaced: its permissions" "$(stat -c %a tokens/snk.out)" 600
  expect "stream: a file is replaced: what stands beside it" "$(ls tokens)" $'snk.out\nsrc.in'
fi

if is_looked_at "stream: a link to a file"; then
  stream_copy graph_of_standard_input_on_files
  ln -s ../linked tokens/snk.out
  run_case "stream: a link to a file" stdin stdout /dev/null 0 stream - tokens --segment 1 --room 1
  if [[ -L tokens/snk.out ]] && cmp -s linked wanted/snk.out; then
    expect "stream: a link to a file" written written
  else
    expect "stream: a link to a file" "replaced or not written" written
  fi
fi

# A folder in the place of a file, and of a token file.
stream_copy files
mkdir tokens/tap.out "$room/wanted_files/tap.out"
echo "csdf: device: tap.out" > "$room/no_sink"
run_case "stream: a folder for a written file" /dev/null /dev/null "$room/no_sink" 3 stream graph.toml tokens
same_files "stream: a folder for a written file" tokens
rm -r tokens/tap.out tokens/q.in
mkdir tokens/q.in
echo "csdf: device: q.in" > "$room/no_feed"
run_case "stream: a folder for a token file" /dev/null /dev/null "$room/no_feed" 3 stream graph.toml tokens

# ---- faults on the way

# A line or a sample that is no token, in the third segment: what is no plain file has the tokens of the
# segments before, and plain files stay.
if is_looked_at "stream: a fault after a FIFO was written to"; then
  stream_copy files
  printf '1\n2\n3\n4\nfive\n' > tokens/q.in
  seq 10 10 60 > tokens/p.in
  mkfifo tokens/snk.out
  echo earlier > tokens/tap.out
  echo "csdf: tokens q: syntax at line 5" > "$room/told"
  timeout 30 sh -c "cat tokens/snk.out > taken" &
  run_case "stream: a fault after a FIFO was written to" /dev/null /dev/null "$room/told" 1 stream graph.toml tokens --segment 2
  wait
  expect "stream: a fault after a FIFO was written to: what it has" "$(tr '\n' ' ' < taken)" "11 22 33 44 "
  expect "stream: a fault after a FIFO was written to: the plain file" "$(< tokens/tap.out)" earlier
  expect "stream: a fault after a FIFO was written to: what stands beside it" "$(echo tokens/*)" \
    "tokens/p.in tokens/q.in tokens/snk.out tokens/tap.out"
fi

# A reader who goes.
stream_copy text
echo "csdf: device: standard output" > "$room/output_fails"
if is_looked_at "stream: a closed pipe"; then
  for workers in 1 2 8; do
    yes 7 | "$program" stream graph.toml --workers "$workers" 2> "$room/err" | head -c 9 > "$room/out"
    status="${PIPESTATUS[1]}"
    printf '14\n14\n14\n' > "$room/told"
    compare "stream: a closed pipe, $workers workers" "$status" "$room/told" "$room/output_fails" 3
  done
  yes abcd | tr -d '\n' | "$program" stream graph.toml --format s16be --segment 3 2> "$room/err" | head -c 0 > "$room/out"
  compare "stream: a pipe that is closed at once" "${PIPESTATUS[2]}" /dev/null "$room/output_fails" 3
  "$program" stream graph.toml < stdin 2> "$room/err" >&-
  status=$?
  : > "$room/out"
  compare "stream: standard output is closed" "$status" /dev/null "$room/output_fails" 3
fi
if is_looked_at "stream: a FIFO whose reader goes"; then
  yes 7 | head -n 1000000 > tokens/src.in
  mkfifo tokens/snk.out
  echo "csdf: device: snk.out" > "$room/no_sink"
  timeout 30 sh -c "head -c 9 tokens/snk.out > taken" &
  run_case "stream: a FIFO whose reader goes" /dev/null /dev/null "$room/no_sink" 3 stream graph.toml tokens
  wait
  expect "stream: a FIFO whose reader goes: what it has" "$(tr '\n' ' ' < taken)" "14 14 14 "
fi

# Devices that are full.
stream_copy text
"$program" stream graph.toml < stdin > /dev/full 2> "$room/err"
status=$?
: > "$room/out"
compare "stream: standard output is full" "$status" /dev/null "$room/output_fails" 3
stream_copy files
ln -s /dev/full tokens/tap.out
ln -s /dev/full "$room/wanted_files/tap.out"
echo earlier | tee tokens/snk.out > "$room/wanted_files/snk.out"
echo "csdf: device: tap.out" > "$room/no_sink"
run_case "stream: a sink's device is full" /dev/null /dev/null "$room/no_sink" 3 stream graph.toml tokens
expect "stream: a sink's device is full: the other file" "$(< tokens/snk.out)" earlier
expect "stream: a sink's device is full: what stands beside it" "$(ls tokens)" "$(ls "$room/wanted_files")"

# A disk that is full, where a small one may be made.
stream_copy text
mkdir small
seq 100000 > tokens/src.in
if is_looked_at "stream: a full disk" && unshare -rm mount -t tmpfs -o size=64k none small 2> /dev/null; then
  echo "csdf: device: snk.out" > "$room/no_sink"
  unshare -rm sh -c 'mount -t tmpfs -o size=64k none small && echo earlier > small/snk.out
    "$0" stream graph.toml tokens --out small
    status=$?
    ls small > beside && cp small/snk.out kept
    exit "$status"' "$program" > "$room/out" 2> "$room/err"
  compare "stream: a full disk" "$?" /dev/null "$room/no_sink" 3
  expect "stream: a full disk: the earlier file" "$(cat kept)" earlier
  expect "stream: a full disk: what stands beside it" "$(cat beside)" snk.out
fi

# Standard input that fails, and a report that finds no place.
stream_copy text
echo "csdf: device: standard input" > "$room/input_fails"
run_case "stream: standard input fails" / /dev/null "$room/input_fails" 3 stream graph.toml
seq 3 > tokens/src.in
"$program" stream graph.toml tokens > /dev/full 2> "$room/err"
status=$?
tr '\n' ' ' < tokens/snk.out > "$room/out"
printf '2 4 6 ' > "$room/told"
compare "stream: a report that finds no place" "$status" "$room/told" "$room/output_fails" 3

# ---- signals

# Ctrl-C ends it as it ends any filter: what is no plain file has the tokens of some segments, and a plain
# file stays as it was; what is left beside it, as tap.out.part, is of no use. The next stream writes it anew.
if is_looked_at "stream: Ctrl-C"; then
  stream_copy files
  rm tokens/*
  mkfifo tokens/p.in tokens/q.in tokens/snk.out
  echo earlier > tokens/tap.out
  env --default-signal=INT "$program" stream graph.toml tokens --segment 1 > "$room/out" 2> "$room/err" &
  pid=$!
  exec 3<> tokens/p.in 4<> tokens/q.in 5<> tokens/snk.out
  printf '1\n2\n3\n' >&3
  printf '10\n20\n30\n' >&4
  told=""
  for _ in 1 2 3; do
    read -r -t 20 token <&5
    told+="$token "
  done
  kill -INT "$pid"
  wait "$pid"
  compare "stream: Ctrl-C" "$?" /dev/null /dev/null 130
  exec 3>&- 4>&- 5>&-
  expect "stream: Ctrl-C: what the FIFO has" "$told" "11 22 33 "
  expect "stream: Ctrl-C: the plain file" "$(< tokens/tap.out)" earlier
  rm tokens/*.in tokens/snk.out
  cp "$here"/streams/files/tokens/*.in tokens
  cp "$here"/streams/files/tokens/*.in wanted
  rm -r "$room/wanted_files"
  cp -r wanted "$room/wanted_files"
  run_case "stream: after Ctrl-C" /dev/null stdout /dev/null 0 stream graph.toml tokens --segment 1 --room 1
  same_files "stream: after Ctrl-C" tokens
fi
if is_looked_at "stream: Ctrl-C on a pipe"; then
  stream_copy text
  mkfifo feed taken
  env --default-signal=INT "$program" stream graph.toml --segment 1 < feed > taken 2> "$room/err" &
  pid=$!
  exec 3<> feed 4<> taken
  printf '1\n2\n3\n' >&3
  told=""
  for _ in 1 2 3; do
    read -r -t 20 token <&4
    told+="$token "
  done
  kill -INT "$pid"
  wait "$pid"
  status=$?
  exec 3>&- 4>&-
  : > "$room/out"
  compare "stream: Ctrl-C on a pipe" "$status" /dev/null /dev/null 130
  expect "stream: Ctrl-C on a pipe: what it has" "$told" "2 4 6 "
fi

# ---- files in use

# refused_stream NAME FILE OUT WORD..: a stream in this folder with this standard output that is refused since
# FILE is in use, and changes nothing but OUT.
refused_stream() {
  local name="stream, in use: $1" file="$2" out="$3" status
  shift 3
  if ! is_looked_at "$name"; then return; fi
  echo "csdf: file in use: $file" > "$room/told"
  "$program" stream "$@" > "$out" 2> "$room/err" < /dev/null
  status=$?
  cp "$out" "$room/out"
  compare "$name" "$status" /dev/null "$room/told" 2
}

stream_copy text
seq 3 > tokens/src.in
refused_stream "standard output is a sink's file" snk.out tokens/snk.out graph.toml tokens
rm -f tokens/snk.out
ln -s /dev/stdout tokens/snk.out
refused_stream "standard output is a sink's file, by a link to the device" snk.out report graph.toml tokens
stream_copy several_sinks
seq 4 > tokens/src.in
ln -s first.out tokens/second.out
refused_stream "two sinks with one file" second.out report graph.toml tokens
expect "stream, in use: two sinks with one file: the files" "$(ls tokens)" $'second.out\nsrc.in'
rm tokens/src.in
refused_stream "before a missing token file" second.out report graph.toml tokens

# A pipe may be a sink's file and standard output, and a device that of two sinks.
stream_copy text
seq 3 > tokens/src.in
ln -s /dev/stdout tokens/snk.out
cat > "$room/told" << 'REPORT'
2
4
6
ending dry
x written 3 taken 3 held 0 peak 1 capacity 1 closed
y written 3 taken 3 held 0 peak 1 capacity 1 open
REPORT
"$program" stream graph.toml tokens --segment 1 --room 1 2> "$room/err" | cat > "$room/out"
compare "stream, not in use: standard output is a pipe and a sink's file" "${PIPESTATUS[0]}" "$room/told" /dev/null 0
stream_copy several_sinks
seq 4 > tokens/src.in
ln -s /dev/null tokens/first.out
ln -s /dev/null tokens/second.out
cat > "$room/told" << 'REPORT'
ending dry
x written 2 taken 2 held 0 peak 1 capacity 1 closed
y written 2 taken 2 held 0 peak 1 capacity 1 closed
REPORT
run_case "stream, not in use: two sinks to the device for nothing" /dev/null "$room/told" /dev/null 0 \
  stream graph.toml tokens --segment 1 --room 1
cd "$here" || exit 1

looked_over "samples of each format" samples.py
