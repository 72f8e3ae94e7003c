# shellcheck shell=bash disable=SC2154
# The cases of the launcher, in the words of `run`, which reads this file: in a folder of its own,
# with stand-ins for `rt` and the kit, whose program prints its words and ends with status 7.

launched="$room/launched"
mkdir -p "$launched/crates/csdf/src" "$launched/crates/csdf/must-fail" \
  "$launched/with_rt" "$launched/without_rt" "$launched/kit/bin"
cp "$top/csdf" "$top/HANDLES" "$launched"
echo "csdf:" > "$launched/crates.txt"
echo "fn main() {}" > "$launched/crates/csdf/src/main.rt"
: > "$launched/crates/csdf/stdin"
for tool in bash cat chmod cp dirname env find flock install mkdir mktemp mv nice nproc readlink rm sed sha256sum sleep sort tail touch xargs; do
  ln -s "$(command -v "$tool")" "$launched/without_rt/$tool"
done
# stand_in TOOLS SYSTEM MEMORY DISK: for what tells the system, and the kilobytes that are free.
stand_in() {
  printf '#!/bin/sh\necho "%s"\n' "$2" > "$launched/$1/uname"
  printf '#!/bin/sh\necho "MemAvailable:    %s kB"\n' "$3" > "$launched/$1/grep"
  printf '#!/bin/sh\necho Filesystem\necho "disk 9 9 %s 9%% /"\n' "$4" > "$launched/$1/df"
  chmod +x "$launched/$1/uname" "$launched/$1/grep" "$launched/$1/df"
}
stand_in without_rt "Linux x86_64" 9000000 9000000
cat > "$launched/with_rt/rt" << 'EOF'
#!/usr/bin/env bash
if [[ "$1" == version ]]; then
  echo "rattle-kit-13 logic dac8208d650f15bf"
  exit
fi
if [[ "$1" == try ]]; then
  printf '%s\n' "${@:3}"
  printf '%s\n' "csdf: device: $PWD/../../of_here" "checked: ended status=5" "races: none" "run=ended status=5" >&2
  exit 5
fi
echo "${0%/with_rt/rt}/kit/START-HERE.md"
EOF
cat > "$launched/kit/bin/rattle" << 'EOF'
#!/usr/bin/env bash
kit="${0%/bin/rattle}"
if [[ -e src/bad.rt ]]; then exit 1; fi
if [[ -e src/slow.rt ]]; then
  echo "$$" > ../../slow
  exec sleep 60
fi
if [[ -e src/waits.rt ]]; then sleep 1; fi
words=" $* "
words="${words//"$kit"/KIT}"
to="${*: -2:1}"
if [[ "$to" == *.rlib ]]; then
  mkdir -p "$to"
  echo "of ${PWD##*/}:${words//"${PWD%/crates/*}"/TOP}" > "$to/made"
  exit
fi
if [[ -e edit ]]; then mv edit src/main.rt; fi
echo "$*" > "$to"
echo built >> builds
EOF
cat > "$launched/kit/bin/rattle-link" << 'EOF'
#!/usr/bin/env bash
while [[ "$1" != -o ]]; do shift; done
printf '#!/bin/sh\necho "$@"\nexit 7\n' > "$2"
chmod +x "$2"
EOF
chmod +x "$launched/kit/bin/rattle" "$launched/kit/bin/rattle-link"
chmod +x "$launched/with_rt/rt"

# Where the launcher keeps what is told on the way.
launch_in="$room"

# launch NAME WANTED_STATUS WANTED_BUILDS OUT ERR FOLDER [WORD..]: the launcher in place of the program,
# with the folder of tools FOLDER and these words, or `one two`. Of standard error the lines with a log's
# name are left out.
launch() {
  local name="$1" wanted_status="$2" wanted_builds="$3" out="$4" err="$5" tools="$6" status builds=0
  shift 6
  if [[ "$#" == 0 ]]; then
    set -- one two
  fi
  (cd "$launched" && TMPDIR="$launch_in" PATH="$launched/$tools:$launched/without_rt" ./csdf "$@") \
    > "$room/out" 2> "$room/told"
  status="$?"
  grep -v "csdf-build" "$room/told" > "$room/err"
  if [[ -f "$launched/crates/csdf/builds" ]]; then
    builds="$(wc -l < "$launched/crates/csdf/builds")"
  fi
  echo "builds $builds" >> "$room/out"
  { wanted "$out"; echo "builds $wanted_builds"; } > "$room/wanted_launch"
  compare "the launcher: $name" "$status" "$room/wanted_launch" "$err" "$wanted_status"
}

echo "one two" > "$room/words_told"
echo "csdf: meanwhile './csdf --unproved WORDS' in place of './csdf WORDS' answers in one to two minutes, each time" \
  > "$room/begun"
{ cat "$room/begun"; echo "csdf: built"; } > "$room/built"
cat > "$room/no_rt" << 'EOF'
csdf: it has to be built, and this is missing:
- the command rt of the Rattle kit rattle-kit-13f, or another with logic dac8208d650f15bf. The kit's folder bin has to be on PATH: export PATH="KIT/bin:$PATH"
Then call this again. A first build takes about 20 minutes on four cores.
EOF
mkdir "$launched/lacking"
stand_in lacking "Linux aarch64" 2900000 1500000
printf '#!/bin/sh\necho "rattle-kit-7 logic 0"\n' > "$launched/lacking/rt"
chmod +x "$launched/lacking/rt"
cat > "$room/lacking" << EOF
csdf: it has to be built, and this is missing:
- x86-64 Linux: this is Linux aarch64
- the Rattle kit rattle-kit-13f, or another with logic dac8208d650f15bf: the command rt on PATH says that it is 'rattle-kit-7 logic 0'
- memory: 2900 MB are free, and the build takes about 4000
- disk: 1500 MB are free where $launched is, and the build takes about 3000
Then call this again. A first build takes about 20 minutes on four cores.
EOF
main="$launched/crates/csdf/src/main.rt"
launch "no rt" 3 0 /dev/null "$room/no_rt" without_rt
launch "all that is missing" 3 0 /dev/null "$room/lacking" lacking
printf '%s\n' run "$launched/of_here" --workers 2 --room auto --out "$launched/there" /of/anywhere \
  "--out=$launched/here" > "$room/unproved_words"
cat > "$room/unproved" << 'EOF'
csdf: running unproved, by the kit's interpreter: each command takes one to two minutes
csdf: device: crates/csdf/../../of_here
EOF
launch "unproved" 5 0 "$room/unproved_words" "$room/unproved" with_rt \
  --unproved run of_here --workers 2 --room auto --out there /of/anywhere --out=here
printf '%s\n' run - "$launched/of_here" > "$room/unproved_words"
launch "unproved, of standard input" 5 0 "$room/unproved_words" "$room/unproved" with_rt --unproved run - of_here
mkdir -p "$launched/tests/cli"
cp -r "$here/cases" "$launched/tests/cli"
launch "unproved help" 0 0 "$here/cases/help_of_check/stdout" /dev/null without_rt --unproved help check
launch "unproved help of a command" 0 0 "$here/cases/help_of_run/stdout" /dev/null without_rt --unproved run --help
launch "unproved help of all" 0 0 "$here/cases/help/stdout" /dev/null without_rt --unproved --help
launch "unproved version" 0 0 "$here/cases/version/stdout" /dev/null without_rt --unproved --version
printf '%s\n' help one > "$room/unproved_words"
launch "unproved help of no command" 5 0 "$room/unproved_words" "$room/unproved" with_rt --unproved help one
cat > "$room/no_place" << EOF
csdf: running unproved, by the kit's interpreter: each command takes one to two minutes
csdf: no file can be made in $room/missing: name another folder by TMPDIR
EOF
launch_in="$room/missing"
launch "no folder for what is told" 3 0 /dev/null "$room/no_place" with_rt --unproved check one
launch_in="$room"
launch "first build" 7 1 "$room/words_told" "$room/built" with_rt
launch "nothing changed" 7 1 "$room/words_told" /dev/null with_rt
rm "$launched/crates/csdf/out/csdf.made"
launch "built, with no record" 7 1 "$room/words_told" /dev/null with_rt
launch "built, with a record once more" 7 1 "$room/words_told" /dev/null with_rt
launch "built, and no rt" 7 1 "$room/words_told" /dev/null without_rt
rm "$launched/crates/csdf/out/csdf.made"
mkdir "$launched/crates/csdf/out/csdf.made"
launch "built, where no record can be written" 7 1 "$room/words_told" /dev/null with_rt
rmdir "$launched/crates/csdf/out/csdf.made"
chmod a-w "$launched/crates/csdf/out"
launch "built, in a folder that is not to be written" 7 1 "$room/words_told" /dev/null without_rt
chmod u+w "$launched/crates/csdf/out"
launch "built, with no record, and no rt" 7 1 "$room/words_told" /dev/null without_rt
touch -d "1 hour" "$main"
launch "a source with another time" 7 1 "$room/words_told" /dev/null with_rt
launch "a source with the time of the last call" 7 1 "$room/words_told" /dev/null with_rt
echo "old edit" > "$launched/crates/csdf/must-fail/x.edit"
launch "no source changed" 7 1 "$room/words_told" /dev/null with_rt
echo "fn main() { }" > "$main"
touch -d "1970-01-02" "$main"
launch "an older source with other content" 7 2 "$room/words_told" "$room/built" with_rt
touch -d "1 hour" "$main"
rm "$launched/crates/csdf/out/csdf.made"
launch "a newer source, with no record" 7 3 "$room/words_told" "$room/built" with_rt
echo "#" >> "$launched/crates/csdf/out/csdf"
launch "another program" 7 4 "$room/words_told" "$room/built" with_rt
echo "fn main() { edited }" > "$launched/crates/csdf/edit"
echo "fn main() { }  " > "$main"
launch "a source that is edited while it is built" 7 5 "$room/words_told" "$room/built" with_rt
launch "the edit is built" 7 6 "$room/words_told" "$room/built" with_rt
echo > "$launched/crates/csdf/src/more.rt"
launch "a source more" 7 7 "$room/words_told" "$room/built" with_rt
mv "$launched/crates/csdf/src/more.rt" "$room/more.rt"
launch "a source that is gone" 7 8 "$room/words_told" "$room/built" with_rt
echo "fn main() { other }" > "$room/other.rt"
touch -r "$main" "$room/other.rt"
cp -p "$room/other.rt" "$main"
launch "a source in place of one of its time" 7 9 "$room/words_told" "$room/built" with_rt
echo > "$launched/crates/csdf/src/bad.rt"
launch "a build that fails" 3 9 /dev/null "$room/begun" with_rt
rm "$launched/crates/csdf/src/bad.rt"

# Where memory is free the libraries are made first, several side by side: here of four, one stands on
# another, and one is not below the program.
printf '%s\n' "high may_wait=2: low kit" "low:" "other: low" "csdf: high" > "$launched/crates.txt"
for each in high low other; do
  mkdir -p "$launched/crates/$each/src"
  echo "//! $each" > "$launched/crates/$each/src/lib.rt"
done
stand_in with_rt "Linux x86_64" 19000000 9000000
printf '#!/bin/sh\necho 4\n' > "$launched/with_rt/nproc"
chmod +x "$launched/with_rt/nproc"
launch "libraries" 7 10 "$room/words_told" "$room/built" with_rt
(cd "$launched/crates/csdf/out" && cat libraries/*/made && ls . libraries) > "$room/out"
: > "$room/err"
cat > "$room/wanted_launch" << 'EOF'
of high: build --crate-name high --extern std=KIT/rlibs/std.rlib --extern low=TOP/crates/csdf/out/libraries/low.rlib --extern kit=KIT/rlibs/kit.rlib -L dependency=KIT/rlibs -L dependency=TOP/crates/csdf/out/libraries --links high= --antt-project KIT/rattle/logic/antt-project.json --logic-built KIT/logic_built --statements --jobs 4 -o TOP/crates/csdf/out/libraries/high.rlib src/lib.rt 
of low: build --crate-name low --extern std=KIT/rlibs/std.rlib -L dependency=KIT/rlibs -L dependency=TOP/crates/csdf/out/libraries --links low= --antt-project KIT/rattle/logic/antt-project.json --logic-built KIT/logic_built --statements --jobs 4 -o TOP/crates/csdf/out/libraries/low.rlib src/lib.rt 
.:
csdf
csdf.made
held
libraries

libraries:
high.made
high.rlib
low.made
low.rlib
EOF
compare "the launcher: what libraries are made of" 0 "$room/wanted_launch" /dev/null 0
# An interrupt ends what is under way: the stand-in would take a minute.
echo > "$launched/crates/low/src/slow.rt"
(
  cd "$launched" || exit
  PATH="$launched/with_rt:$launched/without_rt" ./csdf one > "$room/out" 2> /dev/null &
  while [[ ! -e slow ]]; do sleep 0.1; done
  kill -TERM "$!"
  wait "$!"
)
status="$?"
ls "$launched/crates/csdf/out/libraries" >> "$room/out"
for _ in {1..50}; do
  if ! kill -0 "$(< "$launched/slow")" 2> /dev/null; then break; fi
  sleep 0.1
done
if kill -0 "$(< "$launched/slow")" 2> /dev/null; then echo "still at work" >> "$room/out"; fi
: > "$room/err"
printf '%s\n' high.rlib low.rlib > "$room/wanted_launch"
compare "the launcher: interrupted" "$status" "$room/wanted_launch" /dev/null 130
rm "$launched/crates/low/src/slow.rt" "$launched/slow"
echo "//! low, edited" > "$launched/crates/low/src/lib.rt"
launch "a library is edited" 7 11 "$room/words_told" "$room/built" with_rt
echo > "$launched/crates/low/src/bad.rt"
launch "a library that fails" 3 11 /dev/null "$room/begun" with_rt
rm "$launched/crates/low/src/bad.rt"
launch "a library that is mended" 7 11 "$room/words_told" /dev/null with_rt
# Two calls at once: one waits for the other, and takes what it made.
echo > "$launched/crates/low/src/waits.rt"
for each in one two; do
  (cd "$launched" && PATH="$launched/with_rt:$launched/without_rt" ./csdf "$each") \
    > "$room/$each.at_once" 2> /dev/null &
done
wait
{ cat "$room/one.at_once" "$room/two.at_once"; wc -l < "$launched/crates/csdf/builds"; } > "$room/out"
: > "$room/err"
printf '%s\n' one two 12 > "$room/wanted_launch"
compare "the launcher: two calls at once" 0 "$room/wanted_launch" /dev/null 0
mkdir -p "$launched/completions" "$launched/docs"
cp "$top"/completions/* "$launched/completions/"
cp "$top/docs/csdf.1" "$top/docs/GUIDE.md" "$top/docs/FORMATS.md" "$launched/docs/"
echo "csdf: installed under $room/prefix" > "$room/installed"
launch "install" 0 12 /dev/null "$room/installed" with_rt --install "$room/prefix"
echo "csdf: usage: ./csdf --install PREFIX" > "$room/usage"
launch "install, and not where" 2 12 /dev/null "$room/usage" with_rt --install
(cd "$room/prefix" && find . -type f | LC_ALL=C sort) > "$room/out"
"$room/prefix/bin/csdf" three >> "$room/out"
status="$?"
: > "$room/err"
cat > "$room/wanted_launch" << 'EOF'
./bin/csdf
./share/bash-completion/completions/csdf
./share/doc/csdf/FORMATS.md
./share/doc/csdf/GUIDE.md
./share/fish/vendor_completions.d/csdf.fish
./share/man/man1/csdf.1
./share/zsh/site-functions/_csdf
three
EOF
compare "the launcher: what is installed" "$status" "$room/wanted_launch" /dev/null 7

# on_terminal NAME OUT ERR WORD..: the launcher with a terminal as standard input and standard error.
on_terminal() {
  local name="$1" out="$2" err="$3"
  shift 3
  (cd "$launched" && python3 - "$@" > "$room/out" 2> "$room/err") << 'EOF'
import os, pty, subprocess, sys
ours, theirs = pty.openpty()
ran = subprocess.run(["./csdf", *sys.argv[1:]], stdin=theirs, stderr=theirs, stdout=subprocess.PIPE)
os.close(theirs)
sys.stdout.write(ran.stdout.decode())
try:
    sys.stderr.write(os.read(ours, 4096).decode().replace("\r\n", "\n"))
except OSError:
    pass
sys.exit(ran.returncode)
EOF
  compare "the launcher: $name" "$?" "$out" "$err" 7
}
echo > "$room/no_words"
echo "csdf: reading a graph file with a script from standard input; ./csdf --help lists the commands" \
  > "$room/waits"
on_terminal "alone on a terminal" "$room/no_words" "$room/waits"
on_terminal "words on a terminal" "$room/words_told" /dev/null one two
