# Completion of csdf for bash: `source completions/csdf.bash`, or put it where bash-completion looks.
# Made by completions/make.

# _csdf_place: how many words stand before the one that is completed and are no options and no values of such.
_csdf_place() {
  local at place=0
  for ((at = 2; at < COMP_CWORD; at++)); do
    case "${COMP_WORDS[at]}" in
      --workers | --periods | --firings | --out | --journal | --room | --segment | --format)
        if [[ "${COMP_WORDS[at + 1]:-}" == "=" ]]; then at=$((at + 1)); fi
        at=$((at + 1))
        ;;
      -?*) ;;
      *) place=$((place + 1)) ;;
    esac
  done
  echo "$place"
}

_csdf() {
  local word="${COMP_WORDS[COMP_CWORD]}" last="${COMP_WORDS[COMP_CWORD - 1]}" command="${COMP_WORDS[1]:-}" before=""
  COMPREPLY=()
  if [[ "$COMP_CWORD" == 1 ]]; then
    mapfile -t COMPREPLY < <(compgen -W "run stream moves check repetition schedule capacity dot explain help --help --version" -- "$word")
    return
  fi
  # --room=auto is three words, or one where COMP_WORDBREAKS has no =.
  if [[ "$word" == "=" ]]; then
    word=""
  elif [[ "$last" == "=" ]]; then
    last="${COMP_WORDS[COMP_CWORD - 2]}"
  elif [[ "$word" == --*=* ]]; then
    last="${word%%=*}"
    before="$last="
    word="${word#*=}"
  fi
  case "$command $last" in
    "run --workers") mapfile -t COMPREPLY < <(compgen -W "1 2 3 4 5 6 7 8 auto" -- "$word") ;;
    "run --periods") ;;
    "run --firings") ;;
    "run --out") mapfile -t COMPREPLY < <(compgen -d -- "$word") ;;
    "run --journal") mapfile -t COMPREPLY < <(compgen -f -- "$word") ;;
    "run --room") mapfile -t COMPREPLY < <(compgen -W "auto" -- "$word") ;;
    "stream --workers") mapfile -t COMPREPLY < <(compgen -W "1 2 3 4 5 6 7 8 auto" -- "$word") ;;
    "stream --room") mapfile -t COMPREPLY < <(compgen -W "auto" -- "$word") ;;
    "stream --segment") ;;
    "stream --periods") ;;
    "stream --out") mapfile -t COMPREPLY < <(compgen -d -- "$word") ;;
    "stream --format") mapfile -t COMPREPLY < <(compgen -W "text u8 s8 s16le s16be s32le s32be" -- "$word") ;;
    "schedule --room") mapfile -t COMPREPLY < <(compgen -W "auto" -- "$word") ;;
    "capacity --room") mapfile -t COMPREPLY < <(compgen -W "auto" -- "$word") ;;
    "dot --room") mapfile -t COMPREPLY < <(compgen -W "auto" -- "$word") ;;
    "help help") mapfile -t COMPREPLY < <(compgen -W "run stream moves check repetition schedule capacity dot explain" -- "$word") ;;
    help\ *) ;;
    *)
      if [[ "$word" != -* ]]; then
        case "$command $(_csdf_place)" in
          "run 0" | "stream 0" | "moves 0" | "check 0" | "repetition 0" | "schedule 0" | "capacity 0" | "dot 0" | "explain 0") mapfile -t COMPREPLY < <(compgen -f -- "$word") ;;
          "run 1" | "stream 1" | "explain 1") mapfile -t COMPREPLY < <(compgen -d -- "$word") ;;
        esac
      elif [[ "$word" == - && "$COMP_CWORD" == 2 ]]; then
        COMPREPLY=(-)
      else
        case "$command" in
          run) mapfile -t COMPREPLY < <(compgen -W "--workers --periods --until-dry --firings --out --journal --progress --room --json --help" -- "$word") ;;
          stream) mapfile -t COMPREPLY < <(compgen -W "--workers --room --segment --periods --out --format --progress --json --help" -- "$word") ;;
          moves) mapfile -t COMPREPLY < <(compgen -W "--help" -- "$word") ;;
          check) mapfile -t COMPREPLY < <(compgen -W "--json --help" -- "$word") ;;
          repetition) mapfile -t COMPREPLY < <(compgen -W "--json --help" -- "$word") ;;
          schedule) mapfile -t COMPREPLY < <(compgen -W "--room --json --help" -- "$word") ;;
          capacity) mapfile -t COMPREPLY < <(compgen -W "--room --json --help" -- "$word") ;;
          dot) mapfile -t COMPREPLY < <(compgen -W "--room --help" -- "$word") ;;
          explain) mapfile -t COMPREPLY < <(compgen -W "--help" -- "$word") ;;
        esac
      fi
      ;;
  esac
  COMPREPLY=("${COMPREPLY[@]/#/$before}")
}

complete -o filenames -F _csdf csdf
