# What the script `gib` does beside the program: help on one command, `eval`, `convert`, `enough`, `located`, `pretty`, `where`, `prove` and `which`,
# texts that are spread over lines, and outputs that are inputs. `gib` reads this file, and calls `desk` with the words before it runs the program.

# shellcheck disable=SC2154  # `gib` sets it
manual=$root/docs/LANGUAGE.md

# Ends where a file cannot be read.
is_file() {
  if ! [ -f "$1" ] || ! [ -r "$1" ]; then
    stop 6 "cannot read $1"
  fi
}

# The words were none that a command takes.
misused() {
  echo "gib: usage" >&2
  notes usage "${words[@]}" >&2
  help_on "$1" >&2
  exit 2
}

# -- help ----------------------------------------------------------------------------------------------------------------------

# Prints a command's row of the manual, and of each option its row. Answers whether there is such a command.
help_on() {
  awk -v command="$1" '
    function cells(row,    place, count) {
      gsub(/`/, "", row)
      count = split(row, cell, "|")
      for (place = 1; place <= count; place++) gsub(/^ +| +$/, "", cell[place])
    }
    /^### / { part = $2 }
    part == "Commands" && (index($0, "| `" command " ") == 1 || index($0, "| `" command "` ") == 1) {
      cells($0); usage = cell[2]
      print "gib " usage; print "    " cell[3]
    }
    part == "Options" && usage && /^\| `--/ {
      cells($0); split(cell[2], name, " ")
      if (index(usage, name[1])) {
        print "\n  " cell[2] (cell[3] ? ": " cell[3] : "") (cell[4] ? "; without it " cell[4] : ""); print "    " cell[5]
      }
    }
    END { exit !usage }' "$manual"
}

# -- texts of values -------------------------------------------------------------------------------------------------------------

# The tokens of a text on standard input, each on a line; with a word -b the place of each in front of it. Comments are blanks.
tokens() {
  LC_ALL=C awk '{ at = index($0, "--"); if (at) { rest = substr($0, at); gsub(/./, " ", rest); $0 = substr($0, 1, at - 1) rest }; print }' |
    LC_ALL=C grep -oE "$@" '[()]|[^()[:space:]]+'
}

# Makes one line of tokens: no blank behind "(" and before ")", and one between all others.
joined() {
  LC_ALL=C awk '{ printf "%s%s", (NR > 1 && last != "(" && $0 != ")" ? " " : ""), $0; last = $0 } END { print "" }'
}

# Whether a file is a text that is spread: of bytes that texts may have, and not on one line with single blanks.
is_spread() {
  [ -f "$1" ] && [ -r "$1" ] && ! LC_ALL=C grep -q '[^[:print:][:space:]]' "$1" &&
    { [ "$(wc -l < "$1")" -gt 1 ] ||
      LC_ALL=C grep -qE '^[[:space:]]|[[:space:]]$|[[:space:]]{2}|[^[:print:]]|--|\([[:space:]]|[[:space:]]\)|\)[^) ]|[^( ]\(' "$1"; }
}

# The place in a spread text of what stands at a place of its one line: both are files. At the end it is behind the last token.
place_in() {
  tokens -b < "$1" | LC_ALL=C awk -v place="$3" -v line="$2" '
    BEGIN { getline one < line; at = 0; end = 0 }
    {
      colon = index($0, ":"); start = substr($0, 1, colon - 1) + 0; token = substr($0, colon + 1)
      if (substr(one, at + 1, 1) == " ") { if (place == at) { print start; found = 1; exit }; at++ }
      if (place < at + length(token)) { print start + place - at; found = 1; exit }
      at += length(token); end = start + length(token)
    }
    END { if (!found) print end }'
}

# Runs the program on words in which a made file stands for a text that is spread; a place in the line that it refuses is one of that text.
run_on_line() {
  local line=$1 told status
  shift
  told=$("$program" "$@" 2>&1 >&3)
  status=$?
  if [[ $told =~ ^(gib: input: bad text at )([0-9]+)$ ]]; then
    told=${BASH_REMATCH[1]}$(place_in "$text_file" "$line" "${BASH_REMATCH[2]}")
  fi
  if [ -n "$told" ]; then
    printf '%s\n' "$told" >&2
    ! is_read || explain "$status" "$told" "$@" >&2
  fi
  return $status
} 3>&1

# `pack`, where its text is spread over lines: the program packs the one line that it makes.
pack_spread() {
  local room status words=("$@")
  room=$(mktemp -d) || exit 70
  text_file=${names[2]}
  tokens < "$text_file" | joined > "$room/line"
  words[places[2]]=$room/line
  run_on_line "$room/line" "${words[@]}"
  status=$?
  rm -rf "$room"
  exit $status
}

# Packs the text that words name, standard input where they name none, to the file `packed` in a folder.
pack_named() {
  local room=$1
  text_name=${names[2]:--} text_file=$room/given
  if [ "$text_name" = - ]; then
    cat > "$room/given"
  elif ! cat -- "$text_name" > "$room/given" 2> "$room/why"; then
    echo "gib: cannot read $text_name" >&2
    return 6
  fi
  if is_spread "$room/given"; then
    tokens < "$room/given" | joined > "$room/line"
  else
    cp "$room/given" "$room/line"
  fi
  run_on_line "$room/line" pack -- "${names[1]}" "$room/line" "$room/packed" > "$room/out"
}

# Runs the program that words name on a packed file.
run_packed() {
  names[2]=$1
  if [[ " ${options[*]} " = *" --stats "* ]]; then
    (measure)
  else
    run_program run "${options[@]}" -- "${names[1]}" "$1"
  fi
}

# `eval SRC [TXT] [OPTION ..]`: packs a text, runs the program on it and prints the result.
evaluate() {
  local room status
  [[ ${#names[@]} = [23] ]] || misused eval
  room=$(mktemp -d) || exit 70
  pack_named "$room" && run_packed "$room/packed"
  status=$?
  rm -rf "$room"
  exit $status
}

# `convert OLD FILE NEW OUT [--skips] [--v1]`: what a file of one program holds goes over to another program by its text, in which constructors
# have names and no tags.
convert() {
  local room status option shows=() packs=()
  [[ ${#names[@]} = 5 ]] || misused convert
  for option in "${options[@]}"; do
    case $option in
      --skips) shows+=("$option") ;;
      --v1) packs+=("$option") ;;
      *) misused convert ;;
    esac
  done
  room=$(mktemp -d) || exit 70
  run_program show "${shows[@]}" -- "${names[1]}" "${names[2]}" > "$room/text" &&
    text_file=$room/text text_name="the text of ${names[2]}" run_program pack "${packs[@]}" -- "${names[3]}" "$room/text" "${names[4]}"
  status=$?
  rm -rf "$room"
  exit $status
}

# `enough SRC [INP] [OPTION ..]`: prints options that suffice for a run on a packed file, or on a text. Python lets the program's core happen once, and
# the program itself tries what that finds.
enough() {
  local room status told workers=1 forks=4 skips="" packed=${names[2]:-}
  [[ ${#names[@]} = [23] ]] || misused enough
  set -- "${options[@]}"
  while [ $# -gt 0 ]; do
    case $1 in
      --workers=* | --fork=*) set -- "${1%%=*}" "${1#*=}" "${@:2}" && continue ;;
      --workers) workers=${2:-} && shift ;;
      --fork) forks=${2:-} && shift ;;
      --skips) skips=yes ;;
      *) misused enough ;;
    esac
    shift
  done
  [[ $workers =~ ^[1-9][0-9]?$ && $workers -le 64 && $forks =~ ^[0-9][0-9]?$ && $forks -le 64 ]] || misused enough
  command -v python3 > /dev/null || stop 70 "enough needs Python 3"
  room=$(mktemp -d) || exit 70
  if [ -f "$packed" ] && [ "$(head -c 4 "$packed" | tr -d '\0')" = GIBP ] || pack_named "$room"; then
    [ -z "${text_file:-}" ] || packed=$room/packed
    told=$(python3 "$root/tools/enough.py" "${names[1]}" "$packed" "$workers" "$forks" "$skips" "$program" 2>&1 >&3)
    status=$?
    [ -z "$told" ] || printf '%s\n' "$told" >&2
    [ $status -eq 0 ] || ! is_read || explain $status "$told" run "${names[1]}" "$packed" >&2
  else
    status=$?
  fi
  rm -rf "$room"
  exit $status
} 3>&1

# `run .. --stats`: runs it, and says what that took.
measure() {
  local word rest=()
  [[ ${#names[@]} = 3 ]] || misused run
  command -v python3 > /dev/null || stop 70 "--stats needs Python 3"
  for word in "${options[@]}"; do
    [ "$word" = --stats ] || rest+=("$word")
  done
  python3 "$root/tools/stats.py" "${names[1]}" "${names[2]}" "${rest[@]}" -- "$program"
  exit
}

# `test SRC [OPTION ..]`: runs a program on each of its texts that has a result beside it, and tells what differs. Where the program was translated,
# `beside` is the name in front of the texts.
test_program() {
  local text due front=${beside:-${names[1]%.gib}} passed=0 failed=0 room
  [[ ${#names[@]} = 2 && " ${options[*]} " != *" --image"* && " ${options[*]} " != *" --pack"* ]] || misused test
  is_file "${names[1]}"
  room=$(mktemp -d) || exit 70
  for text in "$front"*.txt; do
    due=${text%.txt}.out
    if ! [ -f "$due" ] || has_longer "$front" "$text"; then continue; fi
    (names=(eval "${names[1]}" "$text") GIB_EXPLAIN="" && evaluate) > "$room/made" 2>&1
    if diff "$due" "$room/made" > "$room/differs"; then
      passed=$((passed + 1))
    else
      failed=$((failed + 1))
      echo "$text: due (<) and printed (>):"
      cut -c 1-200 "$room/differs"
    fi
  done
  rm -rf "$room"
  echo "$passed passed, $failed failed"
  [ "$failed" -eq 0 ] && [ "$passed" -gt 0 ]
  exit
}

# Whether a text belongs to a program with a longer name than this one.
has_longer() {
  local other
  for other in "$1"?*.gib "$1"?*.hs; do
    [[ ! -f $other || $2 != "${other%.*}"* ]] || return 0
  done
  return 1
}

# The text with each constructor once in its line of offsets, where the program has one for each arm.
each_once() {
  awk '$1 == "offsets" && !done { done = 1; line = $1; for (i = 2; i <= NF; i++) if (!($i in had)) { had[$i]; line = line " " $i }; $0 = line } { print }'
}

# Puts the text of a source to descriptor 3, and says what the program says.
put_located() {
  local status
  { "$located_program" "$1" 2>&4; } 4>&1 > >(each_once 2> /dev/null >&3)
  status=$?
  wait $! || { echo "gib: cannot write" && return 7; }
  return $status
}

# `located SRC`: prints the LoCal text of the core of a source. A program of its own makes it.
locate() {
  local told status
  [[ ${#names[@]} = 2 && ${#options[@]} = 0 ]] || misused located
  told=$(put_located "${names[1]}")
  status=$?
  [ -z "$told" ] || printf '%s\n' "$told" >&2
  [ $status -eq 0 ] || ! is_read || explain $status "$told" check "${names[1]}" >&2
  exit $status
} 3>&1

# `pretty [--deep N] [TXT]`: lays a text out in lines.
pretty() {
  local deep=1000000 word text=-
  while [ $# -gt 0 ]; do
    word=$1
    shift
    case $word in
      --deep=*) deep=${word#*=} ;;
      --deep) deep=${1:-} && [ $# -gt 0 ] && shift ;;
      --) text=${1:--} ;;
      --*) misused pretty ;;
      *) text=$word ;;
    esac
  done
  [[ $deep =~ ^[0-9]{1,7}$ ]] || misused pretty
  if [ "$text" != - ]; then
    is_file "$text"
    exec < "$text"
  fi
  tokens | LC_ALL=C awk -v deep="$((10#$deep))" -f "$root/tools/pretty.awk"
  local status=$?
  [ $status -ne 1 ] || stop 8 "input: no text of a value"
  exit $status
}

# `where FILE PLACE`: the line and the column of a byte, all counted as editors do.
where() {
  [[ $# -eq 2 && $2 =~ ^[0-9]{1,12}$ ]] || misused where
  is_file "$1"
  [ "$((10#$2))" -le "$(wc -c < "$1")" ] || stop 8 "input: $1 has $(wc -c < "$1") bytes"
  # One more letter, so that the last line is never empty.
  { head -c "$2" < "$1" && printf x; } | LC_ALL=C awk -v file="$1" 'END { print file ":" NR ":" length($0) }'
  exit
}

# -- which program runs ----------------------------------------------------------------------------------------------------------

# `prove`: proves all of it, and builds both programs.
prove_all() {
  [[ ${#names[@]} = 1 && ${#options[@]} = 0 ]] || misused prove
  ! is_installed || stop 70 "the sources are not here: gib prove in a checkout of Gib proves a program"
  # shellcheck source=tools/build.bash
  . "$root/tools/build.bash"
  prove_crate gib
  prove_crate gib_located -- data/add_one.gib
  GIB_PROGRAM="" tell_which GIB_PROGRAM gib ""
  exit
}

# `which [located] [--path]`: says which program calls run.
say_which() {
  local only_path=""
  [ "${options[*]}" != --path ] || only_path=yes
  [[ ${#options[@]} -eq 0 || -n $only_path ]] || misused which
  case "${names[*]:1}" in
    "") tell_which GIB_PROGRAM gib "$only_path" ;;
    located) tell_which GIB_LOCATED gib_located "$only_path" ;;
    *) misused which ;;
  esac
  exit
}

# -- programs in Haskell ---------------------------------------------------------------------------------------------------------

# `from-haskell`, and all commands whose source is a Haskell file.
haskell() {
  [ -f "$root/tools/haskell/desk.bash" ] || stop 70 "the translator is not here: gib from-haskell in a checkout of Gib translates a program"
  # shellcheck source=tools/haskell/desk.bash
  . "$root/tools/haskell/desk.bash"
  in_haskell "$@"
}

# -- words -----------------------------------------------------------------------------------------------------------------------

# Takes words apart: `names` (the command first) and their `places` among the words, `options`, the files of `outputs` that options name, and `force`.
take_words() {
  local place=0 word last="" only_names=""
  names=() places=() options=() outputs=() force=""
  for word in "$@"; do
    if [ -n "$last" ]; then
      options+=("$word")
      case $last in --image | --pack) outputs+=("$word") ;; esac
      last=""
    elif [ -n "$only_names" ] || [[ $word != -* ]] || [ "$word" = - ]; then
      names+=("$word") places+=("$place")
    elif [ "$word" = -- ]; then
      only_names=yes
    elif [ "$word" = --force ]; then
      force=yes
    else
      options+=("$word")
      case $word in
        --image=* | --pack=*) outputs+=("${word#*=}") ;;
        --*=* | --skips | --v1 | --from | --path | --stats) ;;
        *) last=$word ;;
      esac
    fi
    place=$((place + 1))
  done
}

# Refuses an output that is one of the inputs.
spare_inputs() {
  local output input inputs=("${names[@]:1:2}")
  case ${names[0]} in
    pack | trace) outputs+=("${names[@]:3:1}") ;;
    convert) inputs+=("${names[@]:3:1}") outputs+=("${names[@]:4:1}") ;;
    replay) inputs+=("${names[@]:3:1}") ;;
  esac
  for output in "${outputs[@]}"; do
    for input in "${inputs[@]}"; do
      if [ -f "$output" ] && [ "$output" -ef "$input" ]; then
        stop 2 "$output is read and would be written: --force lets that be"
      fi
    done
  done
}

# Answers what the script answers itself, and then ends; returns where the program is to answer the words. These are in `words`, since
# --force is for the script alone.
desk() {
  local place
  words=("$@")
  take_words "$@"
  for place in "${options[@]}"; do
    if [ "$place" = --help ] && [ ${#names[@]} -gt 0 ]; then
      help_on "${names[0]}"
      exit
    fi
  done
  case ${1:-} in where | pretty) "$@" ;; esac
  case ${names[0]:-}:${names[1]:-} in from-haskell:* | *:*.hs) haskell "$@" ;; esac
  case ${names[0]:-} in
    eval)
      [ -n "$force" ] || spare_inputs
      ready && evaluate
      ;;
    convert)
      [ -n "$force" ] || spare_inputs
      ready && convert
      ;;
    enough) ready && enough ;;
    test) ready && test_program ;;
    located) ready_located && locate ;;
    prove) prove_all ;;
    which) say_which ;;
    run | pack | trace | replay)
      if [ -n "$force" ]; then
        words=()
        for place in "$@"; do
          [ "$place" = --force ] || words+=("$place")
        done
        take_words "${words[@]}"
      else
        spare_inputs
      fi
      if [ "${names[0]}" = run ] && [[ " ${options[*]} " = *" --stats "* ]]; then
        ready && measure
      fi
      if [ "${names[0]}" = pack ] && [ ${#names[@]} -eq 4 ] && is_spread "${names[2]}"; then
        ready && pack_spread "${words[@]}"
      fi
      ;;
  esac
}
