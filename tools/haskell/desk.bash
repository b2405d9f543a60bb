# What the script `gib` does with programs in Haskell: it translates them, and tells faults of the Gib text at their places in the Haskell file.
# `tools/desk.bash` reads this file where it is needed, and calls `in_haskell`.

# shellcheck disable=SC2154  # `gib` and tools/desk.bash set root, names, places and options
translator=$root/tools/haskell/from-haskell

# `from-haskell FILE.hs [-o OUT.gib]`, or another command whose source is a Haskell file, with these words.
in_haskell() {
  local status
  translation_room=$(mktemp -d) || exit 70
  if [ "${names[0]}" = from-haskell ]; then
    translate_alone
  else
    call_translated "$@"
  fi
  status=$?
  rm -rf "$translation_room"
  exit $status
}

# Prints the Gib text of a file, or writes it to the file behind -o.
translate_alone() {
  local out=""
  case ${#names[@]}:${#options[@]}:${options[0]:-} in
    2:0:) ;;
    2:2:-o) out=${options[1]} ;;
    *) misused from-haskell ;;
  esac
  "$translator" translate "${names[1]}" "$translation_room/made.gib" "$translation_room/places" || return
  if [ -z "$out" ]; then
    cat "$translation_room/made.gib"
  elif [ "$out" -ef "${names[1]}" ]; then
    stop 2 "$out is read and would be written: take another name"
  elif ! cp "$translation_room/made.gib" "$out" 2> /dev/null; then
    stop 7 "cannot write $out"
  fi
}

# Calls the script again, with translations in the place of sources: the first file of a command, and the third of `convert`.
call_translated() {
  local words=("$@") place told status input=${names[2]:-}
  sources=() made=()
  [ -n "$force" ] || spare_inputs
  [ "${names[0]}" != local ] || stop 2 "local takes a LoCal text, which gib located ${names[1]} prints"
  for place in 1 3; do
    if [[ ${names[place]:-} = *.hs ]] && { [ $place -eq 1 ] || [ "${names[0]}" = convert ]; }; then
      mkdir "$translation_room/$place"
      sources+=("${names[place]}") made+=("$translation_room/$place/$(basename "${names[place]}" .hs).gib")
      "$translator" translate "${sources[-1]}" "${made[-1]}" "${made[-1]}.places" || return
      words[places[place]]=${made[-1]}
    fi
  done
  if [ "${names[0]}" = test ]; then
    beside=${names[1]%.hs} names[1]=${made[0]}
    (ready && test_program)
    return
  fi
  # What comes on standard input may be needed once more.
  if [ "${names[0]}" = eval ] && [ "${input:--}" = - ]; then
    input=$translation_room/given
    cat > "$input"
    if [ -n "${names[2]:-}" ]; then words[places[2]]=$input; else words+=("$input"); fi
  fi
  told=$(GIB_EXPLAIN=$(is_read && echo 1) "$root/gib" "${words[@]}" 2>&1 >&3)
  status=$?
  [ -z "$told" ] || retold "$told" "$input" >&2
  return $status
} 3>&1

# What was said of Gib texts, as of the Haskell files.
retold() {
  local told=$1 input=$2 first rest place number
  first=${told%%$'\n'*} rest=${told#"${told%%$'\n'*}"}
  if [[ $first =~ ^(gib: source: .*)\ at\ ([0-9]+)$ ]]; then
    # What is explained there is about the Gib text.
    first="${BASH_REMATCH[1]} at ${sources[0]}:$(origin_of "${BASH_REMATCH[2]}")"
    [[ $first != *"over a limit"* ]] || first+=": a function has at most 200 variables, with all names of its arms, and 2,000 expressions; make two of it"
    [[ $first != *"nested too deep"* ]] || first+=": in the Gib text expressions stand in one another on at most 200 levels, of which an element of a list takes two"
    echo "$first"
    return
  elif [[ $first = "gib: depth" || $first = "gib: division by zero" ]]; then
    place=$(stopped_at "$input" "$first")
    first+=${place:+ at ${sources[0]}:$place}
  fi
  told=$first$rest
  for number in "${!made[@]}"; do
    told=${told//"${made[number]}"/"${sources[number]}"}
  done
  printf '%s\n' "${told//"$translation_room/given"/-}"
}

# The line and the column in the source that the least part round a place of the Gib text comes from.
origin_of() {
  awk -v place="$1" '
    $1 <= place && place < $1 + $2 && (!least || $2 <= least) { least = $2; found = $3 ":" $4 }
    $1 <= place && !least { before = $3 ":" $4 }
    END { print (found ? found : before ? before : "1:1") }' "${made[0]}.places"
}

# Where a run stops, as the line and the column in the source: it happens once more, in the translator.
stopped_at() {
  local input=$1 line=$2 depth=10000 word last="" found
  for word in "${options[@]}"; do
    case $last$word in
      --depth=*) depth=${word#*=} ;;
      --depth*) [ -z "$last" ] || depth=$word ;;
    esac
    if [ "$word" = --depth ]; then last=$word; else last=""; fi
  done
  if [ "${names[0]}" = eval ]; then
    found=$(timeout 60 "$translator" fault "${sources[0]}" "$depth" < "$input" 2> /dev/null)
  else
    found=$("$root/gib" show "${made[0]}" "$input" 2> /dev/null | timeout 60 "$translator" fault "${sources[0]}" "$depth" 2> /dev/null)
  fi
  case $line:$found in
    *depth:depth\ * | *zero:division\ *) echo "${found#* }" ;;
  esac
}
