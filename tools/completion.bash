# Completion for bash: `source tools/completion.bash` in a shell. Commands and options are those that `gib --help` and `gib COMMAND --help` print; a file is
# completed by its kind, which its place among the words of the command says.

# The endings of files that may stand in a place, by what the help calls it.
_gib_endings() {
  case $1 in
    SRC) if [ "$2" = local ]; then echo loc; elif [ "$2" = enough ]; then echo gib loc; else echo gib; fi ;;
    INP) if [ "$2" = enough ]; then echo gbp txt; else echo gbp; fi ;;
    TXT) echo txt ;;
    JRN) echo gbj ;;
    OUT) echo gbp ;;
    FILE) if [ "$2" = show ]; then echo gbp gbi; elif [ "$2" = where ]; then echo gib loc txt; else echo gbi; fi ;;
  esac
}

# What the help calls the place of the word that is completed: that of an option's value, or of the name that is due.
_gib_place() {
  local told=$1 word place=0 before="" due
  for word in "${COMP_WORDS[@]:2:COMP_CWORD-2}"; do
    [[ $word == -* || $told == *"  $before "[A-Z]* && $before == --* ]] || place=$((place + 1))
    before=$word
  done
  if [[ $before == --* && $told =~ "  $before "([A-Z]+) ]]; then
    echo "${BASH_REMATCH[1]}"
    return
  fi
  read -ra due <<< "$(sed -n '1s/\[--[^]]*\]//g; 1s/^gib [a-z]* //; 1s/[][]//g; 1p' <<< "$told")"
  echo "${due[place]}"
}

_gib() {
  local gib=${COMP_WORDS[0]} current=${COMP_WORDS[COMP_CWORD]} told place ending
  COMPREPLY=()
  if [ "$COMP_CWORD" -eq 1 ]; then
    told=$("$gib" --help 2> /dev/null | sed -n 's/^gib \([a-z]*\).*/\1/p')
    mapfile -t COMPREPLY < <(compgen -W "$told --help" -- "$current")
    return
  fi
  told=$("$gib" "${COMP_WORDS[1]}" --help 2> /dev/null)
  if [[ $current == -* ]]; then
    mapfile -t COMPREPLY < <(compgen -W "$(grep -oE '^  --[a-z0-9]+' <<< "$told") --help" -- "$current")
    return
  fi
  place=$(_gib_place "$told")
  compopt -o filenames 2> /dev/null
  for ending in $(_gib_endings "$place" "${COMP_WORDS[1]}"); do
    mapfile -t -O "${#COMPREPLY[@]}" COMPREPLY < <(compgen -f -X "!*.$ending" -- "$current")
  done
  # Folders, and where no kind of file is known all files.
  [ -z "$place" ] || [ -n "$ending" ] || return 0
  mapfile -t -O "${#COMPREPLY[@]}" COMPREPLY < <(if [ -n "$ending" ]; then compgen -d -- "$current"; else compgen -f -- "$current"; fi)
}
complete -F _gib gib ./gib
