# Which program runs. One is taken only where the record beside it, PROGRAM.built, has the sum of its bytes and that of the text that it was built of,
# and both are today's: no file is taken for its name or its date. `gib`, `.ci/run`, `tools/quick` and `tools/install` read this file; `root` is the
# folder of the checkout, or of what was installed. How a program comes about is in `build.bash`.
#
# A record is written last, in one piece, and has a line for each of these words:
#   kind           proved, unproved, or handed-on, which only `tools/install` writes
#   program, text  sums of the program's bytes and of its text; of one that was compiled without proof that of the code alone
#   folder         where it was built: a proved program is one whose build this very checkout saw end
#   commit, kit    for people
declare -A record

# What is proved of a crate stands where rt builds it; what is compiled without proof apart, since `rt ci` clears that place.
proved_path() { echo "$root/crates/$1/out/$1"; }
twin_path() { echo "$root/out/$1"; }
handed_path() { echo "$root/handed/$1"; }

# Ends with a line on standard error.
stop() {
  local status=$1
  shift
  echo "gib: $*" >&2
  exit "$status"
}

# Ends where there is no toolchain.
need_rt() {
  command -v rt > /dev/null || stop 70 "rt, the toolchain's command, is not on the path: README.md, \"Install and run\", says where to get it"
}

# -- texts -----------------------------------------------------------------------------------------------------------------------

# A crate and those that it stands on.
crates() {
  awk -F: -v want="$1" '
    !/^#/ { split($1, head, " "); below[head[1]] = $2 }
    END {
      due[want]; queue[n = 1] = want
      for (i = 1; i <= n; i++) {
        count = split(below[queue[i]], names, " ")
        for (k = 1; k <= count; k++) if (names[k] in below && !(names[k] in due)) { due[names[k]]; queue[++n] = names[k] }
        print queue[i]
      }
    }' "${2:-$root}/crates.txt"
}

# The sum of the text of a crate's program in a folder: names and bytes of the sources of its crates, crates.txt and HANDLES. With the word code it is
# that of what is compiled, which specs and proofs are not.
sum_text() (
  set -o pipefail
  cd "$1" || exit
  places=(crates.txt)
  [ ! -f HANDLES ] || places+=(HANDLES)
  for name in $(crates "$2" .); do
    for place in "crates/$name/src" "crates/$name/specs" "crates/$name/proofs"; do
      [ ! -d "$place" ] || [[ ${3:-} = code && $place != */src ]] || places+=("$place")
    done
  done
  sum=$(find "${places[@]}" -type f \( -name '*.rt' -o -name '*.antt' -o -name crates.txt -o -name HANDLES \) -print0 |
    LC_ALL=C sort -z | xargs -0 sha256sum | sha256sum) && echo "${sum%% *}"
)

# -- records ---------------------------------------------------------------------------------------------------------------------

# Reads a program's record into `record`.
read_record() {
  local word rest
  record=()
  while read -r word rest; do
    [ -z "$word" ] || record["$word"]=$rest
  done 2> /dev/null < "$1.built"
}

# Whether a program has a record of this kind, which is read, and is the one that it tells of.
is_recorded() {
  local sum
  [ -x "$1" ] && read_record "$1" && [ "${record[kind]:-}" = "$2" ] && sum=$(sha256sum < "$1") && [ "${sum%% *}" = "${record[program]:-}" ]
}

# Whether a crate's program of `text` was proved here, and whether there is one of `code` that was compiled without proof.
is_proved() {
  is_recorded "$(proved_path "$1")" proved && [ "${record[text]:-}" = "$text" ] && [ "${record[folder]:-}" = "$root" ]
}
is_compiled() {
  is_recorded "$(twin_path "$1")" unproved && [ "${record[text]:-}" = "$code" ]
}

# Lists what was found of a crate's program the last time, and then all that it was found by, with size, place on the disk, and the time of the last
# change of any kind, which nobody can set: the sources of its crates, also folders that are not there yet, the programs, and their records.
listed() {
  local name places=(crates.txt HANDLES "crates/$1/out/$1" "crates/$1/out/$1.built" "out/$1" "out/$1.built")
  for name in $3; do
    places+=("crates/$name/src" "crates/$name/specs" "crates/$name/proofs")
  done
  printf '%s %s\n%s\n' "$2" "$3" "$root"
  cd "$root" && find "${places[@]}" -type f -printf '%p %s %C@ %i\n' 2> /dev/null
}

# Sets `text` to the sum of a crate's text, and `found` to what there is of it: proved, unproved or nothing. To read all of it would take longer than
# most calls do: where the list is the one that was noted, so is what was found.
find_program() {
  local crate=$1 noted=$root/out/$1.noted names code
  if read -r found text names 2> /dev/null < "$noted" && listed "$crate" "$found $text" "$names" | cmp -s - "$noted"; then
    return
  fi
  names=$(crates "$crate" "$root" | tr '\n' ' ')
  # What changes while it is read is seen by the next call.
  { mkdir -p "$root/out" && listed "$crate" "" "${names% }" > "$noted.$$"; } 2> /dev/null
  text=$(sum_text "$root" "$crate") && code=$(sum_text "$root" "$crate" code) || stop 70 "the sources of $crate cannot be read"
  if is_proved "$crate"; then found=proved; elif is_compiled "$crate"; then found=unproved; else found=nothing; fi
  { sed -i "1s/^/$found $text/" "$noted.$$" && mv -f "$noted.$$" "$noted"; } 2> /dev/null || rm -f "$noted.$$"
}

# The commit that stands here.
commit() {
  local commit
  if ! [ -e "$root/.git" ] || ! commit=$(git -C "$root" rev-parse --short=12 HEAD 2> /dev/null); then
    echo "none"
    return
  fi
  [ -z "$(git -C "$root" status --porcelain -- crates crates.txt HANDLES 2> /dev/null)" ] || commit+=", edited"
  echo "$commit"
}

# Writes the record of a program that has just been built, by its kind and the sum of its text.
write_record() {
  local program=$1 kind=$2 text=$3 sum
  sum=$(sha256sum < "$program") || return
  {
    printf '%s\n' "kind $kind" "program ${sum%% *}" "text $text" "folder $root" "commit $(commit)" \
      "kit $(rt version 2> /dev/null | head -n 1)" > "$program.built.$$" && mv -f "$program.built.$$" "$program.built"
  } 2> /dev/null || { rm -f "$program.built.$$"; return 1; }
}

# Writes the record of a proved program whose build has ended, where its sources are those that it began with.
note_proved() {
  local crate=$1 begun_with=$2 text
  text=$(sum_text "$root" "$crate")
  if [ "$text" != "$begun_with" ]; then
    echo "gib: sources of $crate were changed while it was proved, so what was built is not taken" >&2
    return 70
  fi
  write_record "$(proved_path "$crate")" proved "$text" || {
    echo "gib: cannot write beside $(proved_path "$crate"), so what was built is not taken" >&2
    return 70
  }
}

# -- choice ----------------------------------------------------------------------------------------------------------------------

# Whether this is no checkout, but what `tools/install` put somewhere.
is_installed() { [ -d "$root/handed" ]; }

# Sets a variable to the path of the program that a call runs: the one that another variable names, which is never built, or that of a crate, which is
# built without proof where it is due. Further words are some on which it ends with 0.
choose() {
  local -n chosen=$1
  local variable=$2 crate=$3
  shift 3
  if [ -n "${!variable:-}" ]; then
    [ "${GIB_PROVED:-}" != 1 ] || stop 70 "$variable names a program of which nothing is known, and GIB_PROVED asks for a proved one"
    chosen=${!variable}
    return
  fi
  if is_installed; then
    [ "${GIB_PROVED:-}" != 1 ] || stop 70 "this program was handed on: gib prove in a checkout of Gib proves one"
    chosen=$(handed_path "$crate")
    is_recorded "$chosen" handed-on || stop 70 "$chosen is not what was installed"
    return
  fi
  find_program "$crate"
  if [ "$found" = proved ]; then
    chosen=$root/crates/$crate/out/$crate
    return
  fi
  [ "${GIB_PROVED:-}" != 1 ] || stop 70 "there is no proved program of this text: gib prove makes it"
  if [ "$found" != unproved ]; then
    # shellcheck source=build.bash
    . "$root/tools/build.bash"
    compile "$crate" "$@"
  fi
  chosen=$root/out/$crate
  [ ! -t 2 ] || echo "gib: not proved (gib prove)" >&2
}

# What is said of a program by its record, which was read.
told() { echo "$1: $2 (commit ${record[commit]:-none}; ${record[kit]:-no kit})"; }

# Prints the path of the program that calls run, and in front of it what that is; the path alone where that is asked for, and nothing where there is none.
tell_which() {
  local variable=$1 crate=$2 only_path=$3 program="" said
  if [ -n "${!variable:-}" ]; then
    program=${!variable} said="named by $variable: ${!variable}"
  elif is_installed; then
    program=$(handed_path "$crate")
    is_recorded "$program" handed-on || stop 70 "$program is not what was installed"
    # Whoever handed it on says that it was proved; here nobody knows.
    if [ "${record[was]:-}" = proved ]; then said=$(told "handed on" "$program"); else said=$(told "handed on, not proved" "$program"); fi
  else
    find_program "$crate"
    case $found in
      proved) program=$(proved_path "$crate") && read_record "$program" && said=$(told proved "$program") ;;
      unproved) program=$(twin_path "$crate") && read_record "$program" && said=$(told "not proved" "$program") ;;
      *) said="none of this text yet: the next call compiles it without proof" ;;
    esac
  fi
  [ -z "$only_path" ] || said=$program
  [ -z "$said" ] || echo "$said"
}
