# How programs come about: proved by rt, or compiled without proof by `tools/quick`. It is read behind `built.bash`, where a build is due.

# Holds a lock of the checkout until the script ends, or `unlock`: another call that builds the same is waited for.
lock() {
  local file=$root/out/$1.lock
  mkdir -p "$root/out" 2> /dev/null
  { exec 9>> "$file"; } 2> /dev/null || stop 70 "$root/out cannot be written, so nothing can be built there"
  command -v flock > /dev/null || return 0
  flock -n 9 || { echo "gib: another call is building ${1%.prove}: waiting for it" >&2 && flock 9; }
}
unlock() { exec 9>&-; }

# Runs a builder that ends, with all that it began, where this script is ended: in a process group of its own. What dies by INT, a shell does not tell.
attended() {
  local child status
  set -m
  "$@" 9>&- < /dev/null &
  child=$!
  set +m
  trap 'trap "" INT TERM HUP; kill -INT -- "-$child"; kill -TERM -- "-$child"; wait "$child"; stop 70 "the build was ended"' INT TERM HUP
  wait "$child"
  status=$?
  trap - INT TERM HUP
  return $status
}

# The minutes of a processor that it took once to prove a crate and all below it.
minutes_of() {
  crates "$1" | awk 'NR == FNR { if (!/^#/) cost[$1] = $2; next } { sum += cost[$1] } END { print int(sum / 60 + 0.5) }' "$root/tools/seconds" -
}

# Compiles a crate's program without proof, unless another call has just done so; further words are some on which it ends with 0.
compile() {
  local crate=$1
  shift
  need_rt
  lock "$crate"
  find_program "$crate"
  if [ "$found" != unproved ]; then
    echo "gib: compiling $crate without proof first, which takes some minutes; gib prove proves it, some $(minutes_of "$crate") minutes of one processor" >&2
    attended "$root/tools/quick" "$crate" "$(twin_path "$crate")" "$@" || exit 70
    find_program "$crate"
    [ "$found" = unproved ] || stop 70 "sources of $crate were changed while it was compiled: call again"
    echo "gib: built without proof; it stops where one of its own checks fails" >&2
  fi
  unlock
}

# Tells of what rt prints, line by line, how far it is with a program's crates, and how long it has to go: by the seconds that each took once, and
# how long those took that were proved now. What stands below a crate is ready where that one is.
progress() {
  local program_crate=$1 line name what crate to_go count=0 left=0 spent=0 begun=$SECONDS
  local -A seen=() cost=()
  while read -r name what; do [ "$name" = "#" ] || cost[$name]=$what; done < "$root/tools/seconds"
  for crate in $(crates "$program_crate"); do
    count=$((count + 1)) left=$((left + ${cost[$crate]:-0}))
  done
  while IFS= read -r line; do
    if [[ $line =~ ^so\ far:\ ([1-9][0-9]*\ of\ [0-9]+)\ functions ]]; then
      echo "gib:   ${BASH_REMATCH[1]} functions of the crate in work are checked"
      continue
    elif [[ $line =~ ^crate\ (gib[a-z_]*):\  ]]; then
      name=${BASH_REMATCH[1]} what="is proved"
    elif [[ $line =~ ^rt:\ (gib[a-z_]*):\ begins\  ]]; then
      name=${BASH_REMATCH[1]} what="begins with what an earlier check kept"
    else
      continue
    fi
    [ "${seen[$name]:-}" != "$what" ] || continue
    seen[$name]=$what to_go=""
    if [ "$what" = "is proved" ]; then
      spent=$((spent + ${cost[$name]:-0}))
      for crate in $(crates "$name"); do
        left=$((left - ${cost[$crate]:-0})) cost[$crate]=0
      done
      [ $spent -eq 0 ] || to_go=", some $((((SECONDS - begun) * left / spent + 59) / 60)) minutes to go"
    fi
    echo "gib: $name $what (${#seen[@]} of at most $count$to_go)"
  done
}

# Proves a crate's program and all below it, and builds it; further words are some on which it ends with 0.
prove_crate() {
  local crate=$1 made log begun_with status
  shift
  made=$(proved_path "$crate")
  need_rt
  lock "$crate.prove"
  find_program "$crate"
  if [ "$found" != proved ]; then
    begun_with=$text
    log=$(mktemp) || exit 70
    echo "gib: proving $crate, $(crates "$crate" | wc -l) crates; from nothing that is work for some $(minutes_of "$crate") minutes of one processor" >&2
    # rt takes a program for its stamp; this one's build was not seen.
    rm -f "$made" "$made.stamp" "$made.built"
    (cd "$root/crates/$crate" && rt run "$@" 9>&-) 2>&1 | tee "$log" | progress "$crate" >&2
    status=${PIPESTATUS[0]}
    if [ "$status" -ne 0 ] || ! [ -x "$made" ]; then
      tail -n 20 "$log" >&2
      rm -f "$log"
      stop 70 "$crate is not proved"
    fi
    rm -f "$log"
    note_proved "$crate" "$begun_with" || exit
  fi
  unlock
}
