# The parts of a check of built programs, and how they are run one after another and counted. It is read by `.ci/run`, behind the proof of all, and by
# `tools/trial`, which proves nothing; both print the sums.

# Each tries the programs that GIB and GIB_LOCATED name, or reads pages and sources; its last line is 'N passed, M failed'.
parts=(examples/check examples/starve examples/transcripts docs/believed docs/cited docs/house tools/edits/due)

kept=$(mktemp -d) || exit 1
trap 'rm -rf "$kept"' EXIT
printed=$kept/printed
passed=0 failed=0

# Runs a part and adds its last line to the counts. Answers its status.
part() {
  "$@" | tee "$printed"
  local status=${PIPESTATUS[0]}
  if [[ $(tail -n 1 "$printed") =~ ^([0-9]+)\ passed,\ ([0-9]+)\ failed$ ]]; then
    passed=$((passed + BASH_REMATCH[1])) failed=$((failed + BASH_REMATCH[2]))
  else
    failed=$((failed + 1))
    [ "$status" -ne 0 ] || status=1
  fi
  return "$status"
}

# Prints another name for a program whose own has blanks: GIB may be several words.
plain_name() {
  if [[ $1 = *[[:space:]]* && -e $1 ]]; then
    ln -sf "$1" "$kept/${1##*/}" && echo "$kept/${1##*/}"
  else
    echo "$1"
  fi
}

# Runs all of them, up to the first that fails. Answers its status. The programs are named, which GIB_PROVED=1 would refuse.
all_parts() {
  local name
  unset GIB_PROVED
  GIB=$(plain_name "$GIB") GIB_LOCATED=$(plain_name "$GIB_LOCATED")
  for name in "${parts[@]}"; do
    part "$name" || return
  done
}
