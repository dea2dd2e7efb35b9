# Sourced by what counts tests in $passed, $failed and $skipped, at the top of the repository. There are a folder $out, and in
# $PYTHON Debian's own Python where it is there, which has what Debian's packages bring.
passed=0 failed=0 skipped=0
export PYTHON=${PYTHON:-$([ -x /usr/bin/python3 ] && echo /usr/bin/python3 || echo python3)}
out=$(mktemp -d)
trap 'rm -rf "$out"' EXIT

# built: the library in $BUILT and the program in $MVT, which are built where they aren't there.
built() {
  if [ -z "${BUILT:-}" ]; then library/build; fi
  export BUILT=${BUILT:-$PWD/library/out} MVT=${MVT:-$PWD/crates/mvt_cli/out/mvt_cli}
  [ -x "$MVT" ] || (cd crates/mvt_cli && rt run -- fields </dev/null)
}

# check NAME COMMAND..: one test.
check() {
  local name=$1
  shift
  if "$@" >"$out/log" 2>&1; then
    passed=$((passed + 1))
  else
    failed=$((failed + 1))
    echo "failed: $name"
    tail -20 "$out/log"
  fi
}

# there NAME COMMAND..: whether the commands are there; else the test is skipped.
there() {
  local name=$1 command
  shift
  for command in "$@"; do
    command -v "$command" >/dev/null && continue
    skip "$name" "$command isn't there"
    return 1
  done
}

skip() {
  skipped=$((skipped + 1))
  echo "skipped: $1${2:+: $2}"
}

# finish PART: the last line of a part, and its status.
finish() {
  echo "$1: $passed passed, $failed failed, $skipped skipped"
  [ "$failed" = 0 ]
  exit
}

# pytests WORD..: the tests that pytest finds there, each counted by itself; two at a time where xdist is there.
pytests() {
  local several=() counts count kind
  if ! "$PYTHON" -c 'import pytest' 2>/dev/null; then
    skip "$1" "pytest isn't there"
    return
  fi
  if [ -z "${ALONE:-}" ] && "$PYTHON" -c 'import xdist' 2>/dev/null; then several=(-n 2); fi
  timeout 7200 "$PYTHON" -X dev -m pytest -q -rs "${several[@]}" "$@" >"$out/log" 2>&1 || true
  counts=$(tail -n 1 "$out/log" | grep -oE '[0-9]+ (passed|failed|errors?|skipped)') || counts="1 failed"
  while read -r count kind; do
    case $kind in
      passed) passed=$((passed + count)) ;;
      skipped) skipped=$((skipped + count)) ;;
      *) failed=$((failed + count)) ;;
    esac
  done <<<"$counts"
  sed -n 's/^SKIPPED \[[0-9]*\] /skipped: /p' "$out/log"
  if [[ $counts =~ failed|error ]]; then
    echo "failed: $1"
    tail -n 200 "$out/log"
  fi
}
