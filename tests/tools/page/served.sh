# Sourced behind tests/checks.sh by what runs the page: how its command is installed, and programs of node:test are run.

# served NAME: the command of the wheel in $MVT_PAGE, installed below $out, and the module's folder in $site. Ends the part where
# that can't be made.
served() {
  if ! packaging/wheel "$out" || ! "$PYTHON" -m venv "$out/venv" >/dev/null 2>&1; then
    skip "the page, without pip, setuptools, wheel and venv"
    finish "$1"
  fi
  "$out/venv/bin/python" -m pip -q install --no-index "$out"/*.whl
  site=$("$out/venv/bin/python" -c 'import sysconfig; print(sysconfig.get_path("purelib"))')
  export MVT_PAGE=$out/venv/bin/mvt-page
  unset PYTHONPATH
}

# nodes PATH: the programs of node:test there, of which each test counts.
nodes() {
  local told
  timeout 2400 node --test --test-concurrency=2 --test-reporter=tap --test-reporter-destination="$out/tap" \
    --test-reporter=spec --test-reporter-destination="$out/log" "$1" || true
  told=$(awk '/^# (pass|fail|cancelled|skipped) [0-9]+$/ {n[$2] = $3} END {print n["pass"] + 0, n["fail"] + n["cancelled"], n["skipped"] + 0}' "$out/tap")
  read -r -a told <<<"$told"
  [ "${told[0]}" != 0 ] || told[1]=1
  passed=$((passed + told[0])) failed=$((failed + told[1])) skipped=$((skipped + told[2]))
  [ "${told[1]}" = 0 ] || sed -n '/failing tests:/,$p' "$out/log"
}
