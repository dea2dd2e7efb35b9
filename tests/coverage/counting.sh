# Sourced behind tests/checks.sh by what counts the lines that tests run of code that isn't proved, and tells their share. Debian
# has no tool for Rust and for JavaScript, so these aren't counted.
# In $counted are: mvt.o and extension/ of C, and site/ with the module in Python, each of which counts, and what they counted.
counted=$out/counted
mkdir "$counted" "$counted/site"
of_c=(-std=c11 -O0 -g --coverage -fPIC -Wall -Wextra -Werror -Ilibrary/c)

# count_c: builds what C does for itself beside the proved calls. The tests link it where MVT_COUNTED says so (tests/room.py).
count_c() { cc "${of_c[@]}" -c library/c/mvt.c -o "$counted/mvt.o" && export MVT_COUNTED=$counted; }

# count_extension: builds the extension of the Python module, beside the module.
count_extension() {
  local headers source folder=$counted/extension
  headers=$("$PYTHON" -c 'import sysconfig; print(sysconfig.get_path("include"))')
  mkdir "$folder"
  for source in library/python/src/*.c; do
    cc "${of_c[@]}" -I"$headers" -c "$source" -o "$folder/$(basename "$source" .c).o" || return 1
  done
  cp -r library/python/libmvt "$counted/site"
  cc -shared --coverage "$folder"/*.o "$BUILT/libmvt.a" -Wl,--exclude-libs,ALL -o "$counted/site/libmvt/_mvt.abi3.so"
}

# count_python: has coverage.py begin in each process that finds site/ on its path and $COVERAGE_PROCESS_START.
count_python() {
  "$PYTHON" -c 'import coverage, pytest' 2>/dev/null || return 1
  echo 'import coverage; coverage.process_startup()' >"$counted/site/sitecustomize.py"
  printf '[run]\nparallel = true\nconcurrency = multiprocessing\nsource = %s/site\ndata_file = %s/data\n' "$counted" "$counted" >"$counted/rc"
}

# tell NAME COMMAND..: prints what was counted. It fails where nothing was.
tell() {
  if "${@:2}"; then
    passed=$((passed + 1))
  else
    failed=$((failed + 1))
    echo "failed: coverage of $1: nothing was counted"
  fi
}

# c_lines NAME SOURCE WORD..: what gcov says of sources in C.
c_lines() {
  gcov -n "${@:2}" 2>/dev/null | awk -v name="$1" '/^File/ {of = $2 ~ /library/} /^Lines executed/ && of {
    split($0, part, /[:%]| of /); ran += part[2] * part[4] / 100; all += part[4]; of = 0}
    END {printf "coverage: %s: %.0f of %d lines, %.0f %%\n", name, ran, all, all ? 100 * ran / all : 0; exit !ran}'
}

# header_lines FOLDER: what of mvt.hpp the programs ran that were compiled in this folder.
header_lines() {
  find "$1" -name '*.gcda' -print0 | (cd "$counted" && xargs -0 gcov -t -j 2>/dev/null) | "$PYTHON" -c '
import json, sys
ran = {}
for told in map(json.loads, sys.stdin):
    for line in (line for file in told["files"] if file["file"].endswith("mvt.hpp") for line in file["lines"]):
        ran[line["line_number"]] = ran.get(line["line_number"], False) or line["count"] > 0
print(f"coverage: library/cpp/mvt.hpp: {sum(ran.values())} of {len(ran)} lines, {100 * sum(ran.values()) // max(len(ran), 1)} %")
sys.exit(not any(ran.values()))'
}

# python_lines NAME: what of a package below site/ was run.
python_lines() {
  "$PYTHON" -m coverage combine -q --rcfile="$counted/rc" "$counted" 2>/dev/null
  "$PYTHON" -m coverage report --rcfile="$counted/rc" --include="$counted/site/$1/*" | awk -v name="$1" '/^TOTAL/ {
    printf "coverage: %s: %d of %d lines, %.0f %%\n", name, $2 - $3, $2, 100 * ($2 - $3) / $2; ran = $2 - $3} END {exit !ran}'
}

# go_statements: of Go statements are counted, of which a profile has a line FILE:PLACE STATEMENTS TIMES for each run of them.
go_statements() {
  awk 'NR > 1 {all += $2; ran += $3 ? $2 : 0} END {
    printf "coverage: library/go: %d of %d statements, %.0f %%\n", ran, all, all ? 100 * ran / all : 0; exit !ran}' "$counted/statements"
}
