#!/usr/bin/env bash
# Builds mvt_bench and bench/tile.cc, and runs it. Wants g++, and protozero's headers (Debian:
# libprotozero-dev). A crate that isn't proved yet is proved first.
set -euo pipefail
cd "$(dirname "$0")/.."
kit=$(dirname "$(rt doc)")
(cd crates/mvt_bench && rt lib >/dev/null)
mkdir -p bench/out
g++ -std=c++17 -O2 -DNDEBUG -march=x86-64-v2 -o bench/out/tile bench/tile.cc \
  crates/mvt_bench/out/libmvt_bench.a "$kit/c/liblibc_c.a"
bench/out/tile
