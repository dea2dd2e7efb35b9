#!/usr/bin/env bash
# Measures how the time of each call of the library for C, as library/build makes it, grows with
# tiles and rows that are made to be dear. Wants g++.
set -euo pipefail
cd "$(dirname "$0")/.."
library/build
mkdir -p bench/out
g++ -std=c++17 -O2 -DNDEBUG -march=x86-64-v2 -Ilibrary/c \
  -o bench/out/growth bench/growth.cc library/out/libmvt.a
bench/out/growth
