#!/usr/bin/env bash
# Measures the library for C, as library/build makes it, over folders of real tiles, beside
# protozero and protoc's classes: library.sh FOLDER, a folder that bench/real-tiles.sh made. Wants
# g++, and from Debian libprotozero-dev, libprotobuf-dev and protobuf-compiler.
set -euo pipefail
folder=$(realpath "$1")
cd "$(dirname "$0")/.."
library/build
mkdir -p bench/out
protoc --cpp_out=bench/out --proto_path=fixtures/tiles fixtures/tiles/vector_tile.proto
g++ -std=c++17 -O2 -DNDEBUG -march=x86-64-v2 -Ilibrary/c -Ibench/out \
  -o bench/out/library bench/library.cc \
  bench/out/vector_tile.pb.cc library/out/libmvt.a -lprotobuf -lpthread
bench/out/library "$folder"
