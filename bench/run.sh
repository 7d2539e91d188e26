#!/bin/sh
# Builds the benchmark over the host's static library, and prints times and instructions.
# It needs a C++ compiler, LEMON (liblemon-dev) and valgrind.
set -eu
cd "$(dirname "$0")/.."
out=target/bench
mkdir -p "$out"
tools/build host >"$out/staticlib.log" 2>&1 || { cat "$out/staticlib.log" >&2; exit 1; }
"${CXX:-g++}" -O3 -std=c++17 -Wall -o "$out/pairs" bench/*.cpp target/staticlib/libhost.a "$(tools/build c-support)" -llemon
"$out/pairs"
for way in entry load linear simplex scaling; do
    n=$(valgrind --tool=callgrind --callgrind-out-file="$out/callgrind.$way" --collect-atstart=no \
        --toggle-collect="run_$way" "$out/pairs" "$way" 2>&1 | sed -n 's/.*Collected : //p')
    echo "$way: $((n / 800)) instructions an order"
done
