#!/usr/bin/env bash
# Builds the simulation written by hand (bench/by_hand), where it is missing or older than its sources, and prints its
# path. Ends with status 3 where there is no rustc.
set -eu
folder=$(cd "$(dirname "$0")/by_hand" && pwd)
program=$folder/out/by_hand
command -v rustc > /dev/null || exit 3
if [ ! -x "$program" ] || [ -n "$(find "$folder" -name '*.rs' -newer "$program" -print -quit)" ]; then
  mkdir -p "$folder/out"
  rustc --edition 2021 -C opt-level=3 -o "$program" "$folder/main.rs"
fi
echo "$program"
