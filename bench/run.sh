#!/usr/bin/env bash
# Measures the whole program, `bxgate run`, reading and printing included, and beside it a simulation of the same rules
# that was written by hand in plain Rust (bench/by_hand): time and instructions a node-bit on busy and idle buses, with
# faults, and with routes; then what ten times the bits, nodes, events and faults cost in time and memory; then a bus
# on which all always want to send. All in one run, on one core, in turn.
# From the environment: CORE, the core (the last one); RUNS, of how many runs the best is taken (5); PROGRAM, the path
# of the program (that of scripts/program).
set -eu
cd "$(dirname "$0")/.."
core=${CORE:-$(($(nproc --all) - 1))}
runs=${RUNS:-5}
program=${PROGRAM:-$(scripts/program)}
by_hand=$(bench/by-hand.sh) || {
  [ $? -eq 3 ] || exit 1
  echo "There is no rustc here, so the simulation written by hand is not built: these are the program's figures alone."
}
python3 bench/beside.py "$core" "$runs" "$program" ${by_hand:+"$by_hand"}
