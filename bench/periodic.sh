#!/usr/bin/env bash
# Measures the built program on long scripts of version 3 with periodic messages: the best time of three runs by the
# clock, and the most memory that one of them took.
set -eu
cd "$(dirname "$0")"
INPUTS=periodic.py exec ./limits.sh
