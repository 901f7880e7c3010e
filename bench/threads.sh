#!/usr/bin/env bash
# Measures the whole program in threads and in one: 1, 2, 4 and 8 segments of 16 nodes over 250,000 bits, with a route
# from each segment to the next, by one worker and with a slack of 1, of 64 and of all bits; the time by the clock, the
# processor time and the most memory of each, the best of some runs. First all nodes always have the same frames to
# send, on all segments; then mixed frames, others on each segment, fill nine tenths of the bits (bench/draw.py).
# From the environment: RUNS, of how many runs the best is taken (3); PROGRAM, the path of the program (that of
# scripts/program).
set -eu
cd "$(dirname "$0")/.."
program=${PROGRAM:-$(scripts/program)}
work=$(mktemp -d)
trap 'rm -rf "$work"' EXIT

# same SEGMENTS: 15 talkers and a controller on each, whose FIFO a route empties into the next segment
same() {
  awk -v segments="$1" 'BEGIN {
    printf "{\"version\":1,\"bits\":250000,\"segments\":["
    for (segment = 0; segment < segments; segment++) {
      printf "%s{\"name\":\"s%d\",\"talkers\":[", segment ? "," : "", segment
      for (talker = 0; talker < 15; talker++) {
        printf "%s{\"name\":\"t%d_%d\",\"on\":0,\"frames\":[", talker ? "," : "", segment, talker
        frames = talker ? 1 : 3000
        for (frame = 0; frame < frames; frame++)
          printf "%s{\"id\":%d,\"ext\":false,\"data\":[18,52,86,120,154,188,222,240]}", frame ? "," : "", talker
        printf "]}"
      }
      printf "]}"
    }
    printf "],\"controllers\":["
    for (segment = 0; segment < segments; segment++)
      printf "%s{\"name\":\"c%d\",\"segment\":\"s%d\",\"on\":0,\"banks\":[{\"bank\":0,\"scale\":32,\"mode\":\"mask\",\"fifo\":0,\"active\":true,\"r1\":0,\"r2\":0}]}", segment ? "," : "", segment, segment
    printf "],\"routes\":["
    for (segment = 0; segment + 1 < segments; segment++)
      printf "%s{\"name\":\"r%d\",\"from\":\"c%d\",\"fifo\":0,\"to\":\"c%d\"}", segment ? "," : "", segment, segment, segment + 1
    print "]}"
  }'
}

# mixed SEGMENTS: the same with mixed frames, others on each
mixed() {
  (cd bench && python3 -B -c 'import draw, json, sys; print(json.dumps(draw.busy_segments(250_000, int(sys.argv[1]))))' "$1")
}

# timed WORD..: the best of the runs; its time by the clock and of all processors, in seconds, and its memory in KB
timed() {
  for _ in $(seq "${RUNS:-3}"); do
    /usr/bin/env time -f '%e %U %M' -o "$work/time" "$program" "$@" < "$work/script" > /dev/null
    cat "$work/time"
  done | sort -n | head -n 1
}

# told TIME PROCESSORS MEMORY: these, with what they are
told() {
  echo "$1 s ($2 s of processors, $3 KB)"
}

for kind in same mixed; do
  for segments in 1 2 4 8; do
    "$kind" "$segments" > "$work/script"
    # shellcheck disable=SC2046
    line="$kind frames, $segments segments: in one thread $(told $(timed run))"
    for slack in 1 64 1000000; do
      # shellcheck disable=SC2046
      line="$line; slack $slack: $(told $(timed run --threads 1 --slack "$slack"))"
    done
    echo "$line"
  done
done
