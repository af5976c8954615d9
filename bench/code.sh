#!/usr/bin/env bash
# Measures the sum (bytes per second), the opening of a block and the search in it (entries and searches per second).
# Builds the proved program first, where it isn't built yet.
set -e
cd "$(dirname "$0")/../crates/bench_code"
program=out/bench_code
[ -x "$program" ] || rt run >/dev/null
seconds() { # seconds of processor time that the program takes
  local TIMEFORMAT=%U
  { time "$program" "$@" >/dev/null; } 2>&1
}
per_second() { # how many units, in how many seconds
  awk -v n="$1" -v s="$2" 'BEGIN { printf "%.0f\n", n / s }'
}
base=$(seconds crc 1)
blocks=16000
opens=200000
lowers=5000000
without_base() { # seconds, without those of a run that does each once
  awk -v a="$1" -v b="$base" 'BEGIN { d = a - b; if (d < 0.001) d = 0.001; printf "%.3f\n", d }'
}
echo "crc32c: $(per_second $((blocks * 65536)) "$(without_base "$(seconds crc $blocks)")") bytes per second"
echo "Block::open: $(per_second $((opens * 100)) "$(without_base "$(seconds open $opens)")") entries per second"
echo "Block::lower: $(per_second $lowers "$(without_base "$(seconds lower $lowers)")") searches per second"
