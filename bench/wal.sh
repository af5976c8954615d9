#!/usr/bin/env bash
# Measures the gated log on a disk in memory: appending records of 64 bytes, and appending and replaying them. Builds the
# proved program first, where it isn't built yet.
cd "$(dirname "$0")/../crates/bench_wal" || exit 1
[ -x out/bench_wal ] || rt run >/dev/null || exit 1
for count in 250000 500000 1000000; do
  for what in append replay; do
    echo "$what $count"
    time ./out/bench_wal "$what" "$count"
  done
done
