#!/usr/bin/env bash
# Measures memtables and views, in processor time: writes into a memtable, finds and scans of ten keys in a family of 4
# memtables and 20 tables of 10,000 entries each, and scans of 1,000 pairs over 10 tables of 100,000 entries, and over 10 of
# 1,000. What it takes to make the family is measured by itself, and taken off. A scan takes a search by halves in each table
# and then a step for each pair, so the rates of the last two differ by what memory takes to come near, and not with the count
# of entries; where valgrind is there, the instructions of a scan are counted too, and their ratio must stay near one. Last, how
# often threads take the published state beside one writer, by the clock. Builds the proved programs first, where they aren't
# built yet.
cd "$(dirname "$0")/../crates/bench_view" || exit 1
[ -x out/bench_view ] || rt run >/dev/null || exit 1
seconds() {
  local TIMEFORMAT='%U %S'
  { time ./out/bench_view "$@" >/dev/null; } 2>&1 | awk '{print $1 + $2}'
}
rate() {
  local base all
  base=$(seconds "$2" 0)
  all=$(seconds "$2" "$3")
  awk -v what="$1" -v many="$3" -v base="$base" -v all="$all" \
    'BEGIN { spent = all - base; if (spent <= 0) spent = 0.001;
      printf "%-36s %9d in %7.2f s, %10.0f a second\n", what, many, spent, many / spent }'
}
# instructions WORD COUNT: how many the program takes
instructions() {
  valgrind --tool=cachegrind --cache-sim=no --cachegrind-out-file=/dev/null ./out/bench_view "$@" 2>&1 >/dev/null |
    awk '/I +refs/ { gsub(/,/, ""); print $NF }'
}
rate "writes" write 100000
rate "finds" find 1000000
rate "scans of 10 keys" scan 10000
rate "scans of 1,000 pairs, large tables" long 2000
rate "scans of 1,000 pairs, small tables" short 2000
# a scan of the large tables and one of the small ones, without what it takes to make them
if command -v valgrind >/dev/null; then
  awk -v long="$(instructions long 100)" -v made="$(instructions long 0)" -v short="$(instructions short 100)" -v little="$(instructions short 0)" \
    'BEGIN { large = (long - made) / 100; small = (short - little) / 100;
      printf "instructions of a scan of 1,000 pairs: %d over large tables, %d over small ones, %.2f to 1\n", large, small, large / small }'
else
  echo "valgrind is missing: no instructions are counted"
fi

cd ../bench_publish || exit 1
[ -x out/bench_publish ] || rt run >/dev/null || exit 1
enters() {
  local TIMEFORMAT='%R' all
  all=$({ time ./out/bench_publish "$1" "$2" >/dev/null; } 2>&1)
  awk -v threads="$2" -v many="$1" -v all="$all" 'BEGIN { if (all <= 0) all = 0.001; total = many * threads;
    printf "enters of %d threads %14d in %7.2f s, %10.0f a second\n", threads, total, all, total / all }'
}
for threads in 1 2 4; do enters 1000000 "$threads"; done
