#!/usr/bin/env bash
# Times the program's `build` and `show` on 1,000,000 entries, and RocksDB's SstFileWriter and SstFileReader on the same
# text, in turn: processor time (user and system), the best of five runs. Prints the program's greatest resident memory
# against the text and the table together too, of this text and of as many small entries.
#
# It needs python3, and for the comparison g++ and RocksDB's headers and library (Debian: librocksdb-dev). The words are
# the number of entries and another program to be timed; the first is 1000000 where there is none.
cd "$(dirname "$0")" || exit 1
here="$PWD"
entries="${1:-1000000}"
program="${2:-$here/../crates/tipekohu/out/tipekohu}"
command -v python3 >/dev/null || { echo "tables: skipped, no python3"; exit 0; }
# the gate leaves the program that it built; without it, it is proved and built here
[ -x "$program" ] || bash ../samples/build
[ -x "$program" ] || { echo "tables: no program $program"; exit 1; }
folder="$(mktemp -d)" || exit 1
trap 'rm -rf "$folder"' EXIT
theirs=()
tables="$here/out/rocksdb_tables"
mkdir -p out
if command -v g++ >/dev/null && g++ -std=c++17 -O2 -o "$tables" rocksdb_tables.cc -lrocksdb 2>/dev/null; then
  theirs=(-- text - "$tables" build theirs.sst -- - theirs "$tables" show theirs.sst)
fi
cd "$folder" || exit 1
quotient() { python3 -c "print('%.2f' % ($1 / $2))"; }

# convert WHAT OTHERS: the text by `build` and `show`, in turn with other commands, and what they take
convert() {
  local what="$1"
  shift
  mapfile -t lines < <(python3 "$here/measure.py" text ours.sst "$program" build -- ours.sst ours "$program" show "$@")
  [ "${#lines[@]}" -ge 2 ] || exit 1
  cmp text ours || { echo "tables: the text isn't given back"; exit 1; }
  local size=$(($(stat -c %s text) + $(stat -c %s ours.sst)))
  read -r build memory <<<"${lines[0]}"
  echo "$(wc -l <text) $what, text and table together $size bytes"
  echo "build: $build s, $memory bytes resident, $(quotient "$memory" "$size") times text and table"
  read -r show memory <<<"${lines[1]}"
  echo "show: $show s, $memory bytes resident, $(quotient "$memory" "$size") times text and table"
}

python3 "$here/build_text.py" "$entries" small >text || exit 1
convert "small entries"
python3 "$here/build_text.py" "$entries" >text || exit 1
convert "entries" "${theirs[@]}"
if [ "${#theirs[@]}" -eq 0 ]; then
  echo "RocksDB: skipped, no g++ or no RocksDB"
  exit 0
fi
cmp text theirs || { echo "tables: RocksDB doesn't give the text back"; exit 1; }
read -r their_build _ <<<"${lines[2]}"
read -r their_show _ <<<"${lines[3]}"
echo "RocksDB build: $their_build s, the program takes $(quotient "$build" "$their_build") times as long"
echo "RocksDB show: $their_show s, the program takes $(quotient "$show" "$their_show") times as long"
