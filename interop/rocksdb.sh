#!/usr/bin/env bash
# Compares the program with RocksDB's own library, in both directions: RocksDB opens, verifies and ingests the tables that
# the program builds, and the program shows the tables that RocksDB's writer makes. What is read back must be the text
# that the table was made of. Tables of RocksDB that are in another format must be refused, each with its fault. Prints
# what differs, and ends with the status 1 then.
#
# It needs g++, python3 and RocksDB's headers and library (Debian: librocksdb-dev), and says so where one is missing.
# PROGRAM names another program to be compared.
cd "$(dirname "$0")" || exit 1
here="$PWD"
program="${PROGRAM:-$here/../crates/tipekohu/out/tipekohu}"
for tool in g++ python3; do
  command -v "$tool" >/dev/null || { echo "rocksdb: skipped, no $tool"; exit 0; }
done
echo '#include <rocksdb/db.h>' | g++ -std=c++17 -fsyntax-only -x c++ - 2>/dev/null || { echo "rocksdb: skipped, no RocksDB"; exit 0; }
# the gate leaves the program that it built; without it, it is proved and built here
[ -x "$program" ] || bash ../samples/build
[ -x "$program" ] || { echo "rocksdb: no program $program"; exit 1; }
folder="$(mktemp -d)" || exit 1
trap 'rm -rf "$folder"' EXIT
g++ -std=c++17 -O1 -o "$folder/tables" ../bench/rocksdb_tables.cc -lrocksdb || exit 1
python3 texts.py "$folder" || exit 1
cd "$folder" || exit 1
failed=0
count=0

# same WHAT FILE WANTED STATUS: a file that a command of this status wrote is the wanted one
same() {
  count=$((count + 1))
  if [ "$4" -ne 0 ] || ! cmp -s "$2" "$3"; then
    failed=$((failed + 1))
    echo "differs: $1 (status $4)"
    diff "$2" "$3" | head -n 4 | cut -c 1-160
  fi
}

# refused WHAT FAULT FILE: the program refuses the table with this fault, whose last numbers may be left out here
refused() {
  count=$((count + 1))
  "$program" show <"$3" >shown
  local status=$?
  case "$(head -n 1 shown)" in
  "refused $2" | "refused $2 "*) [ "$status" -eq 1 ] && return ;;
  esac
  failed=$((failed + 1))
  echo "not refused with $2: $1 (status $status): $(head -n 1 shown | cut -c 1-160)"
}

for text in *.text; do
  name="${text%.text}"
  "$program" build <"$text" >ours.sst || { echo "not built: $name"; failed=$((failed + 1)); continue; }
  "$program" show <ours.sst >shown
  same "$name, built and shown by the program" shown "$text" $?
  ./tables show ours.sst verify >read
  same "$name, built by the program, read by RocksDB" read "$name.values" $?
  ./tables ingest "store-$name" ours.sst >read
  same "$name, built by the program, ingested by RocksDB" read "$name.values" $?
  ./tables ingest "older-$name" ours.sst "$text" >read
  same "$name, built by the program, ingested by RocksDB over older values" read "$name.values" $?
  for block_size in 128 4096 100000; do
    for options in "restart 1" "restart 16" "restart 5 filter"; do
      ./tables build theirs.sst block_size $block_size $options <"$text" || { echo "RocksDB doesn't build $name"; failed=$((failed + 1)); continue; }
      "$program" show <theirs.sst >shown
      same "$name, built by RocksDB with blocks of $block_size, $options" shown "$text" $?
    done
  done
  rm -rf store-* older-* ours.sst theirs.sst
done

# tables of RocksDB in other formats, of one entry with a value that is easily compressed
echo "put a $(printf 'v%.0s' {1..3000})" >one
while read -r fault; do
  read -r options
  ./tables build other.sst $options <one || { echo "RocksDB doesn't build: $options"; failed=$((failed + 1)); continue; }
  refused "$options" "$fault" other.sst
done <<'END'
Magic
version 0
Version 1
version 1
Version 3
version 3
Version 4
version 4
Version 5
version 5
Checksum 4
xxh3
Compressed
compressed
IndexKind
hash_index
IndexKind
partitioned_index
IndexKind
first_key_index
Block 0 Restarts
hash_blocks
RangeDel
range
Kind 0 2
merge
Comparator
reverse
END
./tables flush flushed <one && refused "flushed by a store" "ExternalVersion -" flushed/*.sst
"$program" build <one >ours.sst
./tables ingest numbered ours.sst one >/dev/null && refused "ingested under a number" Sum "$(ls numbered/*.sst | tail -n 1)"
[ "$failed" -eq 0 ] || { echo "rocksdb: $failed of $count comparisons differ"; exit 1; }
echo "rocksdb: $count comparisons with RocksDB, all the same"
