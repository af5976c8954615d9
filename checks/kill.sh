#!/usr/bin/env bash
# Ends the program by kill -9 at twenty moments while it makes 2,000 writes in a folder. After each the next opening must
# find exactly the first p writes, for a p that never falls; at the end a further run makes the rest in the same folder.
cd "$(dirname "$0")/../crates/tipekohu" || exit 1
batches=2000
kills=20
built="$PWD/out/tipekohu"
# the gate leaves the program that it built; without it, it is proved and built here
[ -x "$built" ] || bash ../../samples/build || exit 1
folder="$(mktemp -d)" || exit 1
trap 'rm -rf "$folder"' EXIT
cp "$built" "$folder/program" && cd "$folder" || exit 1

# the writes from a number on
write_from() { seq "$1" "$batches" | sed 's/.*/put default k& &/' >writes; }

# reads every key: how many of the first writes are there, and nothing else
seq 1 "$batches" | sed 's/.*/get default k&/' >reads
count_found() {
  ./program run reads >found || return 1
  awk 'NR == 1 { next }
    $2 == "value" { if (gap || $3 != NR - 1) bad = 1; count++; next }
    $2 == "none" { gap = 1; next }
    { bad = 1 }
    END { if (bad || NR != '"$batches"' + 1) exit 1; print count + 0 }' found
}

last=0
for kill in $(seq 1 "$kills"); do
  write_from "$((last + 1))"
  ./program run writes >/dev/null 2>&1 &
  child=$!
  sleep "0.$(printf '%02d' $((kill % 7 * 3 + 2)))"
  kill -9 "$child" 2>/dev/null
  wait "$child" 2>/dev/null
  if ! count="$(count_found)" || [ "$count" -lt "$last" ]; then
    echo "kill $kill: not the first writes, or fewer than before"
    exit 1
  fi
  last="$count"
done
echo "$kills kills: each opening found the first writes, none in part, and never fewer than before"
write_from "$((last + 1))"
if ! ./program run writes >/dev/null || ! count="$(count_found)" || [ "$count" -ne "$batches" ]; then
  echo "a further run didn't make the rest"
  exit 1
fi
echo "a further run made the rest: $batches writes"
