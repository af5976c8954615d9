#!/usr/bin/env bash
# Measures what the gate costs, from nothing, crate by crate: processor seconds (user and system) of the proof alone, of the
# tests and the program, and of the must-fail edits, and of one `rt selftest` before and after them, whose mean is the
# yardstick, since machines differ. It works in a fresh clone of what is committed, on as many crates at once as there are
# processors, each with one job, from the bottom up; and writes the table of docs/PROVING.md between its two marks. It takes
# as long as the gate. With words it measures these crates alone, prints their rows and writes nothing. Last it prints the
# functions whose check took more than 15 seconds by the clock, with the crate and the step.
cd "$(dirname "$0")/.." || exit 1
repository="$PWD"
folder="$(mktemp -d)" || exit 1
trap 'rm -rf "$folder"' EXIT
git clone -q . "$folder/clone" && cd "$folder/clone" && mkdir "$folder/rows" "$folder/done" "$folder/taken" "$folder/logs" || exit 1

# stamp: each line that comes in, with the seconds of the clock in front
stamp() { while IFS= read -r line; do printf '%(%s)T %s\n' -1 "$line"; done; }
# seconds NAME COMMAND: its processor seconds; what it prints goes to a log of the crate and the command
seconds() {
  local TIMEFORMAT='%U %S' name="$1"
  shift
  { time "$@" > >(stamp >"$folder/logs/$name.$2") 2>&1 </dev/null || echo "failed: $name: $*" >>"$folder/failed"; } 2>&1 | awk '{ printf "%.1f", $1 + $2 }'
}
# dear: the functions that a check gives more than 15 seconds after the one before
dear() {
  local log
  for log in "$folder"/logs/*.check "$folder"/logs/*.test; do
    [ -e "$log" ] || continue
    awk -v crate="$(basename "$log")" '
      / checked .*, [0-9]+ of [0-9]+$/ { if (before && $1 - before > 15) printf "%s: %s took %d s\n", crate, $3, $1 - before; before = $1 }' "$log"
  done
}
# lines FILES: how many lines they have together
lines() { find "$@" -type f \( -name '*.rt' -o -name '*.antt' \) -exec cat {} + 2>/dev/null | wc -l; }

# row NAME: code, definitions, proofs, edits; and the seconds of the proof, of tests or the program, and of the edits
row() {
  local name="$1" code definitions proofs edits proof tests=0 tried=0
  cd "$folder/clone/crates/$name" || exit 1
  code=$(lines src) definitions=$(lines specs) proofs=$(lines proofs)
  edits=$(find must-fail -name '*.edit' 2>/dev/null | wc -l)
  proof=$(seconds "$name" rt check --jobs 1)
  # the library, for the crates above
  [ -f src/main.rt ] || seconds "$name" rt lib --jobs 1 >/dev/null
  touch "$folder/done/$name"
  if grep -qrs '#\[test\]' src; then tests=$(seconds "$name" rt test --jobs 1); fi
  if [ -f src/main.rt ]; then tests=$(seconds "$name" rt run --jobs 1); fi
  if [ "$edits" -gt 0 ]; then tried=$(cd ../.. && seconds "$name" rt must-fail "$name"); fi
  echo "$name $code $definitions $proofs $edits $proof $tests $tried" >"$folder/rows/$name"
}

# worker: takes one crate after the other that no other worker has, in order, and waits for those that each stands on
worker() {
  local name below
  for name in "${crates[@]}"; do
    mkdir "$folder/taken/$name" 2>/dev/null || continue
    for below in $(sed -n "s/^$name: *//p" "$folder/clone/crates.txt"); do
      while [ ! -e "$folder/done/$below" ]; do sleep 1; done
    done
    row "$name"
  done
}

yardstick() { cd "$folder" && seconds selftest rt selftest; }
before=$(yardstick)
mapfile -t crates < <(sed 's/ *#.*//' "$folder/clone/crates.txt" | awk -F: 'NF { split($1, words, " "); print words[1] }')
if [ "$#" -gt 0 ]; then
  crates=("$@")
  # what isn't measured is no crate to wait for: rt proves it on the way
  sed 's/ *#.*//; s/[ :].*//' "$folder/clone/crates.txt" | while read -r name; do
    case " $* " in *" $name "*) ;; *) [ -z "$name" ] || touch "$folder/done/$name" ;; esac
  done
fi
for _ in $(seq "$(nproc)"); do worker & done
wait
after=$(yardstick)
for name in "${crates[@]}"; do cat "$folder/rows/$name"; done | awk -v before="$before" -v after="$after" '
  BEGIN {
    unit = (before + after) / 2
    print "| crate | code | definitions | proofs | edits | proof, s | tests and run, s | edits, s | selftests a 1,000 lines |"
    print "|---|---|---|---|---|---|---|---|---|"
  }
  {
    size = $2 + $3 + $4
    printf "| `%s` | %d | %d | %d | %d | %.0f | %.0f | %.0f | %.2f |\n", $1, $2, $3, $4, $5, $6, $7, $8, ($6 + $7 + $8) / unit * 1000 / size
    for (i = 2; i <= 8; i++) sum[i] += $i
  }
  END {
    size = sum[2] + sum[3] + sum[4]
    printf "| together | %d | %d | %d | %d | %.0f | %.0f | %.0f | %.2f |\n\n", sum[2], sum[3], sum[4], sum[5], sum[6], sum[7], sum[8], (sum[6] + sum[7] + sum[8]) / unit * 1000 / size
    printf "One `rt selftest` took %.1f s before and %.1f s after these; together they are %.1f selftests, of which the proofs are %.1f, tests and programs %.1f, and edits %.1f.\n", before, after, (sum[6] + sum[7] + sum[8]) / unit, sum[6] / unit, sum[7] / unit, sum[8] / unit
  }' >"$folder/table"
cat "$folder/table"
dear
if [ -s "$folder/failed" ]; then
  cat "$folder/failed"
  exit 1
fi
[ "$#" -eq 0 ] || exit 0
awk -v table="$folder/table" '
  /^<!-- end of the costs -->/ { inside = 0 }
  !inside { print }
  /^<!-- costs: bench\/gate.sh writes what follows -->/ { inside = 1; while ((getline line < table) > 0) print line }
' "$repository/docs/PROVING.md" >"$folder/page" && cp "$folder/page" "$repository/docs/PROVING.md"
