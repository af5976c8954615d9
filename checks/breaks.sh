#!/usr/bin/env bash
# Watches the calls by which a run reads and writes files, and breaks each in turn.
#
# Watched: the folder is locked before a file of it is opened; a file that is made is synced, and then its folder, before it is
# written to; what is written to a file is synced before anything is written to another file or to standard output.
# Broken: each call in turn answers EIO, ENOSPC and EINTR, or is one byte short. The run ends with status 5 where the call is on
# the folder, 4 on the client file, 6 on standard output, and 0 where it is tried again or goes on; the next run then finds the
# writes that were answered, whole, and at most the one that was cut off. It needs gcc.
cd "$(dirname "$0")" || exit 1
program="$PWD/../crates/tipekohu/out/tipekohu"
[ -x "$program" ] || bash ../samples/build || exit 1
command -v gcc >/dev/null || { echo "breaks: skipped, no gcc"; exit 0; }
folder="$(mktemp -d)" || exit 1
trap 'rm -rf "$folder"' EXIT
gcc -shared -fPIC -O1 -o "$folder/breaks.so" breaks.c -ldl || exit 1
cd "$folder" || exit 1
printf 'put default a 1\nput default b 2\nput default c 3\n' >writes
printf 'get default a\nget default b\nget default c\n' >reads
failed=0
wrong() { echo "breaks: $*"; failed=1; }

# ---- watched

rm -rf db
CALLS="$folder/calls" LD_PRELOAD=./breaks.so "$program" run writes >/dev/null || wrong "status $? with no call broken"
awk '
  function told(what) { print "line " NR ": " $0 ": " what; bad = 1 }
  $2 == "lock" && $3 == "db" { locked = 1 }
  $2 == "open" && $3 ~ /^f[0-9]/ && !locked { told("the folder is not locked") }
  $2 == "open" && $4 == "new" { made[$3] = 1 }
  $2 == "sync" && $3 in made && made[$3] == 1 { made[$3] = 2 }
  $2 == "sync" && $3 == "db" { for (file in made) if (made[file] == 2) made[file] = 3 }
  $2 == "write" {
    if ($3 in made && made[$3] < 3) told("the file or its folder is not synced")
    for (file in dirty) if (file != $3) told(file " is not synced")
    if ($3 ~ /^f[0-9]/) dirty[$3] = 1
  }
  $2 == "sync" { delete dirty[$3] }
  END { for (file in dirty) { print file " is not synced at the end"; bad = 1 }; exit bad }
' calls || wrong "the order of the calls"

# ---- broken

# how many of the writes the next run finds: the first ones, and no other
found() {
  "$program" run reads >left || return 1
  awk 'NR == 1 { next } $2 == "value" && $3 == NR - 1 && !none { n++; next } $2 == "none" { none = 1; next } { exit 2 }
    END { print n + 0 }' left
}

# allowed NAME TARGET HOW: the statuses with which the run may end
allowed() {
  case "$3 $1" in
  short*) echo 0; return ;;
  esac
  local on=5
  case "$2" in
  writes) on=4 ;;
  f[0-9]* | db | db/ | . | "$(basename "$folder")") on=5 ;;
  *) on=6 ;;
  esac
  # a signal: the call is tried again, or the run ends
  if [ "$3" -eq 4 ]; then echo "0 $on"; else echo "$on"; fi
}

runs=0
while read -r number name target _; do
  for how in 5 28 4 short; do
    runs=$((runs + 1))
    rm -rf db
    BREAK=$number HOW=$how LD_PRELOAD=./breaks.so "$program" run writes >text
    status=$?
    case " $(allowed "$name" "$target" "$how") " in
    *" $status "*) ;;
    *) wrong "status $status with call $number ($name $target) broken by $how" ;;
    esac
    answered=$(grep -c ' written ' text)
    case "$status" in
    0 | 6) least=3 most=3 ;;
    5) least=$answered most=$((answered + 1)) ;;
    *) least=0 most=0 ;;
    esac
    there=$(found) || { wrong "call $number ($name $target) broken by $how leaves no store"; continue; }
    [ "$there" -ge "$least" ] && [ "$there" -le "$most" ] || wrong "call $number ($name $target) broken by $how: $there writes are there, $answered were answered"
  done
done <calls
[ "$failed" -eq 0 ] && echo "breaks: $(wc -l <calls) calls in order, and $runs runs with one of them broken"
exit "$failed"
