#!/usr/bin/env bash
# Refuses each allocation of the program in turn, in a run of a client, in `build` and in `show`: each such run ends with the
# status 3 and writes nothing, and the first one without a refusal ends with 0. It needs gcc and the C library's malloc, and
# isn't part of the gate.
cd "$(dirname "$0")" || exit 1
program="$PWD/../crates/tipekohu/out/tipekohu"
[ -x "$program" ] || bash ../samples/build || exit 1
command -v gcc >/dev/null || { echo "memory: skipped, no gcc"; exit 0; }
folder="$(mktemp -d)" || exit 1
trap 'rm -rf "$folder"' EXIT
gcc -shared -fPIC -O1 -o "$folder/refuse.so" refuse.c || exit 1
cp ../samples/one ../samples/text "$folder/" && cd "$folder" || exit 1
"$program" build <text >table || exit 1
failed=0

# each WORDS: refuses each allocation of the program with these words, which reads the file `in`
each() {
  local number=0 status taken
  while true; do
    number=$((number + 1))
    rm -rf db
    REFUSE=$number LD_PRELOAD=./refuse.so "$program" "$@" <in >out 2>count
    status=$?
    taken="$(tail -n 1 count)"
    [ "$taken" -ge "$number" ] || break
    if [ "$status" -ne 3 ] || [ -s out ]; then
      echo "$*: status $status with allocation $number refused"
      failed=1
    fi
    [ "$number" -lt 10000 ] || { echo "$*: no end"; failed=1; break; }
  done
  [ "$status" -eq 0 ] || { echo "$*: status $status without a refusal"; failed=1; }
  echo "$*: $((number - 1)) allocations, each refused in turn"
}

: >in
each run one
cp text in && each build
cp table in && each show
exit "$failed"
