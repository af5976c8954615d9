#!/usr/bin/env bash
# One program has the folder of a store at a time: while another one holds its lock, a run ends with status 5 and the text
# `disk`, and changes nothing; behind it the run goes on. A name in the folder that isn't text is passed over.
cd "$(dirname "$0")/../crates/tipekohu" || exit 1
built="$PWD/out/tipekohu"
# the gate leaves the program that it built; without it, it is proved and built here
[ -x "$built" ] || bash ../../samples/build || exit 1
folder="$(mktemp -d)" || exit 1
trap 'rm -rf "$folder"' EXIT
cp "$built" "$folder/program" && cd "$folder" || exit 1

# expect STATUS TEXT: a run of the client file `one` ends so and prints this
expect() {
  local status=0 text
  text=$(./program run one) || status=$?
  if [ "$status" -ne "$1" ] || [ "$text" != "$2" ]; then
    echo "lock: status $status and '$text' in place of status $1 and '$2'"
    exit 1
  fi
}

echo 'put default a 1' >one
expect 0 $'client one\n1 written 1'
before=$(find db -type f -exec cksum {} + | sort)
# the shell's own open of the folder holds the lock until it is closed
exec 9<db
flock -n 9 || { echo "lock: the folder is still locked behind a run"; exit 1; }
expect 5 disk
[ "$before" = "$(find db -type f -exec cksum {} + | sort)" ] || { echo "lock: a run without the lock changed a file"; exit 1; }
exec 9<&-
touch $'db/\xff'
echo 'get default a' >one
expect 0 $'client one\n0 value 1'
echo "lock: a folder that another program has is left alone"
