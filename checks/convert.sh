#!/usr/bin/env bash
# Converts build texts and tables with the program that the gate built: standard input to standard output, and the status
# with which it ends. The rows and the bytes are those of docs/COMMANDS.md and docs/FORMATS.md.
cd "$(dirname "$0")/../crates/tipekohu" || exit 1
program="$PWD/out/tipekohu"
# without it, it is proved and built here
[ -x "$program" ] || bash ../../samples/build || exit 1
folder="$(mktemp -d)" || exit 1
trap 'rm -rf "$folder"' EXIT
cd "$folder" || exit 1
failed=0
cases=0

# expect STATUS WORDS: the standard input gives the file `wanted` and this status
expect() {
  local wanted="$1" found
  shift
  "$program" "$@" >out
  found=$?
  cases=$((cases + 1))
  if [ "$found" -ne "$wanted" ] || ! cmp -s out wanted; then
    echo "$*: status $found for $wanted, or another output"
    failed=1
  fi
}
# changed OFFSET BYTE: the table with this byte at the offset, in hexadecimal digits
changed() { { head -c "$1" table; printf "\\x$2"; tail -c "+$(($1 + 2))" table; } >in; }
letters() { head -c "$1" /dev/zero | tr '\0' k; }

# the table of `put a 1`, by offsets
printf 'put a 1\n' >text
"$program" build <text >table || failed=1
hex() { od -An -v -tx1 -j "$1" -N "$2" table | tr -d ' \n'; }
[ "$(wc -c <table)" -eq 327 ] || { echo "the table isn't 327 bytes long"; failed=1; }
[ "$(hex 0 21)" = 000901610100000000000000310000000001000000 ] || { echo "another data block"; failed=1; }
[ "$(hex 274 6)" = 01ed01201a16 ] || { echo "another footer"; failed=1; }
[ "$(hex 280 35)" = "$(printf '00%.0s' $(seq 35))" ] || { echo "another padding"; failed=1; }
[ "$(hex 315 12)" = 02000000f7cff485b741e288 ] || { echo "another end"; failed=1; }
cp text wanted && expect 0 show <table

# texts that are refused, and tables
for row in 'put a 1\nput a 2\n|2 NotRising' '|0 NoEntry' 'put a 1|1 Line' 'put a \\x41\n|1 Line' 'del b\ndel a\n|2 NotRising'; do
  printf 'refused %s\n' "${row##*|}" >wanted
  printf "${row%|*}" >in
  expect 1 build <in
done
while read -r offset byte cause; do
  changed "$offset" "$byte"
  printf 'refused %s\n' "$cause" >wanted
  expect 1 show <in
done <<'END'
12 32 Sum 0 3276478267 2004322086
21 01 Compressed 0
274 04 Checksum 4
276 ff Handle 275
315 03 Version 3
326 00 Magic
END
echo 'refused Short' >wanted
head -c 27 table >in
expect 1 show <in
expect 1 show </dev/null

# long keys, and a source that is too long
{ printf 'put \\e \\x00\nput '; letters 65535; printf ' \\e\n'; } >wanted
"$program" build <wanted >table || failed=1
expect 0 show <table
echo 'refused 2 TooLarge' >wanted
{ printf 'put \\e \\x00\nput '; letters 65536; printf ' \\e\n'; } >in
expect 1 build <in
echo 'refused 0 TooLong' >wanted
head -c 268435457 /dev/zero >in
expect 1 build <in
echo 'refused TooLarge' >wanted
expect 1 show <in

# words that are no form, also where one isn't UTF-8
echo notyet >wanted
expect 9
expect 9 build it
expect 9 $'\xff'
expect 9 run $'one\xff'

# a source that fails (a folder), and a sink that does (a full device)
echo input >wanted
expect 4 build <.
if [ -e /dev/full ]; then
  "$program" build <text >/dev/full
  [ $? -eq 6 ] || { echo "a full device isn't status 6"; failed=1; }
fi

[ "$failed" -eq 0 ] && echo "$cases conversions: each output and status as stated"
exit "$failed"
