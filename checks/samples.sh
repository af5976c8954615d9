#!/usr/bin/env bash
# Runs the samples by the program that the gate built, and compares what they print with the sessions in README.md. Looks, too,
# whether each piece of Rust in docs/LIBRARY.md stands in the example's sources, and its output in the example's `stdout`.
cd "$(dirname "$0")/.." || exit 1
folder="$(mktemp -d)" || exit 1
trap 'rm -rf "$folder"' EXIT
failed=0

# session NUMBER: the text block of README.md under the comment of this number that names this script
session() {
  awk -v number="$1" '
    /^<!-- checks\/samples\.sh / { at++ }
    /^```/ { if (inside) exit; inside = at == number; next }
    inside' README.md
}
# same WHAT: the session and what was printed
same() {
  if [ ! -s "$folder/wanted" ] || ! diff "$folder/wanted" "$folder/printed"; then
    echo "$1 doesn't print the session of README.md"
    failed=1
  fi
}

session 1 >"$folder/wanted"
bash samples/run >"$folder/printed" 2>"$folder/told" || failed=1
grep -q '^run: by the proved program' "$folder/told" || { cat "$folder/told"; failed=1; }
same "samples/run"
session 2 >"$folder/wanted"
bash samples/run one two 2>"$folder/told" | sed -n '/^\$ cat two$/,$p' >"$folder/printed"
same "samples/run one two"

# each block of a kind stands, line for line, in a file of these
blocks() {
  local kind="$1" count
  shift
  count="$(awk -v kind="$kind" -v files="$*" '
    BEGIN {
      count = split(files, names, " ")
      for (i = 1; i <= count; i++) while ((getline line <names[i]) > 0) text[i] = text[i] line "\n"
    }
    /^```/ {
      if (inside) {
        found = 0
        for (i = 1; i <= count; i++) if (index(text[i], block)) found = 1
        if (!found) printf "not in the sources:\n%s", block >"/dev/stderr"
        blocks++
        good += found
      }
      inside = $0 == "```" kind
      block = ""
      next
    }
    inside { block = block $0 "\n" }
    END { print blocks == good && blocks ? blocks : 0 }' docs/LIBRARY.md)"
  [ "$count" -gt 0 ] || failed=1
}
blocks rust crates/library_example/src/*.rt
blocks text crates/library_example/stdout crates.txt
[ "$failed" -eq 0 ] && echo "samples: the sessions of README.md and the pieces of docs/LIBRARY.md are as they say"
exit "$failed"
