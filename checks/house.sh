#!/usr/bin/env bash
# The rules of the house, which no proof sees: names, lengths of contracts' lines, tests, edits, citations. It prints each
# breach with its file and line, and ends with status 1 where there is one. By hand, in seconds: bash checks/house.sh
cd "$(dirname "$0")/.." || exit 1
shopt -s globstar nullglob
export LC_ALL=C # awk counts bytes then; characters are counted without the bytes that go on with one
let_off='' # crates whose contracts' lines may be longer, parted by |

# A public name of specs/, or of a type, that two crates have stands in the first table of docs/NAMES.md: one word for one
# thing. Crates of tests aside. A row whose name no longer stands in two crates is told too.
names() {
  [ -f docs/NAMES.md ] || { echo "docs/NAMES.md:1: it isn't there"; return; }
  awk '
    function declare(name) {
      split(FILENAME, part, "/")
      if (part[2] ~ /_tests$/ || (name, part[2]) in seen) return
      seen[name, part[2]] = 1
      if (!crates[name]++) order[++count] = name
      where[name] = where[name] " " FILENAME ":" FNR
    }
    FILENAME == "docs/NAMES.md" {
      if (/^## /) over = 1
      if (!over && match($0, /^\| *`[^`]+`/)) { name = substr($0, 1, RLENGTH); gsub(/[|` ]/, "", name); row[name] = FNR }
      next
    }
    FILENAME ~ /\.antt$/ && match($0, /^((abbrev|unfoldable) )?pub ((data|record) )?/) {
      name = substr($0, RLENGTH + 1); sub(/[ :({].*/, "", name)
      if (name != "mod" && name != "use") declare(name)
    }
    FILENAME ~ /\.rt$/ && match($0, /^ *pub(\([a-z]+\))? (struct|enum|trait|type|union) /) {
      name = substr($0, RLENGTH + 1); sub(/[^A-Za-z0-9_].*/, "", name)
      declare(name)
    }
    END {
      for (k = 1; k <= count; k++) if (crates[order[k]] > 1 && !(order[k] in row)) {
        n = split(where[order[k]], place, " ")
        for (i = 1; i <= n; i++) print place[i] ": " order[k] " stands in " n " crates, and docs/NAMES.md has no row for it"
      }
      for (name in row) if (crates[name] < 2) print "docs/NAMES.md:" row[name] ": no two crates have " name
    }' docs/NAMES.md crates/*/specs/**/*.antt crates/*/src/**/*.rt
}

# A line of a contract has at most 120 characters.
lines() {
  awk -v let_off="^crates/(${let_off:-none})/" '
    FILENAME ~ let_off { next }
    FNR == 1 { within = 0 }
    { code = $0; sub(/\/\/.*/, "", code) }
    !within && code ~ /^ *(requires|ensures)[ {]/ { within = 1; depth = 0 }
    within {
      short = $0; gsub(/[\200-\277]/, "", short)
      if (length(short) > 120) print FILENAME ":" FNR ": a line of a contract has " length(short) " characters"
      opened = gsub(/[{(\[]/, "", code); closed = gsub(/[})\]]/, "", code)
      depth += opened - closed
      if (depth <= 0) within = 0
    }' crates/*/src/**/*.rt
}

# Tests stand in the crates of tests alone: a crate with tests is proved twice.
tests() {
  grep -nE '^ *#\[(test|cfg\(test\))\]' crates/*/src/**/*.rt /dev/null | grep -Ev '^crates/[a-z0-9_]*_tests/' |
    sed 's/$/ stands outside the crates of tests/'
}

# A crate has at most four edits that must fail.
edits() {
  local folder found
  for folder in crates/*/must-fail; do
    found=("$folder"/*.edit)
    [ "${#found[@]}" -le 4 ] || echo "${found[4]}:1: ${#found[@]} edits stand in $folder, and four may"
  done
}

# The repository stands alone: nothing cites a paper by its number.
citations() {
  local cited='(^|[^A-Za-z0-9_])(D(1[0-9]|[1-9])|T[1-5][a-h]|R(20|1[0-9]|[1-9])|W(1[0-6]|[1-9])|document 0[1-4]|paper 0[1-4])([^A-Za-z0-9_]|$)'
  find README.md .ci crates crates.txt docs checks bench interop samples -name out -prune -o -type f \
    \( -name '*.rt' -o -name '*.antt' -o -name '*.edit' -o -name '*.md' -o -name '*.sh' -o -name '*.py' -o -name '*.txt' -o -name run \) \
    ! -path 'checks/house.sh' -exec grep -nHE "$cited" {} + | sed -E 's/^([^:]*:[0-9]+):(.*)/\1: cites a paper by its number: \2/'
}

breaches=$(names; lines; tests; edits; citations)
if [ -n "$breaches" ]; then
  echo "$breaches"
  exit 1
fi
echo "house: names, lines of contracts, tests, edits and citations are in order"
