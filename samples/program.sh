# To be sourced: where the program is, which crates it is made of, and whether it is up to date.
root="$(cd "$(dirname "${BASH_SOURCE[0]}")/.." && pwd)"
program="$root/crates/tipekohu/out/tipekohu"

# the program's crate and all those that it stands on, in the order of crates.txt, which goes from the bottom up
crates_of_program() {
  awk -F: '
    { sub(/#.*/, "") }
    NF > 1 { split($1, words, " "); order[++count] = words[1]; below[words[1]] = $2 }
    END {
      todo[1] = "tipekohu"; last = 1; wanted["tipekohu"] = 1
      for (i = 1; i <= last; i++) {
        n = split(below[todo[i]], names, " ")
        for (j = 1; j <= n; j++) if (!(names[j] in wanted)) { wanted[names[j]] = 1; todo[++last] = names[j] }
      }
      for (i = 1; i <= count; i++) if (order[i] in wanted) print order[i]
    }' "$root/crates.txt"
}

# whether the program is there, and newer than every source of its crates
is_built() {
  local name folders=()
  [ -x "$program" ] || return 1
  for name in $(crates_of_program); do
    for name in "$root/crates/$name/"{src,specs,proofs}; do
      [ ! -d "$name" ] || folders+=("$name")
    done
  done
  [ -z "$(find "${folders[@]}" -newer "$program" -print -quit)" ]
}

need_rt() {
  command -v rt >/dev/null || { echo "${0##*/}: needs rt, the command of the Rattle toolchain (README.md names it)" >&2; exit 1; }
}
