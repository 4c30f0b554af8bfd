# What bin/build and bin/edits share: which crates a crate stands on, and a copy of them outside the checkout.
top=$(cd "$(dirname "${BASH_SOURCE[0]}")/.." && pwd) || exit 2

# Tells on standard error what is missing, where it is the toolchain.
need_rt() {
  command -v rt >/dev/null && return
  echo "$1: the command rt is missing: install Rattle's toolchain, and put the folder of rt into PATH" >&2
  exit 2
}

# The lines of crates.txt for a crate and all those below it.
lines_below() {
  awk -F: -v want="$1" '
    { uses[$1] = $2; line[$1] = $0 }
    END {
      todo[1] = want; count = 1
      for (at = 1; at <= count; at++) {
        name = todo[at]
        if (!(name in uses) || seen[name]++) continue
        print line[name]
        parts = split(uses[name], used, " ")
        for (i = 1; i <= parts; i++) todo[++count] = used[i]
      }
    }' "$top/crates.txt"
}

# Copies what a crate stands on, itself too, without edits and without what checks left in out/.
copy_crates() {
  local copy=$1 name
  cp "$top/HANDLES" "$copy/" && lines_below "$2" >"$copy/crates.txt" && mkdir "$copy/crates" || return 1
  while IFS=: read -r name _; do
    mkdir "$copy/crates/$name" || return 1
    tar -C "$top/crates/$name" --exclude ./must-fail --exclude ./out -cf - . |
      tar -C "$copy/crates/$name" -xf - || return 1
  done <"$copy/crates.txt"
  git -C "$copy" init --quiet
}
