#!/usr/bin/env bash
# To be sourced, with the repository's folder in $top: which sources the program is made of, and whether the program that lies in crates/far_memory/out, or the
# release, is the one of this tree.
program=$top/crates/far_memory/out/far_memory
# A stamp is made before a build begins, so that a source that is changed meanwhile is newer than it, and put in its place when the program stands.
stamp=$top/crates/far_memory/out/far_memory.built
release=$top/release/far_memory
# That the release is this tree's was found when this was made.
found=$top/crates/far_memory/out/release.found

# The crates that the program is made of, from the list of crates in the file $1, a name a line, in order.
crates_of_program() {
  awk '{ sub(/#.*/, "") } /:/ { name = $1; sub(/:.*/, "", name); rest = $0; sub(/[^:]*:/, "", rest); deps[name] = rest }
    function visit(name,    list, n, i) {
      if (name in seen || !(name in deps)) return
      seen[name] = 1; print name
      n = split(deps[name], list, " ")
      for (i = 1; i <= n; i++) visit(list[i])
    }
    END { visit("far_memory") }' "$1" | LC_ALL=C sort
}

# sum_of_sources FOLDER: one sum over all sources, definitions and proofs that the program of the tree in this folder is made of, and over the lines that list them.
sum_of_sources() (
  cd "$1" || exit 1
  crates=$(crates_of_program crates.txt) || exit 1
  parts=()
  for crate in $crates; do
    for part in src specs proofs; do [ -d "crates/$crate/$part" ] && parts+=("crates/$crate/$part"); done
  done
  {
    for crate in $crates; do grep -E "^$crate( [^:]*)?:" crates.txt; done
    find "${parts[@]}" -type f -print0 | LC_ALL=C sort -z | xargs -0 sha256sum
  } | sha256sum | cut -d ' ' -f 1
)

# The kit's `rt` as a file. `rt version` takes a second, so it is asked only where this line differs.
kit_file() {
  stat -L -c '%n %i %Z' "$(command -v rt)" 2> /dev/null || true
}

# new_stamp FILE: a stamp, to be made before a build begins: the kit's version, and its `rt`.
new_stamp() {
  { rt version < /dev/null && kit_file; } > "$1"
}

# keep_stamp FILE: the program that was built after this stamp was made is this tree's.
keep_stamp() {
  [ -x "$program" ] && mv -f "$1" "$stamp"
}

# Whether the kit that is there is the one that built the program. Where there is none, nothing can be built with another.
is_same_kit() {
  local version="" file="" now
  { read -r version; read -r file; } < "$stamp"
  now=$(kit_file)
  [ -z "$now" ] || [ "$now" = "$file" ] || [ "$(rt version < /dev/null)" = "$version" ]
}

# unchanged_since FILE PART..: whether the file is there, and no crate has changed in these parts since. A file's time of change, unlike that of its text, can't
# be set back, and a folder's changes when a file goes.
unchanged_since() {
  local file=$1 part folders=()
  shift
  for part in "$@"; do folders+=("$top"/crates/*/"$part"); done
  [ -f "$file" ] && [ -z "$(find "$top/crates.txt" "${folders[@]}" -cnewer "$file" -print -quit 2> /dev/null)" ]
}

# Whether the program that was built here is that of this tree.
is_current() {
  [ -x "$program" ] && unchanged_since "$stamp" src specs && is_same_kit
}

# said_in_stamp WORD: what the release's stamp says behind this word.
said_in_stamp() {
  sed -n "s/^$1 //p" "$top/release/STAMP" 2> /dev/null
}

# Whether the release has the bytes that it is to have.
is_whole_release() {
  (cd "$top/release" 2> /dev/null && sha256sum --status -c SHA256SUMS 2> /dev/null) && grep -q ' far_memory$' "$top/release/SHA256SUMS"
}

# Whether the release is of this tree, and runs on this machine. What was found is kept until a source or the release changes.
is_current_release() {
  [ -x "$release" ] || return 1
  if unchanged_since "$found" src specs proofs && [ -z "$(find "$top/release" -cnewer "$found" -print -quit)" ]; then
    return 0
  fi
  is_whole_release && [ "$(said_in_stamp sources)" = "$(sum_of_sources "$top")" ] && "$release" --version < /dev/null > /dev/null 2>&1 || return 1
  { mkdir -p "$(dirname "$found")" && touch "$found"; } 2> /dev/null || true
}
