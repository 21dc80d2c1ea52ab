# Which program ./hmr runs: the one that was built here, or the one that is kept in bin/.
#
# Sourced, with `top` as the folder of the repository. bin/BUILT has the toolchain's line, the sum of the sources
# that the kept programs were built from, and the sum of each program.

# machine: the end of a kept program's name, as x86_64-linux.
machine() { echo "$(uname -m)-$(uname -s | tr '[:upper:]' '[:lower:]')"; }

# crate_of NAME: the crate that the program is built from.
crate_of() { awk -v name="$1" '$1 == name { print $2 }' "$top/tools/hmr/programs"; }

# built_file NAME: where the program stands once it was built here.
built_file() {
  local crate
  crate=$(crate_of "$1")
  echo "$top/crates/$crate/out/$crate"
}

# kept_file NAME: where the program for this machine is kept.
kept_file() { echo "$top/bin/$1-$(machine)"; }

# sources_sum TOOLCHAIN: the sum of that line and of all sources, in the byte order of their paths.
sources_sum() {
  local line=$1
  (
    cd "$top" || exit 1
    {
      echo "$line"
      {
        find crates -path '*/out' -prune -o -type f \( -name '*.rt' -o -name '*.antt' \) -print0
        printf 'crates.txt\0'
      } | LC_ALL=C sort -z | xargs -0 sha256sum
    } | sha256sum | cut -d ' ' -f 1
  )
}

# sum_of FILE: its SHA-256.
sum_of() { sha256sum < "$1" | cut -d ' ' -f 1; }

# told WORD: what bin/BUILT says of that word.
told() { sed -n "s/^$1 //p" "$top/bin/BUILT"; }

# is_built_here NAME: whether the program was built here, and no source was changed, added or removed since.
is_built_here() {
  local program
  program=$(built_file "$1")
  # (a folder is newer where a file was added or removed)
  [ -x "$program" ] && [ -z "$(find "$top/crates" "$top/crates.txt" -path '*/out' -prune -o -newer "$program" \( \
    -type f \( -name '*.rt' -o -name '*.antt' -o -name crates.txt \) -o -type d -path "$top/crates/*/*" \
    \) -print -quit)" ]
}

# why_not_kept NAME: says why the kept program can't be run here; says nothing where it can.
why_not_kept() {
  local file
  file=$(kept_file "$1")
  if [ ! -f "$top/bin/BUILT" ]; then
    echo "bin/ keeps no program"
  elif [ ! -f "$file" ]; then
    echo "bin/ keeps no program for this machine ($(machine))"
  elif [ "$(sum_of "$file")" != "$(told "program $(basename "$file")")" ]; then
    echo "$file isn't the program that was kept: its sum is another"
  elif [ "$(sources_sum "$(told toolchain)")" != "$(told sources)" ]; then
    echo "bin/ is stale: its program was built from other sources than those that stand here"
  elif [ ! -x "$file" ]; then
    echo "$file can't be executed"
  fi
}

# find_program NAME: sets `program` to the file to run and `kind` to where it is from, or `why` to why there is none.
find_program() {
  program='' kind='' why=''
  if is_built_here "$1"; then
    program=$(built_file "$1")
    kind='proved, built here'
    return 0
  fi
  why=$(why_not_kept "$1")
  [ -z "$why" ] || return 1
  program=$(kept_file "$1")
  kind='proved, kept in bin/'
}
