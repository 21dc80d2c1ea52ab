# Sourced by the scripts of this folder that build a small program of their own over the crates. Sets `top`, the
# top of the repository, and `work`, a folder that is gone when the script ends.
top=$(cd "$(dirname "${BASH_SOURCE[0]}")/.." && pwd)
work=$(mktemp -d)
trap 'rm -rf "$work"' EXIT

# crates_below USES..: the crates USES and all below them, a line each, in the order of crates.txt.
crates_below() {
  awk -v wanted="$*" '
    /^#/ { next }
    { name = $1; sub(/:$/, "", name); names[++count] = name; uses[name] = substr($0, length($1) + 1) }
    END {
      for (left = split(wanted, todo, " "); left > 0;) {
        it = todo[left--]
        if (!(it in uses) || it in taken) continue
        taken[it] = 1
        for (more = split(uses[it], below, " "); more > 0; more--) todo[++left] = below[more]
      }
      for (at = 1; at <= count; at++) if (names[at] in taken) print names[at]
    }' "$top/crates.txt"
}

# begin NAME USES..: copies the crates USES and all below them into the folder, and begins the crate NAME over
# them, whose source the script then writes below `own`.
begin() {
  local name=$1 it part
  shift
  own=$work/crates/$name
  mkdir -p "$own/src" "$own/proofs"
  for it in $(crates_below "$@"); do
    mkdir "$work/crates/$it"
    for part in src specs proofs; do
      if [ -d "$top/crates/$it/$part" ]; then cp -r "$top/crates/$it/$part" "$work/crates/$it/"; fi
    done
    grep "^$it:" "$top/crates.txt" >> "$work/crates.txt"
  done
  cp "$top/HANDLES" "$work/"
  echo "$name: $*" >> "$work/crates.txt"
}

# build WORDS..: proves the program, builds it and runs it once by these words. Sets `program`.
build() {
  echo 'bench: proving and building the program' >&2
  (cd "$own" && rt run ${1+-- "$@"} < /dev/null) > "$work/log" 2>&1 || { tail -30 "$work/log" >&2; exit 1; }
  program=$own/out/$(basename "$own")
}
