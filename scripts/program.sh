# Read by ./qstream and scripts/build: what the program is made of, and whether it stands.
# shellcheck shell=sh
# shellcheck disable=SC2154  # (its reader sets root, the repository's top)

# The crate whose program this is, and where the proved program stands.
tool=qs_tool
program=$root/crates/$tool/out/$tool

# Where a build keeps its lock, its workshop and nothing that anybody else reads: in git's own folder where
# that is one, since git and `rt ci` pass that over.
if [ -d "$root/.git" ]; then
  state=$root/.git/qstream
else
  # shellcheck disable=SC2034  # (its readers use it)
  state=$root/crates/$tool/out/qstream
fi

tell() {
  printf 'qstream: %s\n' "$*" >&2
}

# The crates that the program stands on, each after those that it uses, and its own last: a line
# 'NAME USED ..' for each, with the crates of this repository alone.
crates() {
  awk -v top="$tool" '
    { sub(/#.*/, "") }
    index($0, ":") {
      name = $1; sub(/:.*/, "", name)
      used = $0; sub(/[^:]*:/, "", used)
      uses[name] = used
    }
    function visit(name,    words, n, i, line) {
      if (name in seen || !(name in uses)) return
      seen[name] = 1
      line = name
      n = split(uses[name], words)
      for (i = 1; i <= n; i++) if (words[i] in uses) { visit(words[i]); line = line " " words[i] }
      print line
    }
    END { visit(top) }' "$root/crates.txt"
}

# Whether the program stands and no source that it is made of is newer.
is_built() {
  [ -x "$program" ] && is_fresh "$program"
}

# Whether no source of the tool is newer than a file, nor a folder of theirs, which is newer where a file came or went.
is_fresh() {
  made=$1
  set -- "$root/crates.txt"
  for name in $(crates | cut -d ' ' -f 1); do
    for part in src specs proofs; do
      if [ -d "$root/crates/$name/$part" ]; then
        set -- "$@" "$root/crates/$name/$part"
      fi
    done
  done
  newer=$(find "$@" -newer "$made" -print) || return 1
  [ -z "$newer" ]
}

# Prints the process number of the build that goes on, and fails where none does.
builder() {
  [ -e "$state/lock" ] || return 1
  if flock -n -s "$state/lock" true; then return 1; fi
  cat "$state/lock"
}

# Stops where a command that is needed isn't there.
need() {
  for word; do
    if ! command -v "$word" >/dev/null; then
      tell "the command $word is needed and isn't in PATH"
      exit 3
    fi
  done
}
