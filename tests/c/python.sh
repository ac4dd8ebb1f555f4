# Read by tests/c/kind.sh: the package for Python, over the library that was installed in $usr. It finds the library by pkg-config, and where
# pkg-config doesn't know it by a variable.
# shellcheck shell=bash
# shellcheck disable=SC2154  # (set by the reader, which also made a library of a later version in $later)
awk '/^```$/ { shown = 0 } shown { print } /^```python$/ { shown = 1 }' "$root/docs/C.md" >"$room/files.py"
by_variable=(PKG_CONFIG=false "GOTSAVENA_LIBRARY=$usr/lib/libgotsavena.so.0")
by_pkg=(-u GOTSAVENA_LIBRARY "PKG_CONFIG_PATH=$usr/lib/pkgconfig")
# in_python PROGRAM VARIABLE ..: where the package was installed. (By its standard input: of a file Python would find the package beside it.)
in_python() { env "${@:2}" PYTHONPATH="$usr/python" PYTHONDONTWRITEBYTECODE=1 timeout 300 "$python" - <"$1"; }
says_hello_in_python() { [ "$(in_python "$root/c/python/hello.py" "$@")" = "hello $kind" ]; }
# It does what the example in C does, packet by packet.
stack_in_python() { in_python "$root/c/python/stack.py" "${by_variable[@]}" >"$room/by-python" && "$room/stack" | cmp - "$room/by-python"; }
# calls_in_python LIBRARY
calls_in_python() { env GOTSAVENA_LIBRARY="$1" PYTHONPATH="$usr/python" PYTHONDONTWRITEBYTECODE=1 "$python" "$tests/doctests"; }
# By the program of docs/C.md: two files, of which one is longer than the windows, and an empty one.
files_in_python() {
  head -c 3000000 /dev/urandom >"$room/one"
  head -c 1000 /dev/urandom >"$room/two"
  : >"$room/three"
  env "${by_variable[@]}" PYTHONPATH="$usr/python" PYTHONDONTWRITEBYTECODE=1 timeout 300 "$python" "$room/files.py" "$room/one" "$room/two" &&
    cmp "$room/one" "$room/one.copy" && cmp "$room/two" "$room/two.copy" && rm "$room"/*.copy &&
    env "${by_variable[@]}" PYTHONPATH="$usr/python" timeout 300 "$python" "$room/files.py" "$room/three" && cmp "$room/three" "$room/three.copy"
}
# Where there is no library, one line says what to do.
says_no_library() {
  local said
  if said=$(in_python "$root/c/python/hello.py" PKG_CONFIG=false GOTSAVENA_LIBRARY=/none 2>&1); then return 1; fi
  [[ ${said##*$'\n'} == "ImportError: /none can't be loaded: "*'make -C c install'* ]]
}
typed() { mypy --strict --no-warn-return-any --ignore-missing-imports --cache-dir "$room/mypy" "$usr/python/gotsavena"; }
# What pip builds, in an environment that has nothing but the packages of the system.
by_pip() (
  unset PYTHONPATH
  cp -r "$root/c/python" "$room/python-source" && "$1" -m venv --system-site-packages "$room/venv" || return 1
  "$room/venv/bin/pip" install -q --no-index --no-build-isolation "$room/python-source" || return 1
  cd "$room" && env "${by_variable[@]}" venv/bin/python -c 'import gotsavena, importlib.metadata, pathlib, sys
at = pathlib.Path(gotsavena.__file__).parent
assert str(at).startswith(sys.prefix) and (at / "py.typed").exists(), at
assert gotsavena.__version__ == importlib.metadata.version("gotsavena") == "0.1.0" and gotsavena.version() == 100' &&
    env "${by_variable[@]}" venv/bin/python - <"$root/c/python/hello.py"
)
# wanting PYTHON: what pip needs and this Python lacks, by the names of Debian's packages.
wanting() {
  local pair
  for pair in cffi:python3-cffi ensurepip:python3-venv setuptools:python3-setuptools wheel:python3-wheel; do
    "$1" -c "import ${pair%:*}" 2>/dev/null || printf ' %s' "${pair#*:}"
  done
}

python='' builder=''
for word in python3 /usr/bin/python3; do
  command -v "$word" >/dev/null || continue
  if [ -z "$python" ] && "$word" -c 'import cffi' 2>/dev/null; then python=$word; fi
  if [ -z "$builder" ] && [ -z "$(wanting "$word")" ]; then builder=$word; fi
done
if [ -n "$python" ]; then
  try 'install of the package for Python' make -s -C "$root/c" install-python "PYTHONDIR=$usr/python"
  try 'the example in Python' says_hello_in_python "${by_variable[@]}"
  if has pkg-config 'the example in Python, by pkg-config'; then
    try 'the example in Python, by pkg-config' says_hello_in_python "${by_pkg[@]}"
  fi
  try 'the stack in Python' stack_in_python
  try 'the example of each call in Python' calls_in_python "$usr/lib/libgotsavena.so.0"
  try 'the example of each call in Python, over the later library' calls_in_python "$later/libgotsavena.so.0"
  try 'the files of docs/C.md in Python' files_in_python
  try 'Python without the library' says_no_library
  if [ "$kind" = erased ] && has mypy 'the types of the package for Python'; then try 'the types of the package for Python' typed; fi
  try 'uninstall of the package for Python' make -s -C "$root/c" uninstall-python "PYTHONDIR=$usr/python"
else
  echo 'skipped: the examples in Python (no python3-cffi)'
fi
# (of one kind, since the package is the same)
if [ "$kind" != erased ]; then
  :
elif [ -n "$builder" ]; then
  try 'the package for Python by pip' by_pip "$builder"
elif command -v python3 >/dev/null; then
  echo "skipped: the package for Python by pip (no$(wanting /usr/bin/python3))"
fi
