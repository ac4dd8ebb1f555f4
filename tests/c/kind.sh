# Read by tests/c/run, for each kind of library: what is built in c/build/KIND is used. Its reader sets root, tests, work, kind, qstream, C,
# strict, warned and sanitize, and has try and has.
# shellcheck shell=bash
# shellcheck disable=SC2154  # (see above)
libs=$root/c/build/$kind
archive=$libs/libgotsavena.a
shared=$libs/libgotsavena.so
room=$work/$kind
below=$libs/cargo/c/libgotsavena_c.a
if [ "$kind" = proved ]; then below=$root/crates/qs_c/out/libqs_c.a; fi

# What make said as it built the library, and that it asked for no prover.
if [ "$kind" = erased ]; then
  says_erased() { grep -q 'the proved source with its ghosts erased' "$work/built"; }
  try 'what make says of this kind' says_erased
  asked_no_prover() { [ ! -e "$work/asked" ]; }
  try 'no prover was asked' asked_no_prover
fi

# What can be seen from without is what the header declares, and nothing else.
sed -n 's/^GV_API .*\b\(gv_[a-z_]*\)(.*/\1/p' "$root/c/include/gotsavena.h" | sort >"$room/wanted"
names() { awk '$2 ~ /[A-Z]/ { print $3 }' | sort | cmp - "$room/wanted"; }
seen_in_archive() { nm -g --defined-only "$archive" | grep -v '^$\|:$' | names; }
seen_in_shared() { nm -D --defined-only "$shared" | names; }
in_symbols() { sed -n 's/^ \(gv_[a-z_]*\)@Base .*/\1/p' "$root/debian/libgotsavena0.symbols" | sort | cmp - "$room/wanted"; }
try 'what the archive shows' seen_in_archive
is_one_object() { [ "$(ar t "$archive")" = gotsavena.o ]; }
try 'the archive is one object' is_one_object
try 'what the shared library shows' seen_in_shared
try 'what the list of symbols has' in_symbols
has_soname() { readelf -d "$shared" >"$room/dynamic" && grep -q 'SONAME.*\[libgotsavena\.so\.0\]' "$room/dynamic" && ! grep -q TEXTREL "$room/dynamic"; }
try 'the name of the shared library, and no text that moves' has_soname

# With the C of the library under the sanitizers, too.
parts=(calls forwarding memory about)
objects=()
for name in "${parts[@]}"; do
  try "src/$name.c" "$C" "${strict[@]}" -DGV_KIND="\"$kind\"" "${sanitize[@]}" -c "$root/c/src/$name.c" -o "$room/$name.o"
  objects+=("$room/$name.o")
done
compile() {
  local name
  name=$(basename "$1" .c)
  shift
  try "$name.c" "$C" "${strict[@]}" "${sanitize[@]}" "$@" "${objects[@]}" "$below" -o "$room/$name"
}
compile pipe "$root/c/examples/pipe.c"
compile udp_copy "$root/c/examples/udp_copy.c"
compile frames "$root/c/examples/frames.c"
compile stack "$root/c/examples/stack.c"
compile arguments "$tests/arguments.c"
compile settings "$tests/settings.c"
compile handed "$tests/handed.c"
compile events "$tests/events.c"
compile written "$tests/written.c"
compile lent "$tests/lent.c"
compile play "$tests/play.c"
compile replay "$root"/c/fuzz/*.c
compile refused "$tests/refused.c"
compile allocators "$tests/allocators.c" -pthread -Wl,--wrap=malloc -Wl,--wrap=realloc
compile lengths "$tests/lengths.c" -Wl,--wrap=malloc -Wl,--wrap=calloc -Wl,--wrap=realloc
for name in pipe stack arguments handed events written lent refused allocators lengths; do
  try "$name" timeout 300 "$room/$name"
done
like_rust() { "$room/settings" | cmp - <(cargo run -q --offline --release --manifest-path "$root/rust/Cargo.toml" -p gotsavena --example settings); }
if "$root/c/has-cargo" >/dev/null 2>&1; then
  try 'defaults are those of the Rust crate' like_rust
else
  echo 'skipped: the defaults of the Rust crate (no cargo)'
fi
# The kept inputs of the fuzzer: the Rust crate gives the same answers.
inputs=("$root/c/fuzz/inputs.txt" "$root/c/fuzz/by_hand.txt")
plays_inputs() { timeout 300 "$room/replay" "${inputs[@]}" >"$room/replayed"; }
try 'the inputs of c/fuzz' plays_inputs
if "$root/c/has-cargo" >/dev/null 2>&1; then
  answers_as_rust() {
    [ -e "$work/answers" ] || cargo run -q --offline --manifest-path "$root/rust/Cargo.toml" -p gotsavena-fuzz -- "${inputs[@]}" >"$work/answers" || return 1
    cmp "$work/answers" "$room/replayed"
  }
  try 'the answers to them are those of the Rust crate' answers_as_rust
else
  echo 'skipped: the answers of the Rust crate (no cargo)'
fi

# Over the libraries as they are: the archive, and the shared one.
plain() {
  local name=$1
  shift
  try "$name over the archive" "$C" "${strict[@]}" "$@" "$archive" -o "$room/$name-a"
  try "$name over the shared library" "$C" "${strict[@]}" "$@" "-L$libs" -lgotsavena "-Wl,-rpath,$libs" -o "$room/$name-so"
}
# The programs of docs/C.md, of which the first is whole; and the examples of the header, one for each group of calls.
mkdir "$room/shown"
awk -v into="$room/shown" '/^```$/ { shown = 0 } shown { print >(into "/page-" count ".inc") } /^```c$/ { count++; shown = 1 }' "$root/docs/C.md"
awk -v into="$room/shown" '/ @endcode$/ { shown = 0 } shown { sub(/^ \* ?/, ""); print >(into "/" name ".inc") } / @code$/ { shown = 1 }
  / @name / { sub(/.* @name /, ""); gsub(/ /, "-"); name = tolower($0) }' "$root/c/include/gotsavena.h"
each_has_an_example() { [ "$(grep -c ' @name ' "$root/c/include/gotsavena.h")" = "$(find "$room/shown" -name '*.inc' ! -name 'page-*' | wc -l)" ]; }
try 'each group of the header has an example' each_has_an_example
cp "$room/shown/page-1.inc" "$room/hello.c"
plain shown "$tests/shown/main.c" "-I$room/shown"
plain hello "$room/hello.c"
plain pipe "$root/c/examples/pipe.c"
plain arguments "$tests/arguments.c"
plain handed "$tests/handed.c"
plain written "$tests/written.c"
plain stack "$root/c/examples/stack.c"
plain lent "$tests/lent.c"
plain refused "$tests/refused.c"
plain allocators "$tests/allocators.c" -pthread -Wl,--wrap=malloc -Wl,--wrap=realloc
says_hello() { [ "$("$1")" = hello ]; }
# (both forms are one object, so each kind plays one of them under valgrind, and the other as it is)
under=a
if [ "$kind" = proved ]; then under=so; fi
for form in a so; do
  try "what the program of docs/C.md prints ($form)" says_hello "$room/hello-$form"
  for name in hello shown pipe stack arguments handed written lent refused allocators; do
    if [ "$form" != "$under" ]; then
      try "$name ($form)" timeout 300 "$room/$name-$form"
    elif has valgrind "$name under valgrind"; then
      try "$name under valgrind ($form)" timeout 600 valgrind -q --error-exitcode=1 --leak-check=full "$room/$name-$form"
    fi
  done
done
if has g++ 'a program in C++'; then
  try 'plus.cpp' g++ -std=c++17 "${warned[@]}" "$tests/plus.cpp" "$archive" -o "$room/plus"
  try 'a program in C++' "$room/plus"
fi
if has rustc 'another library of Rust beside'; then
  try 'another library of Rust' rustc --edition 2024 -O --crate-type staticlib "$tests/beside.rs" -o "$room/libbeside.a"
  for order in "$archive $room/libbeside.a" "$room/libbeside.a $archive"; do
    # shellcheck disable=SC2086  # (two words)
    try 'a program over both' "$C" "${strict[@]}" "$tests/beside.c" $order -lpthread -ldl -lm -o "$room/beside"
    try 'which runs' env RUST_BACKTRACE=0 "$room/beside"
  done
fi

# A header and a library of a later version, whose structs have one field more: each program runs over each library.
later=$room/later
mkdir -p "$later/include" "$later/src"
cp "$root"/c/src/*.[ch] "$later/src"
mapfile -t growing < <(awk '/^typedef struct/ { name = $3 } /^  size_t size; / { print name }' "$root/c/include/gotsavena.h")
sed -E "s/^\} ($(IFS='|' && echo "${growing[*]}"));/  uint64_t later;\n&/" "$root/c/include/gotsavena.h" >"$later/include/gotsavena.h"
sed -i 's/^ENDS_WITH(\([a-z_]*\), .*/ENDS_WITH(\1, later);/' "$later/src/calls.c"
has_grown() { [ "$(grep -c '^  uint64_t later;' "$later/include/gotsavena.h")" = "${#growing[@]}" ] && [ "$(grep -c ', later);' "$later/src/calls.c")" = "${#growing[@]}" ]; }
try 'each struct of the later header that may grow has one field more' has_grown
make_later() {
  local name objects=()
  for name in "${parts[@]}"; do
    "$C" -std=c11 -O2 -g -fPIC -fvisibility=hidden -DGV_KIND="\"$kind\"" -I"$later/include" -c "$later/src/$name.c" -o "$later/$name.o" || return 1
    objects+=("$later/$name.o")
  done
  ld -r -o "$later/all.o" "${objects[@]}" "$below" && objcopy --keep-global-symbols="$libs/names" "$later/all.o" &&
    "$C" -shared -Wl,-soname,libgotsavena.so.0 -o "$later/libgotsavena.so.0" "$later/all.o"
}
try 'the later library' make_later
try 'a program of this header' "$C" "${strict[@]}" "$tests/grown.c" "-L$libs" -lgotsavena -o "$room/grown"
try 'a program of the later header' "$C" -std=c11 -g -DGROWN "-I$later/include" "$tests/grown.c" "-L$libs" -lgotsavena -o "$later/grown"
checked=()
if has valgrind 'structs under valgrind'; then checked=(valgrind -q --error-exitcode=1); fi
# over FOLDER PROGRAM WORD ..: what the program prints over the library there.
over() {
  LD_LIBRARY_PATH=$1 "${checked[@]}" "${@:2}" >"$room/answers" && [ -s "$room/answers" ] && cmp "$room/answers" "$room/grown.wanted"
}
LD_LIBRARY_PATH=$libs "$room/grown" >"$room/grown.wanted"
try 'this header over this library' over "$libs" "$room/grown"
try 'this header over the later library' over "$later" "$room/grown" later
try 'the later header over this library' over "$libs" "$later/grown"
try 'the later header over the later library' over "$later" "$later/grown" later
if has abidiff 'that no symbol goes'; then
  none_went() { abidiff "$shared" "$later/libgotsavena.so.0" >"$room/abi"; grep -q 'Functions changes summary: 0 Removed' "$room/abi"; }
  try 'no symbol goes' none_went
fi

# What `qstream play` prints of a script.
play() {
  local script=$1 wanted=0 got=0
  shift
  "$qstream" play "$script" >"$work/wanted" || wanted=$?
  "$room/play" "$@" <"$script" >"$work/got" || got=$?
  [ "$wanted" = "$got" ] && cmp "$work/wanted" "$work/got"
}
play_random() {
  local seed
  for seed in $(seq 200); do
    "$qstream" random "$seed" $((50 + seed % 7 * 75)) >"$work/script" || return 1
    play "$work/script" || { echo "of seed $seed"; return 1; }
  done
}
# What `qstream frames` prints of each payload; `-` is the one of no byte.
show() {
  local hex=$1 wanted=0 got=0
  if [ "$hex" = - ]; then hex=; fi
  "$qstream" frames "$hex" >"$work/wanted" || wanted=$?
  "$room/frames" "$hex" >"$work/got" || got=$?
  [ "$wanted" = "$got" ] && cmp "$work/wanted" "$work/got"
}
if [ -n "$qstream" ]; then
  try '200 random scripts' play_random
  for script in "$tests"/scripts/*; do
    try "the script $(basename "$script")" play "$script"
  done
  while read -r payload; do
    try "the frames of $payload" show "$payload"
  done <"$tests/payloads"
fi

# 8 MiB over the loopback, with datagrams lost, repeated and reordered at both ends.
copy_over_udp() {
  local port=$((20000 + RANDOM % 20000)) bad=(--lose 5 --repeat 1 --reorder 5) receiver
  head -c 8388608 /dev/urandom >"$work/file"
  timeout 100 "$room/udp_copy" "${bad[@]}" receive "$work/copy" "$port" &
  receiver=$!
  sleep 0.5
  timeout 100 "$room/udp_copy" "${bad[@]}" send "$work/file" 127.0.0.1 "$port" && wait "$receiver" && cmp "$work/file" "$work/copy"
}
try 'a copy over UDP' copy_over_udp

# Installed, used by pkg-config and by CMake, and taken away.
usr=$room/usr
try 'lib/' make -s -C "$root/c" PROVED="$is_proved"
try 'install' make -s -C "$root/c" install "PREFIX=$usr"
if has pkg-config 'a program by pkg-config'; then
  by_pkg_config() {
    local -x PKG_CONFIG_PATH=$usr/lib/pkgconfig
    [ "$(pkg-config --variable=build gotsavena)" = "$kind" ] && [ "$(pkg-config --modversion gotsavena)" = 0.1.0 ] || return 1
    # shellcheck disable=SC2046  # (words)
    "$C" -std=c11 "$root/c/examples/pipe.c" $(pkg-config --cflags --libs gotsavena) "-Wl,-rpath,$usr/lib" -o "$room/by-pkg-config" &&
      "$C" -std=c11 -static "$root/c/examples/pipe.c" $(pkg-config --static --cflags --libs gotsavena) -o "$room/by-pkg-config-static" &&
      "$room/by-pkg-config" && "$room/by-pkg-config-static"
  }
  try 'programs by pkg-config' by_pkg_config
fi
if has cmake 'a program by CMake'; then
  by_cmake() {
    cmake -S "$tests/cmake" -B "$room/$1" "${@:2}" && cmake --build "$room/$1" && "$room/$1/pipe" && "$room/$1/pipe-static"
  }
  try 'a program by CMake, of what make installed' by_cmake found "-DCMAKE_PREFIX_PATH=$usr"
  if [ "$kind" = erased ]; then
    # (what cargo built for make is what it would build here)
    mkdir -p "$room/beneath/gotsavena/made/$kind"
    cp -a "$libs/cargo" "$room/beneath/gotsavena/made/$kind/"
    try 'a program by CMake, of the sources' by_cmake beneath "-DGOTSAVENA_SOURCE=$root/c"
    try 'install by CMake' cmake --install "$room/beneath" --prefix "$room/by-cmake"
    try 'a program by CMake, of what CMake installed' by_cmake again "-DCMAKE_PREFIX_PATH=$room/by-cmake"
  fi
fi
# In other folders; and below a DESTDIR, where what is told is where it will lie.
elsewhere() {
  local folders=(LIBDIR="$1/usr/lib/here" INCLUDEDIR="$1/usr/include/there") found
  make -s -C "$root/c" install DESTDIR="$2" PREFIX="$1/usr" "${folders[@]}" && [ -e "$2$1/usr/include/there/gotsavena.h" ] || return 1
  if command -v pkg-config >/dev/null; then
    found=$(PKG_CONFIG_LIBDIR=$2$1/usr/lib/here/pkgconfig PKG_CONFIG_SYSROOT_DIR=$2 pkg-config --cflags --libs gotsavena) || return 1
    # shellcheck disable=SC2086  # (words)
    "$C" -std=c11 "$root/c/examples/pipe.c" $found "-Wl,-rpath,$2$1/usr/lib/here" -o "$room/elsewhere" && "$room/elsewhere" || return 1
  fi
  if [ -z "$2" ] && command -v cmake >/dev/null; then by_cmake elsewhere-by-cmake "-Dgotsavena_DIR=$1/usr/lib/here/cmake/gotsavena" || return 1; fi
  make -s -C "$root/c" uninstall DESTDIR="$2" PREFIX="$1/usr" "${folders[@]}" && [ -z "$(find "$2$1/usr" ! -type d)" ]
}
try 'in other folders' elsewhere "$room/other" ''
try 'below a DESTDIR' elsewhere '' "$room/root"
# The package for Python.
# shellcheck source=tests/c/python.sh
. "$tests/python.sh"
try 'uninstall' make -s -C "$root/c" uninstall "PREFIX=$usr"
nothing_left() { [ -z "$(find "$usr" ! -type d)" ]; }
try 'nothing is left' nothing_left
