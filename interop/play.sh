# shellcheck shell=bash
# What tests/interop/run and interop/test share: packages, building, programs that run beside the test, and checks. It is sourced in
# the repository's top folder, in strict mode. Each program is ended by its own process number.

interop=$PWD/interop
# shellcheck source=interop/debian.sh
. interop/debian.sh
room=$(mktemp -d)
# How the programs are built, and where they stand then.
profile=${profile:-quick}
# shellcheck disable=SC2034
built=$interop/target/$profile
running=()
passed=0 failed=0

leave() {
  local pid
  for pid in ${running[@]+"${running[@]}"}; do
    kill "$pid" 2>/dev/null || true
  done
  rm -rf "$room"
}
trap leave EXIT

finish() {
  echo "$passed passed, $failed failed"
  [ "$failed" = 0 ]
  exit
}

skip() {
  echo "skipped: $1"
  finish
}

# A command that has to succeed. What it says is told where it doesn't, and that it did where it took a while.
check() {
  local what=$1 since=$SECONDS
  shift
  if "$@" >"$room/log" 2>&1 </dev/null; then
    passed=$((passed + 1))
    if [ $((SECONDS - since)) -ge 2 ]; then echo "ok: $what ($((SECONDS - since)) s)"; fi
  else
    failed=$((failed + 1))
    echo "FAILED: $what"
    tail -n 30 "$room/log"
  fi
}

# A command that ends with this status and says this on standard error.
ends() {
  local wanted=$1 text=$2 status=0
  shift 2
  timeout 60 "$@" >"$room/out" 2>"$room/err" || status=$?
  cat "$room/err"
  [ "$status" = "$wanted" ] && grep -qF -- "$text" "$room/err"
}

# Debian's packages of these names are there, or are installed; else the test is skipped.
need() {
  local name missing=()
  command -v dpkg-query >/dev/null || skip "the packages $* are Debian's, and dpkg-query is not here"
  for name in "$@"; do
    is_installed "$name" || missing+=("$name")
  done
  [ "${#missing[@]}" = 0 ] && return
  if command -v apt-get >/dev/null && [ "$(id -u)" = 0 ]; then
    echo "installing ${missing[*]}"
    install_packages "${missing[@]}" >/dev/null 2>&1 || update_and_install "${missing[@]}" || true
  fi
  for name in "${missing[@]}"; do
    is_installed "$name" || skip "the package $name is not installed: apt-get install ${missing[*]}"
  done
}

# The list of packages may be old, or not there at all.
update_and_install() {
  timeout 60 apt-get update -qq >/dev/null 2>&1 && install_packages "$@" >/dev/null 2>&1
}

# The versions are those for which the example is written.
need_versions() {
  local others
  others=$(other_versions "$@" | paste -sd , -)
  [ -z "$others" ] || skip "the packages are of other versions than $others"
}

in_package() {
  (cd "$interop/$1" && debian_cargo "$room/cargo" "${@:2}")
}

build() {
  in_package "$1" build --quiet --profile "$profile"
}

# Starts a program beside the test, and waits until it tells on which address it listens: `address` has it then. It is started with
# the port 0, so that the system chooses one.
start() {
  local name=$1 tries=0
  shift
  : >"$room/$name.out"
  "$@" >"$room/$name.out" 2>"$room/$name.err" </dev/null &
  started=$!
  running+=("$started")
  address=
  while [ "$tries" -lt 1200 ] && kill -0 "$started" 2>/dev/null; do
    address=$(sed -n 's/^listening on //p' "$room/$name.out" | head -n 1)
    [ -n "$address" ] && return
    sleep 0.05
    tries=$((tries + 1))
  done
  failed=$((failed + 1))
  echo "FAILED: $name starts"
  tail -n 5 "$room/$name.err"
}

# Ends a program that was started.
end() {
  kill "$1" 2>/dev/null || true
  wait "$1" 2>/dev/null || true
}

# How long a thread of a process waited for a processor that others had, at most, in ns.
starved() {
  cat /proc/"$1"/task/*/schedstat 2>/dev/null | awk '$2 > most { most = $2 } END { printf "%d", most }'
}

# A server that is asked to stop by a signal, as a client is served, ends within a second, in which it isn't held up by others, and without
# a fault. The client ends, too.
stops() {
  local signal=$1 begin client before
  shift
  "$@" >"$room/said" 2>&1 &
  client=$!
  sleep 1
  before=$(starved "$started")
  begin=$(date +%s%N)
  kill -"$signal" "$started"
  while [ $(($(date +%s%N) - begin - $(starved "$started") + before)) -lt 1000000000 ] && kill -0 "$started" 2>/dev/null; do
    sleep 0.02
  done
  if kill -0 "$started" 2>/dev/null; then
    echo "the server goes on after $((($(date +%s%N) - begin) / 1000000)) ms"
    return 1
  fi
  wait "$started" || return
  echo "the server ended after $((($(date +%s%N) - begin) / 1000000)) ms"
  wait "$client" || true
  echo "the client ended after $((($(date +%s%N) - begin) / 1000000)) ms"
  [ $(($(date +%s%N) - begin)) -lt 10000000000 ]
}

# How much memory a process has, in KiB.
memory() {
  sed -n 's/^VmRSS:[[:space:]]*\([0-9]*\) kB$/\1/p' "/proc/$1/status"
}

# Makes a file of so many bytes that don't repeat.
make_file() {
  head -c "$2" /dev/urandom >"$room/files/$1"
}

# Loads files into an empty folder, and compares each with its original.
loads() {
  local names=$1 name
  shift
  rm -rf "$room/loaded"
  mkdir "$room/loaded"
  "$@" || return
  for name in $names; do
    cmp "$room/files/$name" "$room/loaded/$name" || return
  done
}

zone_file() {
  cat >"$room/zone" <<'ZONE'
$ORIGIN example.
$TTL 300
@ IN SOA ns hostmaster ( 1 ; the number
  3600 600 86400 60 )
@ NS ns
ns A 192.0.2.53
www A 192.0.2.1
www AAAA 2001:db8::1
alias CNAME www
text TXT "a text; with a blank" "and more"
ZONE
}

# kdig's answer to a query is this.
asks() {
  local wanted=$1 said
  shift
  said=$(timeout 20 kdig +quic +short +timeout=8 +retry=0 "@${address%:*}" -p "${address##*:}" "$@") || return
  echo "$said"
  [ "$said" = "$wanted" ]
}

# kdig tells this status.
has_status() {
  local wanted=$1
  shift
  timeout 20 kdig +quic +timeout=8 +retry=0 "@${address%:*}" -p "${address##*:}" "$@" | tee /dev/stderr | grep -qF "status: $wanted"
}

# An endpoint by the rules of quic-interop-runner, without its container: ROLE, TESTCASE and REQUESTS come behind it.
# shellcheck disable=SC2034
as_runner=(env "PATH=$built:$PATH" "CERTS=$room/certs" "WWW=$room/files" "DOWNLOADS=$room/loaded" LISTEN=127.0.0.1:0)

# What that gives a server: a certificate, and its key as `openssl ecparam` writes it.
make_certificate() {
  mkdir "$room/certs"
  openssl ecparam -name prime256v1 -genkey -out "$room/certs/priv.key"
  openssl req -x509 -key "$room/certs/priv.key" -subj /CN=localhost -days 30 -out "$room/certs/cert.pem" 2>/dev/null
}

# Loads files by our client in its role.
endpoint_loads() {
  local case=$1 names=$2 name requests=''
  for name in $names; do
    requests+="https://$address/$name "
  done
  loads "$names" timeout 120 "${as_runner[@]}" ROLE=client "TESTCASE=$case" "REQUESTS=$requests" interop/runner/run_endpoint.sh
}

# gtlsclient's addresses and options, for the server that was started last.
gtls_loads() {
  local names=$1 name urls=()
  shift
  for name in $names; do
    urls+=("https://localhost/$name")
  done
  loads "$names" timeout 120 gtlsclient -q --exit-on-all-streams-close --download "$room/loaded" "$@" "${address%:*}" "${address##*:}" "${urls[@]}"
}
