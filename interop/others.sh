# shellcheck shell=bash
# Programs of others that interop/test starts: gtlsserver, caddy, and tshark, which records. It is sourced behind play.sh.
# shellcheck disable=SC2034 # Who starts one reads its address.
: "${room:?}"

# gtlsserver is told its port: one that is free is found by trying.
start_gtlsserver() {
  local port
  for _ in 1 2 3 4 5; do
    port=$((20000 + RANDOM % 20000))
    gtlsserver --no-quic-dump --no-http-dump "$@" -d "$room/files" 127.0.0.1 "$port" "$room/key.pem" "$room/cert.pem" >"$room/gtls.out" 2>&1 </dev/null &
    started=$!
    sleep 0.5
    if kill -0 "$started" 2>/dev/null; then
      running+=("$started")
      address=127.0.0.1:$port
      return
    fi
  done
  failed=$((failed + 1))
  echo 'FAILED: gtlsserver starts'
}

# Debian's caddy serves the files over HTTP/3, with the test's certificate and a folder of its own. Its port is found by trying.
start_caddy() {
  local port tries
  for _ in 1 2 3 4 5; do
    port=$((20000 + RANDOM % 20000))
    cat >"$room/Caddyfile" <<CADDY
{
	admin off
	auto_https off
	storage file_system $room/caddy
	https_port $port
	servers {
		protocols h3
	}
}
https://localhost:$port, https://127.0.0.1:$port {
	bind 127.0.0.1
	tls $room/cert.pem $room/key.pem
	root * $room/files
	file_server
}
CADDY
    HOME=$room/caddy XDG_CONFIG_HOME=$room/caddy XDG_DATA_HOME=$room/caddy \
      caddy run --config "$room/Caddyfile" --adapter caddyfile >"$room/caddy.out" 2>&1 </dev/null &
    started=$!
    running+=("$started")
    address=127.0.0.1:$port
    for tries in $(seq 100); do
      ! grep -qF 'serving initial configuration' "$room/caddy.out" || return 0
      kill -0 "$started" 2>/dev/null || break
      sleep 0.1
    done
  done
  failed=$((failed + 1))
  echo "FAILED: caddy starts, $tries"
}

# Records datagrams until `recorded`. On a busy machine tshark begins late and writes late: a datagram to a port on which no one listens
# is sent until it stands in the file.
capture() {
  rm -f "$room/trace.pcapng"
  tshark -q -i lo -f "$1 or udp port 9 or udp port 10" -w "$room/trace.pcapng" >"$room/capture" 2>&1 </dev/null &
  capturing=$!
  running+=("$capturing")
  check 'tshark begins' has_recorded 9
}

recorded() {
  check 'tshark has recorded all' has_recorded 10
  end "$capturing"
}

has_recorded() {
  local tries
  for tries in $(seq 100); do
    echo >"/dev/udp/127.0.0.1/$1"
    sleep 0.3
    [ -z "$(tshark -r "$room/trace.pcapng" -Y "udp.dstport == $1" 2>/dev/null)" ] || return 0
  done
  echo "nothing after $tries tries"
  cat "$room/capture"
  return 1
}
