# shellcheck shell=bash
# What probe/all and tests/probe/run share: how each server is built and begun. It is sourced in the repository's top folder, in strict
# mode, behind interop/debian.sh, with `built` the folder of what is built and `identity` one with cert.pem and key.pem.
: "${built:?}" "${identity:?}"

# Packages beyond those of interop.
# shellcheck disable=SC2034
probe_packages=(librust-lexopt-dev librust-serde-dev librust-serde-json-dev librust-toml-dev openssl)

# Cargo in a folder below probe/, with what it builds in a folder of its own.
# shellcheck disable=SC2034
probe_cargo() {
  (interop=$PWD/probe && cd "probe/$1" && debian_cargo "$built/cargo" "${@:2}")
}

make_identity() {
  mkdir -p "$identity/files" "$identity/caddy"
  openssl req -x509 -newkey ec -pkeyopt ec_paramgen_curve:prime256v1 -nodes -keyout "$identity/key.pem" -out "$identity/cert.pem" \
    -days 30 -subj /CN=localhost -addext 'subjectAltName=DNS:localhost,IP:127.0.0.1' 2>/dev/null
}

build_ngtcp2() {
  cc -std=gnu11 -O1 -Wall -Wextra -Wpedantic -Werror probe/peers/ngtcp2/main.c -o "$built/quick/ngtcp2-sink" \
    -lngtcp2 -lngtcp2_crypto_gnutls -lgnutls
}

build_quic_go() {
  GO111MODULE=off GOPROXY=off GOPATH=/usr/share/gocode GOCACHE=$built/go go build -o "$built/quick/quic-go-sink" probe/peers/quic-go/main.go
}

# Caddy's settings for a port: it is begun with `{port}` in place of that.
caddy_file() {
  cat <<CADDY
{
	admin off
	auto_https off
	storage file_system $identity/caddy
	https_port {\$PORT}
	servers {
		protocols h3
	}
}
https://localhost:{\$PORT}, https://127.0.0.1:{\$PORT} {
	bind 127.0.0.1
	tls $identity/cert.pem $identity/key.pem
	root * $identity/files
	file_server
}
CADDY
}

# The command of each server.
command_of() {
  local pem="$identity/cert.pem $identity/key.pem" windows='--window 20000 --stream-window 8192 --streams 16'
  case $1 in
    ours) echo "$built/quick/gotsavena-sink $windows --cert $identity/cert.pem --key $identity/key.pem 127.0.0.1:{port}" ;;
    our-client) echo "$built/quick/gotsavena-sink $windows --connect 127.0.0.1:{port}" ;;
    # (2 GB: what is past a count may make it take on streams without end)
    quinn) echo "ulimit -v 2000000; exec $built/quick/quinn-sink 127.0.0.1:{port} $pem" ;;
    quic-go) echo "$built/quick/quic-go-sink 127.0.0.1:{port} $pem" ;;
    ngtcp2) echo "$built/quick/ngtcp2-sink {port} $pem" ;;
    gtlsserver)
      echo "gtlsserver -q --no-quic-dump --no-http-dump --no-pmtud --max-data=20000 --max-window=20000 --max-stream-window=8192" \
        "--max-stream-data-bidi-local=8192 --max-stream-data-bidi-remote=8192 --max-stream-data-uni=8192 --max-streams-bidi=16" \
        "--max-streams-uni=16 -d $identity/files 127.0.0.1 {port} $identity/key.pem $identity/cert.pem"
      ;;
    caddy)
      caddy_file >"$identity/Caddyfile"
      echo "PORT={port} HOME=$identity XDG_CONFIG_HOME=$identity/caddy XDG_DATA_HOME=$identity/caddy caddy run --config $identity/Caddyfile --adapter caddyfile"
      ;;
  esac
}

protocol_of() {
  case $1 in
    gtlsserver | caddy) echo h3 ;;
    *) echo gotsavena-raw ;;
  esac
}
