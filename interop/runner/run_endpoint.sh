#!/usr/bin/env bash
# An endpoint by the rules of quic-interop-runner. ROLE is `server` or `client`, TESTCASE what is played, and REQUESTS the URLs that a
# client loads into /downloads; a server gives out /www with the certificate in /certs. Where QLOGDIR or SSLKEYLOGFILE is set, traces and
# keys go there. Status 127 is a test that it doesn't know. WWW, DOWNLOADS, CERTS and LISTEN name other places, where it is played
# without a container.
set -euo pipefail

kind=raw options=()
case ${TESTCASE:-} in
  handshake | transfer | multiplexing) ;;
  chacha20) options+=(--cipher TLS13_CHACHA20_POLY1305_SHA256) ;;
  http3) kind=h3 ;;
  *) exit 127 ;;
esac
[ ! -x /setup.sh ] || /setup.sh
if [ -n "${QLOGDIR:-}" ]; then
  mkdir -p "$QLOGDIR"
  options+=(--qlog "$QLOGDIR")
fi

if [ "${ROLE:?}" = server ]; then
  certs=${CERTS:-/certs}
  exec "$kind-server" "${options[@]}" --cert "$certs/cert.pem" --key "$certs/priv.key" "${WWW:-/www}" "${LISTEN:-[::]:443}"
fi

[ ! -x /wait-for-it.sh ] || /wait-for-it.sh sim:57832 -s -t 30
downloads=${DOWNLOADS:-/downloads}
read -r -a urls <<<"${REQUESTS:?}"
if [ "$kind" = h3 ]; then
  exec h3-client "${options[@]}" --download "$downloads" "${urls[@]}"
fi
# (https://HOST:PORT/PATH)
server=${urls[0]#https://}
exec raw-client "${options[@]}" --protocol hq-interop "${server%%/*}" "$downloads" "${urls[@]#https://*/}"
