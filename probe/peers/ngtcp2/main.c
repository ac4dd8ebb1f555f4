/* ngtcp2-sink PORT CERTIFICATE.pem KEY.pem: over libngtcp2 what gotsavena-sink does over our streams. It reads and drops every stream,
   answers "ok" on each bidirectional one that ends, and opens one stream of either direction with "hi". */
#include <arpa/inet.h>
#include <gnutls/crypto.h>
#include <gnutls/gnutls.h>
#include <ngtcp2/ngtcp2.h>
#include <ngtcp2/ngtcp2_crypto.h>
#include <ngtcp2/ngtcp2_crypto_gnutls.h>
#include <poll.h>
#include <stdio.h>
#include <stdlib.h>
#include <string.h>
#include <time.h>

enum { GIVEN_UP = 9, MOST_ITEMS = 256, MOST_PEERS = 65536, DATAGRAM = 1200, TURNS = 64 };

struct item { int64_t stream; const char *bytes; size_t len; uint32_t flags; };

struct served {
  ngtcp2_conn *conn;
  gnutls_session_t tls;
  ngtcp2_crypto_conn_ref ref;
  struct sockaddr_in peer;
  struct item items[MOST_ITEMS];
  size_t count;
};

/* By the client's port. */
static struct served *table[MOST_PEERS];
static struct pollfd sock = {-1, POLLIN, 0};
static struct sockaddr_in own;
static gnutls_certificate_credentials_t credentials;

static ngtcp2_tstamp now(void) {
  struct timespec time;
  clock_gettime(CLOCK_MONOTONIC, &time);
  return (ngtcp2_tstamp)time.tv_sec * NGTCP2_SECONDS + (ngtcp2_tstamp)time.tv_nsec;
}

static ngtcp2_conn *conn_of(ngtcp2_crypto_conn_ref *ref) { return ((struct served *)ref->user_data)->conn; }
static void random_bytes(uint8_t *to, size_t len, const ngtcp2_rand_ctx *context) { (void)context, gnutls_rnd(GNUTLS_RND_RANDOM, to, len); }

static int new_id(ngtcp2_conn *conn, ngtcp2_cid *id, uint8_t *token, size_t len, void *user) {
  (void)conn, (void)user;
  gnutls_rnd(GNUTLS_RND_RANDOM, id->data, id->datalen = len);
  return gnutls_rnd(GNUTLS_RND_RANDOM, token, NGTCP2_STATELESS_RESET_TOKENLEN) == 0 ? 0 : NGTCP2_ERR_CALLBACK_FAILURE;
}

static void push(struct served *served, int64_t stream, const char *text, uint32_t flags) {
  if (served->count < MOST_ITEMS) served->items[served->count++] = (struct item){stream, text, strlen(text), flags};
}

static int done(ngtcp2_conn *conn, void *user) {
  int64_t stream;
  if (ngtcp2_conn_open_uni_stream(conn, &stream, NULL) == 0) push(user, stream, "hi", 0);
  if (ngtcp2_conn_open_bidi_stream(conn, &stream, NULL) == 0) push(user, stream, "hi", 0);
  return 0;
}

static int came(ngtcp2_conn *conn, uint32_t flags, int64_t stream, uint64_t offset, const uint8_t *bytes, size_t len, void *user, void *own_data) {
  (void)offset, (void)bytes, (void)own_data;
  ngtcp2_conn_extend_max_stream_offset(conn, stream, len);
  ngtcp2_conn_extend_max_offset(conn, len);
  if ((flags & NGTCP2_STREAM_DATA_FLAG_FIN) && (stream & 3) == 0) push(user, stream, "ok", NGTCP2_WRITE_STREAM_FLAG_FIN);
  return 0;
}

static int is_over(ngtcp2_conn *conn, uint32_t flags, int64_t stream, uint64_t code, void *user, void *own_data) {
  (void)flags, (void)code, (void)user, (void)own_data;
  if ((stream & 3) == 2) ngtcp2_conn_extend_max_streams_uni(conn, 1);
  if ((stream & 3) == 0) ngtcp2_conn_extend_max_streams_bidi(conn, 1);
  return 0;
}

static int was_reset(ngtcp2_conn *conn, int64_t stream, uint64_t size, uint64_t code, void *user, void *own_data) {
  (void)size, (void)code, (void)user, (void)own_data;
  if ((stream & 3) == 0) ngtcp2_conn_shutdown_stream_write(conn, stream, GIVEN_UP);
  return 0;
}

static const ngtcp2_callbacks callbacks = {
  .recv_client_initial = ngtcp2_crypto_recv_client_initial_cb,
  .recv_crypto_data = ngtcp2_crypto_recv_crypto_data_cb,
  .handshake_completed = done,
  .encrypt = ngtcp2_crypto_encrypt_cb,
  .decrypt = ngtcp2_crypto_decrypt_cb,
  .hp_mask = ngtcp2_crypto_hp_mask_cb,
  .recv_stream_data = came,
  .stream_close = is_over,
  .stream_reset = was_reset,
  .rand = random_bytes,
  .get_new_connection_id = new_id,
  .update_key = ngtcp2_crypto_update_key_cb,
  .delete_crypto_aead_ctx = ngtcp2_crypto_delete_crypto_aead_ctx_cb,
  .delete_crypto_cipher_ctx = ngtcp2_crypto_delete_crypto_cipher_ctx_cb,
  .get_path_challenge_data = ngtcp2_crypto_get_path_challenge_data_cb,
  .version_negotiation = ngtcp2_crypto_version_negotiation_cb,
};

static ngtcp2_transport_params parameters(const ngtcp2_cid *first) {
  ngtcp2_transport_params told;
  ngtcp2_transport_params_default(&told);
  told.initial_max_data = 20000, told.max_idle_timeout = 30 * NGTCP2_SECONDS, told.active_connection_id_limit = 4;
  told.initial_max_stream_data_bidi_local = told.initial_max_stream_data_bidi_remote = told.initial_max_stream_data_uni = 8192;
  told.initial_max_streams_bidi = told.initial_max_streams_uni = 16;
  told.original_dcid = *first;
  return told;
}

static int start_tls(struct served *served) {
  gnutls_datum_t alpn = {(unsigned char *)"gotsavena-raw", 13};
  const char *priority = "NORMAL:-VERS-ALL:+VERS-TLS1.3:-CIPHER-ALL:+AES-128-GCM:+AES-256-GCM:+CHACHA20-POLY1305:%DISABLE_TLS13_COMPAT_MODE";
  if (gnutls_init(&served->tls, GNUTLS_SERVER | GNUTLS_NO_AUTO_SEND_TICKET | GNUTLS_NO_END_OF_EARLY_DATA) < 0) return -1;
  if (gnutls_priority_set_direct(served->tls, priority, NULL) < 0 || gnutls_credentials_set(served->tls, GNUTLS_CRD_CERTIFICATE, credentials) < 0) return -1;
  if (ngtcp2_crypto_gnutls_configure_server_session(served->tls) != 0) return -1;
  gnutls_session_set_ptr(served->tls, &served->ref);
  ngtcp2_conn_set_tls_native_handle(served->conn, served->tls);
  return gnutls_alpn_set_protocols(served->tls, &alpn, 1, GNUTLS_ALPN_MANDATORY);
}

static ngtcp2_path path_of(struct served *served) {
  return (ngtcp2_path){{(ngtcp2_sockaddr *)&own, sizeof own}, {(ngtcp2_sockaddr *)&served->peer, sizeof served->peer}, NULL};
}

static void end(struct served *served) {
  table[ntohs(served->peer.sin_port)] = NULL;
  if (served->conn) ngtcp2_conn_del(served->conn);
  if (served->tls) gnutls_deinit(served->tls);
  free(served);
}

static struct served *begin(const uint8_t *bytes, size_t len, const struct sockaddr_in *peer) {
  ngtcp2_pkt_hd head;
  ngtcp2_settings settings;
  ngtcp2_cid id = {8, {0}};
  if (ngtcp2_accept(&head, bytes, len) != 0) return NULL;
  struct served *served = calloc(1, sizeof *served);
  if (!served) return NULL;
  served->peer = *peer, served->ref = (ngtcp2_crypto_conn_ref){conn_of, served};
  table[ntohs(peer->sin_port)] = served;
  ngtcp2_settings_default(&settings);
  settings.initial_ts = now(), settings.no_pmtud = 1;
  settings.max_window = 20000, settings.max_stream_window = 8192;
  gnutls_rnd(GNUTLS_RND_RANDOM, id.data, id.datalen);
  ngtcp2_transport_params told = parameters(&head.dcid);
  ngtcp2_path path = path_of(served);
  if (ngtcp2_conn_server_new(&served->conn, &head.scid, &id, &path, head.version, &callbacks, &settings, &told, NULL, served) != 0) served->conn = NULL;
  if (served->conn && start_tls(served) == 0) return served;
  end(served);
  return NULL;
}

static void out(const struct served *served, const uint8_t *bytes, ngtcp2_ssize len) {
  sendto(sock.fd, bytes, (size_t)len, 0, (const struct sockaddr *)&served->peer, sizeof served->peer);
}

/* Its packets behind the close are of no connection. */
static void fail(struct served *served, int why) {
  uint8_t bytes[DATAGRAM];
  ngtcp2_connection_close_error close = {0};
  ngtcp2_connection_close_error_set_transport_error_liberr(&close, why, NULL, 0);
  ngtcp2_ssize len = ngtcp2_conn_write_connection_close(served->conn, NULL, NULL, bytes, sizeof bytes, &close, now());
  if (len > 0) out(served, bytes, len);
  end(served);
}

/* What is blocked is left where it is. */
static void flush(struct served *served) {
  uint8_t bytes[DATAGRAM];
  for (size_t at = 0, turns = 0; turns < TURNS + MOST_ITEMS; turns++) {
    struct item none = {-1, NULL, 0, 0}, *item = at < served->count ? &served->items[at] : &none;
    ngtcp2_ssize took = -1, len = ngtcp2_conn_write_stream(served->conn, NULL, NULL, bytes, sizeof bytes, &took, item->flags, item->stream, (const uint8_t *)item->bytes, item->len, now());
    int is_gone = len == NGTCP2_ERR_STREAM_SHUT_WR || len == NGTCP2_ERR_STREAM_NOT_FOUND;
    if (took > 0) item->bytes += took, item->len -= (size_t)took;
    if (is_gone || (took >= 0 && item->len == 0)) *item = served->items[--served->count];
    if (len == NGTCP2_ERR_STREAM_DATA_BLOCKED) at++;
    else if (len < 0 && !is_gone) { fail(served, (int)len); return; }
    else if (len == 0) return;
    else if (len > 0) out(served, bytes, len);
  }
}

static void take(uint8_t *bytes, size_t len, const struct sockaddr_in *peer) {
  struct served *served = table[ntohs(peer->sin_port)];
  ngtcp2_pkt_info info = {0};
  if (!served && !(served = begin(bytes, len, peer))) return;
  ngtcp2_path path = path_of(served);
  int why = ngtcp2_conn_read_pkt(served->conn, &path, &info, bytes, len, now());
  if (why == NGTCP2_ERR_DRAINING) end(served);
  else if (why != 0) fail(served, why);
  else flush(served);
}

/* Where nothing came for too long the connection is forgotten. */
static void time_is_up(struct served *served) {
  if (ngtcp2_conn_handle_expiry(served->conn, now()) != 0) end(served);
  else flush(served);
}

int main(int argc, char **argv) {
  if (argc != 4) return fprintf(stderr, "usage: ngtcp2-sink PORT CERTIFICATE.pem KEY.pem\n"), 2;
  if (gnutls_certificate_allocate_credentials(&credentials) < 0) return 1;
  if (gnutls_certificate_set_x509_key_file(credentials, argv[2], argv[3], GNUTLS_X509_FMT_PEM) < 0) return fprintf(stderr, "%s or %s can't be read\n", argv[2], argv[3]), 1;
  sock.fd = socket(AF_INET, SOCK_DGRAM, 0);
  own = (struct sockaddr_in){.sin_family = AF_INET, .sin_port = htons((uint16_t)atoi(argv[1])), .sin_addr = {htonl(INADDR_LOOPBACK)}};
  if (sock.fd < 0 || bind(sock.fd, (struct sockaddr *)&own, sizeof own) != 0) return perror("bind"), 1;
  for (;; poll(&sock, 1, 2)) {
    for (int place = 0; place < TURNS; place++) {
      uint8_t bytes[65536];
      struct sockaddr_in peer;
      socklen_t size = sizeof peer;
      ssize_t len = recvfrom(sock.fd, bytes, sizeof bytes, MSG_DONTWAIT, (struct sockaddr *)&peer, &size);
      if (len < 0) break;
      take(bytes, (size_t)len, &peer);
    }
    for (size_t place = 0; place < MOST_PEERS; place++)
      if (table[place] && ngtcp2_conn_get_expiry(table[place]->conn) <= now()) time_is_up(table[place]);
  }
}
