/* ngtcp2-replay VECTORS.tsv known.toml: replays the test vectors of a server at connections of libngtcp2, without network and cryptography:
   over keys that do nothing two packets are a handshake, and each payload comes in a packet behind it. The last line is 'N vectors, M
   differ, K as known'. */
#include <netinet/in.h>
#include <ngtcp2/ngtcp2.h>
#include <ngtcp2/ngtcp2_crypto.h>
#include <stdio.h>
#include <stdlib.h>
#include <string.h>

enum { LINE = 1 << 17, PACKET = 1 << 16, DATAGRAM = 1200, TAG = 16, ID = 8, SECRET = 32, IV = 12, INITIAL = 0xc3, HANDSHAKE = 0xe3, SHORT = 0x43 };
static char line[LINE], known[PACKET];
static uint8_t packet[PACKET], payload[PACKET];
static const uint8_t secret[SECRET], version[] = {0, 0, 0, 1, ID};
static struct sockaddr_in place = {.sin_family = AF_INET};
static const ngtcp2_path path = {{(ngtcp2_sockaddr *)&place, sizeof place}, {(ngtcp2_sockaddr *)&place, sizeof place}, NULL};
static const ngtcp2_cid client = {ID, {1}}, first = {ID, {2}}, server = {ID, {3}};
static const ngtcp2_crypto_ctx plain = {.aead = {NULL, TAG}, .max_encryption = UINT64_MAX, .max_decryption_failure = UINT64_MAX};
static const ngtcp2_crypto_aead_ctx aead;
static const ngtcp2_crypto_cipher_ctx cipher;

static void need(int holds, const char *what) {
  if (!holds) fprintf(stderr, "ngtcp2-replay: %s\n", what), exit(1);
}

/* The tag behind a text is of no account. */
static int copy(uint8_t *to, const ngtcp2_crypto_aead *by, const ngtcp2_crypto_aead_ctx *key, const uint8_t *text, size_t len, const uint8_t *nonce, size_t nonce_len, const uint8_t *head, size_t head_len) {
  return (void)by, (void)key, (void)nonce, (void)nonce_len, (void)head, (void)head_len, memmove(to, text, len), 0;
}
static int mask(uint8_t *to, const ngtcp2_crypto_cipher *by, const ngtcp2_crypto_cipher_ctx *key, const uint8_t *sample) {
  return (void)by, (void)key, (void)sample, memset(to, 0, NGTCP2_HP_MASKLEN), 0;
}
static int next_keys(ngtcp2_conn *conn, uint8_t *rx_secret, uint8_t *tx_secret, ngtcp2_crypto_aead_ctx *rx, uint8_t *rx_iv, ngtcp2_crypto_aead_ctx *tx, uint8_t *tx_iv, const uint8_t *old_rx, const uint8_t *old_tx, size_t len, void *user) {
  return (void)conn, (void)rx_secret, (void)tx_secret, (void)rx_iv, (void)tx_iv, (void)old_rx, (void)old_tx, (void)len, (void)user, *rx = *tx = aead, 0;
}

static int begins(ngtcp2_conn *conn, const ngtcp2_cid *id, void *user) {
  (void)id, (void)user, ngtcp2_conn_set_initial_crypto_ctx(conn, &plain);
  return ngtcp2_conn_install_initial_key(conn, &aead, secret, &cipher, &aead, secret, &cipher, IV);
}

/* The bytes of the client's Initial are its parameters alone, and those behind it end the handshake. */
static int shakes_hands(ngtcp2_conn *conn, ngtcp2_crypto_level level, uint64_t offset, const uint8_t *bytes, size_t len, void *user) {
  int failed = 0;
  ngtcp2_conn_set_crypto_ctx(conn, &plain);
  if (level == NGTCP2_CRYPTO_LEVEL_INITIAL) {
    failed = ngtcp2_conn_decode_remote_transport_params(conn, bytes, len) || ngtcp2_conn_install_rx_handshake_key(conn, &aead, secret, IV, &cipher)
      || ngtcp2_conn_install_tx_handshake_key(conn, &aead, secret, IV, &cipher) || ngtcp2_conn_submit_crypto_data(conn, level, secret, 1);
  } else {
    ngtcp2_conn_handshake_completed(conn);
    failed = ngtcp2_conn_install_tx_key(conn, secret, SECRET, &aead, secret, IV, &cipher) || ngtcp2_conn_install_rx_key(conn, secret, SECRET, &aead, secret, IV, &cipher);
  }
  return (void)offset, (void)user, failed ? NGTCP2_ERR_CALLBACK_FAILURE : 0;
}

/* The application reads all where the vector says so. */
static int came(ngtcp2_conn *conn, uint32_t flags, int64_t stream, uint64_t offset, const uint8_t *bytes, size_t len, void *reads, void *own) {
  if (*(int *)reads) ngtcp2_conn_extend_max_stream_offset(conn, stream, len), ngtcp2_conn_extend_max_offset(conn, len);
  return (void)flags, (void)offset, (void)bytes, (void)own, 0;
}

static void random_bytes(uint8_t *to, size_t len, const ngtcp2_rand_ctx *context) { (void)context, memset(to, 9, len); }
static int new_id(ngtcp2_conn *conn, ngtcp2_cid *id, uint8_t *token, size_t len, void *user) {
  static uint8_t next;
  return (void)conn, (void)user, memset(id->data, ++next, id->datalen = len), memset(token, next, NGTCP2_STATELESS_RESET_TOKENLEN), 0;
}

/* A packet with four bytes for its number. */
static int give(ngtcp2_conn *conn, uint8_t byte, uint64_t number, size_t len) {
  ngtcp2_pkt_info info = {0};
  size_t at = 1, whole = 4 + len + TAG;
  packet[0] = byte;
  if (byte != SHORT) memcpy(packet + at, version, sizeof version), at += sizeof version;
  memcpy(packet + at, byte == INITIAL ? first.data : server.data, ID), at += ID;
  if (byte != SHORT) packet[at] = ID, memcpy(packet + at + 1, client.data, ID), at += 1 + ID;
  if (byte == INITIAL) packet[at++] = 0;
  if (byte != SHORT) packet[at++] = (uint8_t)(0x40 | whole >> 8), packet[at++] = (uint8_t)whole;
  for (int shift = 24; shift >= 0; shift -= 8) packet[at++] = (uint8_t)(number >> shift);
  memcpy(packet + at, payload, len), memset(packet + at + len, 0, TAG);
  return ngtcp2_conn_read_pkt(conn, &path, &info, packet, at + len + TAG, NGTCP2_SECONDS);
}

static ngtcp2_transport_params limits(uint64_t data, uint64_t stream, uint64_t streams) {
  ngtcp2_transport_params told;
  ngtcp2_transport_params_default(&told);
  told.original_dcid = first, told.initial_scid = client, told.active_connection_id_limit = 4;
  told.initial_max_data = data, told.initial_max_streams_bidi = told.initial_max_streams_uni = streams;
  told.initial_max_stream_data_bidi_local = told.initial_max_stream_data_bidi_remote = told.initial_max_stream_data_uni = stream;
  return told;
}

/* That opened a stream of either direction, and sent "hi" on each, in one packet. */
static ngtcp2_conn *connection(int *reads) {
  static const ngtcp2_callbacks calls = {
    .recv_client_initial = begins, .recv_crypto_data = shakes_hands, .encrypt = copy, .decrypt = copy, .hp_mask = mask, .update_key = next_keys,
    .recv_stream_data = came, .rand = random_bytes, .get_new_connection_id = new_id, .delete_crypto_aead_ctx = ngtcp2_crypto_delete_crypto_aead_ctx_cb,
    .delete_crypto_cipher_ctx = ngtcp2_crypto_delete_crypto_cipher_ctx_cb, .get_path_challenge_data = ngtcp2_crypto_get_path_challenge_data_cb,
    .version_negotiation = ngtcp2_crypto_version_negotiation_cb,
  };
  ngtcp2_transport_params own = limits(20000, 8192, 16), peer = limits(1 << 20, 1 << 18, 100);
  ngtcp2_conn *conn;
  ngtcp2_settings settings;
  ngtcp2_settings_default(&settings);
  need(!ngtcp2_conn_server_new(&conn, &client, &server, &path, NGTCP2_PROTO_VER_V1, &calls, &settings, &own, NULL, reads), "no connection");
  memset(payload, 0, DATAGRAM);
  ngtcp2_ssize len = ngtcp2_encode_transport_params(payload + 4, DATAGRAM - 4, NGTCP2_TRANSPORT_PARAMS_TYPE_CLIENT_HELLO, &peer);
  memcpy(payload, (const uint8_t[]){0x06, 0, (uint8_t)(0x40 | len >> 8), (uint8_t)len}, 4);
  need(len > 0 && !give(conn, INITIAL, 0, DATAGRAM), "no Initial");
  memcpy(payload, "\x06\x00\x01", 4), need(!give(conn, HANDSHAKE, 0, 4), "no handshake");
  for (int is_uni = 0; is_uni < 2; is_uni++) {
    int64_t stream;
    ngtcp2_ssize took;
    need(!(is_uni ? ngtcp2_conn_open_uni_stream : ngtcp2_conn_open_bidi_stream)(conn, &stream, NULL), "no stream");
    ngtcp2_conn_write_stream(conn, NULL, NULL, packet, DATAGRAM, &took, is_uni ? 0 : NGTCP2_WRITE_STREAM_FLAG_MORE, stream, (const uint8_t *)"hi", 2, NGTCP2_SECONDS);
    need(took == 2, "no bytes of a stream go");
  }
  return conn;
}

/* Whether what comes of NUMBER:HEX:PERMITTED is permitted; a generic code may stand for any other (RFC 9000, section 11). */
static int is_permitted(ngtcp2_conn *conn, char *cell) {
  char *hex = strchr(cell, ':') + 1, *permitted = strchr(hex, ':') + 1, out[24] = "on", *word;
  size_t len = 0;
  while (sscanf(hex + 2 * len, "%2hhx", &payload[len]) == 1) len++;
  int why = give(conn, SHORT, strtoull(cell, NULL, 10), len), found = 0;
  unsigned long long code = ngtcp2_err_infer_quic_transport_error_code(why);
  if (why && why != NGTCP2_ERR_DRAINING) snprintf(out, sizeof out, "%llu", code);
  while ((word = strsep(&permitted, ","))) found |= strcmp(word, out) == 0 || (*out != 'o' && *word != 'o' && (code == 1 || code == 10));
  return found;
}

int main(int argc, char **argv) {
  unsigned count = 0, differ = 0, expected = 0;
  FILE *vectors = argc == 3 ? fopen(argv[1], "r") : NULL, *rows = argc == 3 ? fopen(argv[2], "r") : NULL;
  need(vectors && rows && fread(known, 1, sizeof known - 1, rows) > 0, "usage: ngtcp2-replay VECTORS.tsv known.toml");
  while (fgets(line, sizeof line, vectors)) {
    char *rest = line, *role = strsep(&rest, "\t"), *name = strsep(&rest, "\t"), *cell, row[256];
    int reads = strncmp(strchr(rest, '\t'), "\t1", 2) == 0, permitted = 1;
    if (*role != 's') continue;
    ngtcp2_conn *conn = connection(&reads);
    for (strsep(&rest, "\t"), strsep(&rest, "\t\n"); permitted && (cell = strsep(&rest, "\t\n")) && *cell;) permitted = is_permitted(conn, cell);
    ngtcp2_conn_del(conn);
    snprintf(row, sizeof row, "server = \"ngtcp2\"\ncase = \"%s\"\n", name);
    int is_known = strstr(known, row) != NULL;
    count++, expected += !permitted && is_known, differ += permitted == is_known;
    if (permitted == is_known) printf("%s: %s\n", name, permitted ? "a known difference is gone" : "differs");
  }
  printf("%u vectors, %u differ, %u as known\n", count, differ, expected);
  return differ != 0;
}
