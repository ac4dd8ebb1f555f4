#include "conn.h"

#include <string.h>

/* Lengths of the fields around a payload: connection ID, packet number and tag. */
enum { ID = 8, TAG = 16, IV = 12, LONGEST = 65536 };

static uint8_t no_iv[IV], no_secret[32];

/* The handshake's messages have no meaning. */
static const uint8_t said[] = {0x67, 0x6f};

static int encrypt(uint8_t *to, const ngtcp2_crypto_aead *aead, const ngtcp2_crypto_aead_ctx *key, const uint8_t *from, size_t len,
                   const uint8_t *nonce, size_t nonce_len, const uint8_t *beside, size_t beside_len) {
  (void)aead, (void)key, (void)nonce, (void)nonce_len, (void)beside, (void)beside_len;
  if (to != from) memmove(to, from, len);
  memset(to + len, 0, TAG);
  return 0;
}

static int decrypt(uint8_t *to, const ngtcp2_crypto_aead *aead, const ngtcp2_crypto_aead_ctx *key, const uint8_t *from, size_t len,
                   const uint8_t *nonce, size_t nonce_len, const uint8_t *beside, size_t beside_len) {
  (void)aead, (void)key, (void)nonce, (void)nonce_len, (void)beside, (void)beside_len;
  if (to != from) memmove(to, from, len - TAG);
  return 0;
}

static int mask(uint8_t *to, const ngtcp2_crypto_cipher *cipher, const ngtcp2_crypto_cipher_ctx *key, const uint8_t *sample) {
  (void)cipher, (void)key, (void)sample;
  memset(to, 0, 5);
  return 0;
}

static void drop_key(ngtcp2_conn *at, ngtcp2_crypto_aead_ctx *key, void *self) { (void)at, (void)key, (void)self; }

static void drop_cipher(ngtcp2_conn *at, ngtcp2_crypto_cipher_ctx *key, void *self) { (void)at, (void)key, (void)self; }

static void draw(uint8_t *to, size_t len, const ngtcp2_rand_ctx *context) {
  (void)context;
  memset(to, 7, len);
}

static int draw_challenge(ngtcp2_conn *at, uint8_t *to, void *self) {
  (void)at, (void)self;
  memset(to, 7, 8);
  return 0;
}

static int next_id(ngtcp2_conn *at, ngtcp2_cid *id, uint8_t *token, size_t len, void *self) {
  static uint8_t count;
  (void)at, (void)self;
  memset(id->data, ++count, len);
  id->datalen = len;
  memset(token, count, NGTCP2_STATELESS_RESET_TOKENLEN);
  return 0;
}

/* At the end of the handshake ngtcp2 asks for the next keys, and refuses a null. */
static int next_keys(ngtcp2_conn *at, uint8_t *rx, uint8_t *tx, ngtcp2_crypto_aead_ctx *rx_key, uint8_t *rx_iv,
                     ngtcp2_crypto_aead_ctx *tx_key, uint8_t *tx_iv, const uint8_t *old_rx, const uint8_t *old_tx, size_t len,
                     void *self) {
  (void)at, (void)old_rx, (void)old_tx, (void)self;
  memset(rx, 0, len);
  memset(tx, 0, len);
  memset(rx_iv, 0, IV);
  memset(tx_iv, 0, IV);
  rx_key->native_handle = tx_key->native_handle = no_secret;
  return 0;
}

static int no_retry(ngtcp2_conn *at, const ngtcp2_pkt_hd *header, void *self) {
  (void)at, (void)header, (void)self;
  return NGTCP2_ERR_CALLBACK_FAILURE;
}

static ngtcp2_crypto_ctx protection(void) {
  ngtcp2_crypto_ctx context;
  memset(&context, 0, sizeof context);
  context.aead.max_overhead = TAG;
  context.max_encryption = context.max_decryption_failure = UINT64_C(1) << 60;
  return context;
}

/* A key that isn't null, which ngtcp2 would refuse. */
static ngtcp2_crypto_aead_ctx key(void) {
  ngtcp2_crypto_aead_ctx context = {no_secret};
  return context;
}

static ngtcp2_crypto_cipher_ctx cipher(void) {
  ngtcp2_crypto_cipher_ctx context = {no_secret};
  return context;
}

static int install_initial(ngtcp2_conn *at) {
  ngtcp2_crypto_ctx context = protection();
  ngtcp2_crypto_aead_ctx rx = key(), tx = key();
  ngtcp2_crypto_cipher_ctx rx_mask = cipher(), tx_mask = cipher();
  ngtcp2_conn_set_initial_crypto_ctx(at, &context);
  return ngtcp2_conn_install_initial_key(at, &rx, no_iv, &rx_mask, &tx, no_iv, &tx_mask, IV);
}

static void install_handshake(ngtcp2_conn *at) {
  ngtcp2_crypto_ctx context = protection();
  ngtcp2_crypto_aead_ctx rx = key(), tx = key();
  ngtcp2_crypto_cipher_ctx rx_mask = cipher(), tx_mask = cipher();
  ngtcp2_conn_set_crypto_ctx(at, &context);
  want(ngtcp2_conn_install_rx_handshake_key(at, &rx, no_iv, IV, &rx_mask) == 0, "no key of the handshake to read");
  want(ngtcp2_conn_install_tx_handshake_key(at, &tx, no_iv, IV, &tx_mask) == 0, "no key of the handshake to write");
}

static void install_last(ngtcp2_conn *at) {
  ngtcp2_crypto_aead_ctx rx = key(), tx = key();
  ngtcp2_crypto_cipher_ctx rx_mask = cipher(), tx_mask = cipher();
  want(ngtcp2_conn_install_rx_key(at, no_secret, sizeof no_secret, &rx, no_iv, IV, &rx_mask) == 0, "no key to read");
  want(ngtcp2_conn_install_tx_key(at, no_secret, sizeof no_secret, &tx, no_iv, IV, &tx_mask) == 0, "no key to write");
}

static void say(ngtcp2_conn *at, ngtcp2_crypto_level level) {
  want(ngtcp2_conn_submit_crypto_data(at, level, said, sizeof said) == 0, "nothing can be said in the handshake");
}

/* There is no TLS that would bring the peer's transport parameters, so they are copied from the peer's connection. */
static void take_terms(struct conn *conn) {
  uint8_t terms[1024];
  ngtcp2_ssize len = ngtcp2_conn_encode_local_transport_params(conn->peer->at, terms, sizeof terms);
  want(len > 0, "the parameters can't be told");
  want(ngtcp2_conn_decode_remote_transport_params(conn->at, terms, (size_t)len) == 0, "the peer's parameters are refused");
}

static int client_begins(ngtcp2_conn *at, void *self) {
  (void)self;
  want(install_initial(at) == 0, "no initial keys");
  say(at, NGTCP2_CRYPTO_LEVEL_INITIAL);
  return 0;
}

static int server_begins(ngtcp2_conn *at, const ngtcp2_cid *id, void *self) {
  (void)id, (void)self;
  return install_initial(at);
}

/* The server replies to the client's first message with two of its own, and the client replies to these. */
static int hear(ngtcp2_conn *at, ngtcp2_crypto_level level, uint64_t offset, const uint8_t *bytes, size_t len, void *self) {
  struct conn *conn = self;
  (void)offset, (void)bytes, (void)len;
  if (level == NGTCP2_CRYPTO_LEVEL_INITIAL) {
    install_handshake(at);
    if (!conn->is_server) return 0;
    take_terms(conn);
    say(at, NGTCP2_CRYPTO_LEVEL_INITIAL);
    say(at, NGTCP2_CRYPTO_LEVEL_HANDSHAKE);
    install_last(at);
  } else if (level == NGTCP2_CRYPTO_LEVEL_HANDSHAKE) {
    if (!conn->is_server) {
      take_terms(conn);
      say(at, NGTCP2_CRYPTO_LEVEL_HANDSHAKE);
      install_last(at);
    }
    ngtcp2_conn_handshake_completed(at);
  }
  return 0;
}

static int came(ngtcp2_conn *at, uint32_t flags, int64_t stream, uint64_t offset, const uint8_t *bytes, size_t len, void *self,
                void *stream_self) {
  struct conn *conn = self;
  (void)flags, (void)stream_self;
  if (conn->owner.came != NULL) conn->owner.came(conn->owner.self, stream, offset, bytes, len);
  ngtcp2_conn_extend_max_offset(at, len);
  return ngtcp2_conn_extend_max_stream_offset(at, stream, len);
}

static int acked(ngtcp2_conn *at, int64_t stream, uint64_t offset, uint64_t len, void *self, void *stream_self) {
  struct conn *conn = self;
  (void)at, (void)stream_self;
  if (conn->owner.acked != NULL) conn->owner.acked(conn->owner.self, stream, offset + len);
  return 0;
}

static ngtcp2_callbacks callbacks(void) {
  ngtcp2_callbacks calls;
  memset(&calls, 0, sizeof calls);
  calls.client_initial = client_begins;
  calls.recv_client_initial = server_begins;
  calls.recv_crypto_data = hear;
  calls.encrypt = encrypt;
  calls.decrypt = decrypt;
  calls.hp_mask = mask;
  calls.recv_stream_data = came;
  calls.acked_stream_data_offset = acked;
  calls.recv_retry = no_retry;
  calls.rand = draw;
  calls.get_new_connection_id = next_id;
  calls.update_key = next_keys;
  calls.delete_crypto_aead_ctx = drop_key;
  calls.delete_crypto_cipher_ctx = drop_cipher;
  calls.get_path_challenge_data = draw_challenge;
  return calls;
}

static ngtcp2_settings settings(const struct conns *conns, const struct terms *terms) {
  ngtcp2_settings settings;
  ngtcp2_settings_default(&settings);
  settings.initial_ts = conns->time;
  settings.max_tx_udp_payload_size = terms->packet;
  settings.no_tx_udp_payload_size_shaping = settings.no_pmtud = 1;
  settings.ack_thresh = terms->ack_after;
  return settings;
}

static ngtcp2_transport_params parameters(const struct terms *terms) {
  ngtcp2_transport_params params;
  ngtcp2_transport_params_default(&params);
  params.initial_max_data = terms->conn_window;
  params.initial_max_stream_data_bidi_local = params.initial_max_stream_data_bidi_remote = terms->window;
  params.initial_max_stream_data_uni = terms->window;
  params.initial_max_streams_bidi = params.initial_max_streams_uni = 4096;
  return params;
}

static ngtcp2_path *path(void) {
  static ngtcp2_sockaddr_in place;
  static ngtcp2_path path;
  place.sin_family = 2;
  path.local.addr = path.remote.addr = (ngtcp2_sockaddr *)&place;
  path.local.addrlen = path.remote.addrlen = sizeof place;
  return &path;
}

size_t make_packet(struct conns *conns, struct conn *conn, uint8_t *packet, size_t room, int64_t stream, const uint8_t *bytes,
                   size_t len, size_t *taken) {
  ngtcp2_ssize in = -1;
  ngtcp2_pkt_info info;
  ngtcp2_ssize made = ngtcp2_conn_write_stream(conn->at, NULL, &info, packet, room, &in, NGTCP2_WRITE_STREAM_FLAG_NONE, stream,
                                               bytes, len, conns->time);
  *taken = in > 0 ? (size_t)in : 0;
  if (made == NGTCP2_ERR_STREAM_DATA_BLOCKED) return 0;
  want(made >= 0, "a packet can't be made");
  return (size_t)made;
}

void take_packet(struct conns *conns, struct conn *conn, const uint8_t *packet, size_t len) {
  ngtcp2_pkt_info info;
  memset(&info, 0, sizeof info);
  want(ngtcp2_conn_read_pkt(conn->at, path(), &info, packet, len, conns->time) == 0, "an honest packet is refused");
}

/* Delivers all that one endpoint has to send to the other, and returns the number of packets. */
static size_t hand_on(struct conns *conns, struct conn *from) {
  uint8_t packet[LONGEST];
  size_t count = 0, taken = 0, len;
  while ((len = make_packet(conns, from, packet, 1200, -1, NULL, 0, &taken)) > 0) {
    take_packet(conns, from->peer, packet, len);
    ++count;
  }
  return count;
}

void conns_new(struct conns *conns, const struct terms *terms) {
  ngtcp2_cid ids[2];
  for (uint8_t i = 0; i < 2; ++i) {
    uint8_t bytes[ID] = {i};
    ngtcp2_cid_init(&ids[i], bytes, ID);
  }
  conns->time = UINT64_C(1000000000);
  conns->client.is_server = false;
  conns->server.is_server = true;
  conns->client.peer = &conns->server;
  conns->server.peer = &conns->client;
  ngtcp2_callbacks calls = callbacks();
  ngtcp2_settings set = settings(conns, terms);
  ngtcp2_transport_params params = parameters(terms);
  want(ngtcp2_conn_client_new(&conns->client.at, &ids[1], &ids[0], path(), NGTCP2_PROTO_VER_V1, &calls, &set, &params, NULL,
                              &conns->client) == 0,
       "no client can be made");
  params.original_dcid = ids[1];
  want(ngtcp2_conn_server_new(&conns->server.at, &ids[0], &ids[1], path(), NGTCP2_PROTO_VER_V1, &calls, &set, &params, NULL,
                              &conns->server) == 0,
       "no server can be made");
  while (hand_on(conns, &conns->client) + hand_on(conns, &conns->server) > 0) conns->time += 1000000;
  want(ngtcp2_conn_get_handshake_completed(conns->client.at) && ngtcp2_conn_get_handshake_completed(conns->server.at),
       "the handshake isn't over");
}

void conns_free(struct conns *conns) {
  ngtcp2_conn_del(conns->client.at);
  ngtcp2_conn_del(conns->server.at);
}
