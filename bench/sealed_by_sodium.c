/* Records sealed and opened by libsodium's BLAKE2b, XChaCha20, base64 and comparison. JSON is not parsed: the texts have
   to have the very form that sodium_seal writes. */
#include "sealed_by_sodium.h"

#include <inttypes.h>
#include <sodium.h>
#include <stdio.h>
#include <stdlib.h>
#include <string.h>

enum { NONCE = 32, TAG = 32, SECRETS = 56, WRAP_BODY = TAG + NONCE + KEY, WRAP = 146 };

#define URL_SAFE sodium_base64_VARIANT_URLSAFE_NO_PADDING

static const char token_header[] = "v4.local.", wrap_header[] = "k4.local-wrap.pie.", id_header[] = "k4.lid.";
static const char message_before[] = "{\"data\":\"", message_after[] = "\"}";
static const char wrap_before[] = "{\"wpk\":\"", id_before[] = "\",\"kid\":\"";

#define LENGTH(text) (sizeof(text) - 1)

static size_t base64_length(size_t bytes) { return (4 * bytes + 2) / 3; }

/* The hash of two pieces one after another. */
static void hash_two(uint8_t *out, size_t out_len, const uint8_t *key, size_t key_len, const void *first, size_t first_len,
                     const void *second, size_t second_len) {
    crypto_generichash_state state;
    crypto_generichash_init(&state, key, key_len, out_len);
    crypto_generichash_update(&state, first, first_len);
    crypto_generichash_update(&state, second, second_len);
    crypto_generichash_final(&state, out, out_len);
}

static void apply_cipher(const uint8_t secrets[SECRETS], uint8_t *text, size_t len) {
    crypto_stream_xchacha20_xor(text, text, len, secrets + KEY, secrets);
}

static void update_piece(crypto_generichash_state *state, const void *piece, uint64_t len) {
    crypto_generichash_update(state, (const uint8_t *)&len, sizeof len); /* a little-endian processor */
    crypto_generichash_update(state, piece, len);
}

static void token_tag(uint8_t tag[TAG], const uint8_t *key, const uint8_t *nonce, const uint8_t *cipher, size_t cipher_len,
                      const char *assertion, size_t assertion_len) {
    static const char purpose[] = "paseto-auth-key-for-aead";
    uint8_t auth_key[32];
    hash_two(auth_key, sizeof auth_key, key, KEY, purpose, LENGTH(purpose), nonce, NONCE);
    crypto_generichash_state state;
    uint64_t pieces = 5;
    crypto_generichash_init(&state, auth_key, sizeof auth_key, TAG);
    crypto_generichash_update(&state, (const uint8_t *)&pieces, sizeof pieces);
    update_piece(&state, token_header, LENGTH(token_header));
    update_piece(&state, nonce, NONCE);
    update_piece(&state, cipher, cipher_len);
    update_piece(&state, "", 0);
    update_piece(&state, assertion, assertion_len);
    crypto_generichash_final(&state, tag, TAG);
}

static void token_secrets(uint8_t secrets[SECRETS], const uint8_t *key, const uint8_t *nonce) {
    static const char purpose[] = "paseto-encryption-key";
    hash_two(secrets, SECRETS, key, KEY, purpose, LENGTH(purpose), nonce, NONCE);
}

static void wrap_secrets(uint8_t secrets[SECRETS], const uint8_t *by, const uint8_t *nonce) {
    hash_two(secrets, SECRETS, by, KEY, "\x80", 1, nonce, NONCE);
}

static void wrap_tag(uint8_t tag[TAG], const uint8_t *by, const uint8_t *nonce, const uint8_t *cipher) {
    uint8_t auth_key[32];
    hash_two(auth_key, sizeof auth_key, by, KEY, "\x81", 1, nonce, NONCE);
    crypto_generichash_state state;
    crypto_generichash_init(&state, auth_key, sizeof auth_key, TAG);
    crypto_generichash_update(&state, (const uint8_t *)wrap_header, LENGTH(wrap_header));
    crypto_generichash_update(&state, nonce, NONCE);
    crypto_generichash_update(&state, cipher, KEY);
    crypto_generichash_final(&state, tag, TAG);
}

static size_t assertion_of(char *out, size_t room, uint64_t idx) {
    return snprintf(out, room,
                    "{\"id\":\"00000000-0000-0000-0000-000000000001\",\"idx\":%" PRIu64
                    ",\"version\":\"v0\",\"tag\":\"history\",\"host\":\"00000000-0000-0000-0000-000000000001\"}",
                    idx);
}

void sodium_key_id(char id[KEY_ID + 1], const uint8_t *key) {
    char coded[64];
    uint8_t hash[33];
    sodium_bin2base64(coded, sizeof coded, key, KEY, URL_SAFE);
    crypto_generichash_state state;
    crypto_generichash_init(&state, NULL, 0, sizeof hash);
    crypto_generichash_update(&state, (const uint8_t *)id_header, LENGTH(id_header));
    crypto_generichash_update(&state, (const uint8_t *)"k4.local.", 9);
    crypto_generichash_update(&state, (const uint8_t *)coded, base64_length(KEY));
    crypto_generichash_final(&state, hash, sizeof hash);
    memcpy(id, id_header, LENGTH(id_header));
    sodium_bin2base64(id + LENGTH(id_header), KEY_ID + 1 - LENGTH(id_header), hash, sizeof hash, URL_SAFE);
}

static uint8_t *append(uint8_t *at, const void *bytes, size_t len) {
    memcpy(at, bytes, len);
    return at + len;
}

static uint8_t *append_base64(uint8_t *at, const uint8_t *bytes, size_t len) {
    size_t coded = base64_length(len);
    sodium_bin2base64((char *)at, coded + 1, bytes, len, URL_SAFE);
    return at + coded;
}

uint64_t sodium_seal(const uint8_t *key, const char *id, const uint8_t *drawn, uint64_t idx, const uint8_t *payload,
                     size_t payload_len, uint8_t *out, size_t out_len) {
    const uint8_t *content_key = drawn, *nonce = drawn + KEY, *wrap_nonce = nonce + NONCE;
    size_t message_len = LENGTH(message_before) + base64_length(payload_len) + LENGTH(message_after);
    size_t body_len = NONCE + message_len + TAG;
    size_t sealed_len = LENGTH(token_header) + base64_length(body_len);
    size_t wrapped_len = LENGTH(wrap_before) + WRAP + LENGTH(id_before) + KEY_ID + LENGTH(message_after);
    uint8_t *body = malloc(body_len + 1);
    if (!body || out_len < sealed_len + wrapped_len + 1) {
        free(body);
        return 0;
    }
    char assertion[256];
    size_t assertion_len = assertion_of(assertion, sizeof assertion, idx);
    uint8_t secrets[SECRETS];
    uint8_t *at = append(body, nonce, NONCE);
    at = append(at, message_before, LENGTH(message_before));
    at = append_base64(at, payload, payload_len);
    at = append(at, message_after, LENGTH(message_after));
    token_secrets(secrets, content_key, nonce);
    apply_cipher(secrets, body + NONCE, message_len);
    token_tag(at, content_key, nonce, body + NONCE, message_len, assertion, assertion_len);
    uint8_t *end = append(out, token_header, LENGTH(token_header));
    end = append_base64(end, body, body_len);
    free(body);

    uint8_t wrap[WRAP_BODY];
    memcpy(wrap + TAG, wrap_nonce, NONCE);
    memcpy(wrap + TAG + NONCE, content_key, KEY);
    wrap_secrets(secrets, key, wrap_nonce);
    apply_cipher(secrets, wrap + TAG + NONCE, KEY);
    wrap_tag(wrap, key, wrap_nonce, wrap + TAG + NONCE);
    end = append(end, wrap_before, LENGTH(wrap_before));
    end = append(end, wrap_header, LENGTH(wrap_header));
    end = append_base64(end, wrap, sizeof wrap);
    end = append(end, id_before, LENGTH(id_before));
    end = append(end, id, KEY_ID);
    append(end, message_after, LENGTH(message_after));
    return (uint64_t)sealed_len << 32 | wrapped_len;
}

/* What stands behind a text that has to stand first; NULL where it doesn't. */
static const uint8_t *behind(const uint8_t *text, size_t len, const char *first, size_t first_len) {
    return text && len >= first_len && memcmp(text, first, first_len) == 0 ? text + first_len : NULL;
}

static int content_key_of(uint8_t content_key[KEY], const uint8_t *key, const char *id, const uint8_t *wrapped, size_t len) {
    const uint8_t *end = wrapped + len;
    const uint8_t *at = behind(wrapped, len, wrap_before, LENGTH(wrap_before));
    at = behind(at, end - at, wrap_header, LENGTH(wrap_header));
    size_t coded = base64_length(WRAP_BODY);
    if (!at || (size_t)(end - at) != coded + LENGTH(id_before) + KEY_ID + LENGTH(message_after))
        return 0;
    if (memcmp(at + coded, id_before, LENGTH(id_before)) || memcmp(at + coded + LENGTH(id_before), id, KEY_ID))
        return 0;
    uint8_t body[WRAP_BODY], tag[TAG], secrets[SECRETS];
    size_t body_len;
    if (sodium_base642bin(body, sizeof body, (const char *)at, coded, NULL, &body_len, NULL, URL_SAFE) || body_len != WRAP_BODY)
        return 0;
    wrap_tag(tag, key, body + TAG, body + TAG + NONCE);
    if (sodium_memcmp(tag, body, TAG))
        return 0;
    wrap_secrets(secrets, key, body + TAG);
    memcpy(content_key, body + TAG + NONCE, KEY);
    apply_cipher(secrets, content_key, KEY);
    return 1;
}

uint64_t sodium_unseal(const uint8_t *key, const char *id, uint64_t idx, const uint8_t *sealed, size_t sealed_len,
                       const uint8_t *wrapped, size_t wrapped_len, uint8_t *out, size_t out_len) {
    uint8_t content_key[KEY], tag[TAG], secrets[SECRETS];
    const uint8_t *coded = behind(sealed, sealed_len, token_header, LENGTH(token_header));
    if (!coded || !content_key_of(content_key, key, id, wrapped, wrapped_len))
        return 0;
    size_t coded_len = sealed_len - LENGTH(token_header), body_len = 0, payload_len = 0;
    uint8_t *body = malloc(coded_len / 4 * 3 + 3);
    if (!body)
        return 0;
    char assertion[256];
    size_t assertion_len = assertion_of(assertion, sizeof assertion, idx);
    int opened = sodium_base642bin(body, coded_len / 4 * 3 + 3, (const char *)coded, coded_len, NULL, &body_len, NULL, URL_SAFE) == 0;
    if (opened && body_len >= NONCE + TAG) {
        uint8_t *message = body + NONCE;
        size_t message_len = body_len - NONCE - TAG;
        token_tag(tag, content_key, body, message, message_len, assertion, assertion_len);
        if (sodium_memcmp(tag, message + message_len, TAG) == 0) {
            token_secrets(secrets, content_key, body);
            apply_cipher(secrets, message, message_len);
            const uint8_t *data = behind(message, message_len, message_before, LENGTH(message_before));
            size_t around = LENGTH(message_before) + LENGTH(message_after);
            if (data && message_len >= around)
                sodium_base642bin(out, out_len, (const char *)data, message_len - around, NULL, &payload_len, NULL, URL_SAFE);
        }
    }
    free(body);
    return payload_len;
}
