/*
 * The issuer's half as C functions: six that write a call with its MAC, and two that check an attestation. They stand in libissuer.a,
 * which `make issuer` makes; it links into one program with libtoken.a. They keep nothing and allocate nothing.
 */
#ifndef SKS_ISSUER_H
#define SKS_ISSUER_H

#include <stdbool.h>
#include <stddef.h>
#include <stdint.h>
#include <string.h>

#ifdef __cplusplus
extern "C" {
#endif

/* No call is longer: a buffer of so many bytes is never too short. */
#define SKS_LONGEST_CALL 16384

/* Bytes of a SessionKey, and of an attestation. */
#define SKS_SESSION_KEY 32
#define SKS_ATTESTATION 32

/* What the six return. */
enum sks_issued {
    /* The call stands in front of the buffer, *written is its length, and the bytes behind it are as they were. */
    SKS_ISSUED = 0,
    /* A field is out of the range that stands beside it below, the counter has no room for the call's uses, or the call would have more
     * than 16,384 bytes: the buffer is as it was, and *written is 0. */
    SKS_OUT_OF_RANGE = 16,
    /* The order is in range, and the buffer is shorter than its call: it is as it was, and *written is 0. */
    SKS_SHORT_BUFFER = 21
};

/* Who sets the PIN of a key: nobody, where it has no PIN policy; else the user or the issuer, as UserDefined of the policy says. */
enum sks_pin_kind { SKS_NO_PIN = 0, SKS_USER_PIN = 1, SKS_ISSUER_PIN = 2 };

/*
 * How often a call uses the MAC counter. The counter is 0 in a new session; whoever sends a call moves it on by the call's uses once the
 * store has answered with status 0, and with no other status. It must not pass 65,535.
 */
enum sks_uses {
    SKS_USES_CLOSE = 2,
    SKS_USES_PUK = 1,
    SKS_USES_POLICY = 1,
    SKS_USES_KEY = 2,
    SKS_USES_PATH = 1,
    SKS_USES_POST = 1
};

/*
 * Of the pointers below each stands for as many bytes as the length behind it says. None may be null, even where the length is 0, and
 * `out` and `written` must overlap with nothing else that is lent. Any bytes and numbers may be handed in. What range is taken of a field
 * stands beside it in the structs further down, which have the same names in the same order.
 */

/* Writes a call of method 3, closeProvisioningSession. */
uint8_t sks_build_close(uint32_t session, const uint8_t *session_key, size_t session_key_len, uint16_t counter,
                        const uint8_t *client_session_id, size_t client_session_id_len, const uint8_t *nonce, size_t nonce_len,
                        uint8_t *out, size_t out_len, size_t *written);

/* Writes a call of method 8, createPUKPolicy. */
uint8_t sks_build_puk(uint32_t session, const uint8_t *session_key, size_t session_key_len, uint16_t counter, const uint8_t *id,
                      size_t id_len, const uint8_t *encrypted_value, size_t encrypted_value_len, uint8_t format, uint8_t retry_limit,
                      uint8_t *out, size_t out_len, size_t *written);

/* Writes a call of method 9, createPINPolicy. */
uint8_t sks_build_policy(uint32_t session, const uint8_t *session_key, size_t session_key_len, uint16_t counter, const uint8_t *id,
                         size_t id_len, uint32_t puk, const uint8_t *puk_id, size_t puk_id_len, uint8_t user_defined,
                         uint8_t user_modifiable, uint8_t format, uint8_t retry_limit, uint8_t grouping, uint8_t patterns, uint8_t min,
                         uint8_t max, uint8_t input_method, uint8_t *out, size_t out_len, size_t *written);

/* Writes a call of method 10, createKeyEntry. */
uint8_t sks_build_key(uint32_t session, const uint8_t *session_key, size_t session_key_len, uint16_t counter, const uint8_t *id,
                      size_t id_len, const uint8_t *algorithm, size_t algorithm_len, const uint8_t *server_seed, size_t server_seed_len,
                      uint32_t policy, const uint8_t *policy_id, size_t policy_id_len, uint8_t pin_kind, const uint8_t *pin_value,
                      size_t pin_value_len, uint8_t pin_caching, uint8_t biometric_protection, uint8_t export_protection,
                      uint8_t delete_protection, uint8_t app_usage, const uint8_t *friendly_name, size_t friendly_name_len,
                      const uint8_t *key_algorithm, size_t key_algorithm_len, const uint8_t *key_parameters, size_t key_parameters_len,
                      uint16_t endorsed_algorithms, uint8_t *out, size_t out_len, size_t *written);

/* Writes a call of method 12, setCertificatePath. */
uint8_t sks_build_path(uint32_t session, const uint8_t *session_key, size_t session_key_len, uint16_t counter, uint32_t key,
                       const uint8_t *key_id, size_t key_id_len, const uint8_t *public_key, size_t public_key_len, uint8_t count,
                       const uint8_t *certificates, size_t certificates_len, uint8_t *out, size_t out_len, size_t *written);

/* Writes a call of method 50, postDeleteKey, or 51, postUnlockKey. */
uint8_t sks_build_post(uint32_t session, const uint8_t *session_key, size_t session_key_len, uint16_t counter, uint8_t method,
                       uint32_t key, const uint8_t *authorization, size_t authorization_len, uint8_t *out, size_t out_len,
                       size_t *written);

/*
 * Whether this is the attestation that answers a call of method 10 which was written at this counter, for that ID and the public key that
 * the chip made. The counter is the call's own, as it was before it moved on. False for a SessionKey or an attestation of another length
 * than 32, and for counter 65,535. All 32 bytes are looked at, whatever the first ones say.
 */
bool sks_check_key(const uint8_t *session_key, size_t session_key_len, uint16_t counter, const uint8_t *id, size_t id_len,
                   const uint8_t *public_key, size_t public_key_len, const uint8_t *attestation, size_t attestation_len);

/* The same for a call of method 3 with that nonce. */
bool sks_check_close(const uint8_t *session_key, size_t session_key_len, uint16_t counter, const uint8_t *nonce, size_t nonce_len,
                     const uint8_t *attestation, size_t attestation_len);

/*
 * Orders by name. A struct for each, to be written with designated initialisers, and a function that takes it apart:
 *
 *     struct sks_puk_order order = {.id = sks_text("PUK"), .encrypted_value = {sealed, sizeof sealed}, .retry_limit = 3};
 *     uint8_t status = sks_order_puk(&session, &order, out, sizeof out, &written);
 *
 * What is left out is 0 or empty. A field without a range takes any value; what the store does not want it refuses by the number that
 * stands beside the field. An ID has 1 to 32 bytes, each from 0x21 to 0x7E; the store answers one that stands already in the session
 * with 17.
 */

/* Bytes that are lent: where they stand, and how many. Without a place there are none. */
struct sks_bytes {
    const uint8_t *at;
    size_t len;
};

static inline struct sks_bytes sks_text(const char *text)
{
    struct sks_bytes lent = {(const uint8_t *)text, strlen(text)};
    return lent;
}

#define SKS_LEND(v) ((v).at ? (v).at : (const uint8_t *)""), ((v).at ? (v).len : 0)

/* What an issuer knows of its session. */
struct sks_session {
    uint32_t session;             /* its handle, from the reply to method 2 */
    struct sks_bytes session_key; /* 32 bytes */
    uint16_t counter;             /* with the call's uses at most 65,535; the store's limit may be lower (17) */
};

struct sks_close_order {
    struct sks_bytes client_session_id; /* that of the session: an ID; it goes into the MAC alone */
    struct sks_bytes nonce;             /* 1 to 64 bytes */
};

static inline uint8_t sks_order_close(const struct sks_session *s, const struct sks_close_order *o, uint8_t *out, size_t out_len,
                                      size_t *written)
{
    return sks_build_close(s->session, SKS_LEND(s->session_key), s->counter, SKS_LEND(o->client_session_id), SKS_LEND(o->nonce), out,
                           out_len, written);
}

struct sks_puk_order {
    struct sks_bytes id;              /* an ID */
    struct sks_bytes encrypted_value; /* 1 to 64 bytes: the PUK, sealed for the chip */
    uint8_t format;                   /* store: 0 to 3, else 17 */
    uint8_t retry_limit;              /* 0: it never locks */
};

static inline uint8_t sks_order_puk(const struct sks_session *s, const struct sks_puk_order *o, uint8_t *out, size_t out_len,
                                    size_t *written)
{
    return sks_build_puk(s->session, SKS_LEND(s->session_key), s->counter, SKS_LEND(o->id), SKS_LEND(o->encrypted_value), o->format,
                         o->retry_limit, out, out_len, written);
}

struct sks_policy_order {
    struct sks_bytes id;     /* an ID */
    uint32_t puk;            /* handle of a PUK of the session (else 17), or 0 for none */
    struct sks_bytes puk_id; /* that PUK's ID; not looked at where the handle is 0 */
    uint8_t user_defined;    /* 0 or 1 */
    uint8_t user_modifiable; /* 0 or 1 */
    uint8_t format;          /* store: 0 to 3, else 17 */
    uint8_t retry_limit;     /* store: from 1, else 17 */
    uint8_t grouping;        /* store: 0 or 1, else 17 */
    uint8_t patterns;        /* store: 0 to 7, else 17 */
    uint8_t min;             /* store: 1 to max, else 17 */
    uint8_t max;             /* store: at most 16, else 17 */
    uint8_t input_method;    /* store: 0, else 17 */
};

static inline uint8_t sks_order_policy(const struct sks_session *s, const struct sks_policy_order *o, uint8_t *out, size_t out_len,
                                       size_t *written)
{
    return sks_build_policy(s->session, SKS_LEND(s->session_key), s->counter, SKS_LEND(o->id), o->puk, SKS_LEND(o->puk_id),
                            o->user_defined, o->user_modifiable, o->format, o->retry_limit, o->grouping, o->patterns, o->min, o->max,
                            o->input_method, out, out_len, written);
}

/* The two texts that the store takes as algorithms of a key. */
#define SKS_KEY_ENTRY_ALGORITHM "http://xmlns.webpki.org/sks/algorithm#key.1"
#define SKS_P_256 "urn:oid:1.2.840.10045.3.1.7"

struct sks_key_order {
    struct sks_bytes id;             /* an ID */
    struct sks_bytes algorithm;      /* any length that lets the call have 16,384 bytes; store: SKS_KEY_ENTRY_ALGORITHM, else 8 */
    struct sks_bytes server_seed;    /* 0 to 64 bytes */
    uint32_t policy;                 /* handle of a PIN policy of the session (else 17), or 0 for a key without PIN */
    struct sks_bytes policy_id;      /* that policy's ID; not looked at where the handle is 0 */
    uint8_t pin_kind;                /* SKS_NO_PIN where the handle is 0, else SKS_USER_PIN or SKS_ISSUER_PIN */
    struct sks_bytes pin_value;      /* 0 to 64 bytes, written as given; the MAC has it only under SKS_ISSUER_PIN */
    uint8_t pin_caching;             /* 0 or 1 */
    uint8_t biometric_protection;    /* store: 0, else 17 */
    uint8_t export_protection;       /* store: 0 to 3, else 17 */
    uint8_t delete_protection;       /* store: 0 to 3, 1 with a PIN only, 2 with a PUK only, else 17 */
    uint8_t app_usage;               /* any */
    struct sks_bytes friendly_name;  /* 0 to 100 bytes */
    struct sks_bytes key_algorithm;  /* any length, as above; store: SKS_P_256, else 8 */
    struct sks_bytes key_parameters; /* 0 to 8 bytes; store: none, else 17 */
    uint16_t endorsed_algorithms;    /* store: 0, else 8 */
};

static inline uint8_t sks_order_key(const struct sks_session *s, const struct sks_key_order *o, uint8_t *out, size_t out_len,
                                    size_t *written)
{
    return sks_build_key(s->session, SKS_LEND(s->session_key), s->counter, SKS_LEND(o->id), SKS_LEND(o->algorithm),
                         SKS_LEND(o->server_seed), o->policy, SKS_LEND(o->policy_id), o->pin_kind, SKS_LEND(o->pin_value),
                         o->pin_caching, o->biometric_protection, o->export_protection, o->delete_protection, o->app_usage,
                         SKS_LEND(o->friendly_name), SKS_LEND(o->key_algorithm), SKS_LEND(o->key_parameters), o->endorsed_algorithms, out,
                         out_len, written);
}

struct sks_path_order {
    uint32_t key;                  /* handle of a key of the session (else 7) that has no path yet (else 17) */
    struct sks_bytes key_id;       /* that key's ID */
    struct sks_bytes public_key;   /* that key's public key, 1 to 96 bytes */
    uint8_t count;                 /* 1 to 255 certificates */
    struct sks_bytes certificates; /* so many, the key's own first, each of at least a byte with its length in two bytes, the high one
                                      first, before it; and nothing behind the last. At most 16,342 bytes in all */
};

static inline uint8_t sks_order_path(const struct sks_session *s, const struct sks_path_order *o, uint8_t *out, size_t out_len,
                                     size_t *written)
{
    return sks_build_path(s->session, SKS_LEND(s->session_key), s->counter, o->key, SKS_LEND(o->key_id), SKS_LEND(o->public_key),
                          o->count, SKS_LEND(o->certificates), out, out_len, written);
}

struct sks_post_order {
    uint8_t method;                 /* 50 or 51 */
    uint32_t key;                   /* handle of a key of a closed session, else 7 */
    struct sks_bytes authorization; /* 1 to 512 bytes: the signature that the chip verifies */
};

static inline uint8_t sks_order_post(const struct sks_session *s, const struct sks_post_order *o, uint8_t *out, size_t out_len,
                                     size_t *written)
{
    return sks_build_post(s->session, SKS_LEND(s->session_key), s->counter, o->method, o->key, SKS_LEND(o->authorization), out, out_len,
                          written);
}

#undef SKS_LEND

#ifdef __cplusplus
}
#endif

#endif
