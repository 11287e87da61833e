/* The token's store as C functions: two, and a test. They stand in libtoken.a, which `make lib` makes. */
#ifndef SKS_H
#define SKS_H

#include <stdbool.h>
#include <stddef.h>
#include <stdint.h>

#ifdef __cplusplus
extern "C" {
#endif

/* A store is 2 to 256 records of 256 bytes. */
#define SKS_RECORD 256
#define SKS_FEWEST_RECORDS 2
#define SKS_MOST_RECORDS 256

/* A call has 5 to 16,384 bytes. */
#define SKS_SHORTEST_CALL 5
#define SKS_LONGEST_CALL 16384

/* A reply is the status, a handle of 4 bytes (big-endian), and an attestation of 32 bytes. */
#define SKS_REPLY 37
#define SKS_REPLY_HANDLE 1
#define SKS_REPLY_ATTESTATION 5

/*
 * What sks_format and sks_call return. Every status of a call but SKS_SHORT_REPLY also stands in byte 0 of the reply, and all but SKS_DONE
 * have zeros in the other 36. "Ends the session" means: a refused session call removes its session with all its records and no other
 * record, while a refused user call or method 2 changes nothing.
 */
enum sks_status {
    /* Done: the store has changed as the method says; the reply has the handle of a session, policy or key just made (methods 2, 8, 9,
     * 10), else 0, and an attestation (methods 3 and 10), else zeros. */
    SKS_DONE = 0,
    /* A PIN or PUK is locked or wrong: at most one error count in the store has grown by one. */
    SKS_AUTHORIZATION = 1,
    /* No record is free, or session or object numbers are used up; ends the session. */
    SKS_FULL = 2,
    /* The MAC differs; ends the session. */
    SKS_MAC = 3,
    /* The chip did not verify the signature; ends the session. */
    SKS_SIGNATURE = 4,
    /* No open session has that handle: the store is unchanged. */
    SKS_NO_SESSION = 5,
    /* The session is not fit to close, for a key lacks its path, a policy has no child, or a pending is stale; ends the session. */
    SKS_NOT_FIT = 6,
    /* There is no such key, in the own session (method 12) or in a closed one (all others); ends the session. */
    SKS_NO_KEY = 7,
    /* An algorithm is not one of those that are built; ends the session. */
    SKS_ALGORITHM = 8,
    /* The call does not have the form: unchanged if the method is unknown or the call's length is out of range; if a field or the chip
     * bytes are wrong, ends the session. */
    SKS_FORM = 16,
    /* A value is out of its range or at odds with what stands in the store; ends the session. */
    SKS_NOT_ALLOWED = 17,
    /* The store is unsound, or its length does not fit: it is unchanged. */
    SKS_UNSOUND = 19,
    /* An unlock or use found that the key's policy or PUK is missing: the store is unchanged. No sound store gives this. */
    SKS_PARENT_MISSING = 20,
    /* The reply has fewer than 37 bytes: neither store nor reply is changed. */
    SKS_SHORT_REPLY = 21
};

/*
 * Of the pointers below each stands for as many bytes as the length behind it says. None may be null, even where the length is 0, and
 * the store and the reply must overlap with nothing else that is lent. Any bytes may be handed in.
 */

/* Makes a fresh store of whatever stood there. Returns SKS_DONE, or SKS_UNSOUND for a length that no store has. */
uint8_t sks_format(uint8_t *store, size_t store_len);

/* Answers one call: changes the store, writes the first 37 bytes of the reply and leaves its later bytes, and returns the status. */
uint8_t sks_call(uint8_t *store, size_t store_len, const uint8_t *call, size_t call_len, const uint8_t *chip, size_t chip_len,
                 uint8_t *reply, size_t reply_len);

/* Whether the store is sound: a call over any other is told SKS_UNSOUND. It reads the store alone. */
bool sks_sound(const uint8_t *store, size_t store_len);

#ifdef __cplusplus
}
#endif

#endif
