/* Method 2 for the examples: the one issuer's call without a MAC, and what the chip makes for it. */
#ifndef CREATE_SESSION_H
#define CREATE_SESSION_H

#include <stdint.h>
#include <string.h>

/* Bytes that are being written. */
struct bytes {
    uint8_t at[512];
    size_t len;
};

static void put(struct bytes *b, const void *bytes, size_t len)
{
    memcpy(b->at + b->len, bytes, len);
    b->len += len;
}

/* A string: its length in two bytes, then its bytes. */
static void put_string(struct bytes *b, const char *text)
{
    size_t len = strlen(text);
    uint8_t head[2] = {(uint8_t)(len >> 8), (uint8_t)len};
    put(b, head, sizeof head);
    put(b, text, len);
}

/* The call, and beside it a SessionKey of 32 bytes and a ClientSessionID. */
static void create_session(struct bytes *call, struct bytes *chip, const uint8_t session_key[32], const char *client_session_id)
{
    const uint8_t method = 2, privacy = 0;
    const uint8_t client_time[4] = {0}, life_time[4] = {0}, key_limit[2] = {0, 50};

    put(call, &method, 1);
    put_string(call, "http://xmlns.webpki.org/sks/algorithm#session.1");
    put(call, &privacy, 1);
    put_string(call, "server-1");
    put_string(call, "ephemeral key");
    put_string(call, "https://badges.example");
    put_string(call, "key management key");
    put(call, client_time, sizeof client_time);
    put(call, life_time, sizeof life_time);
    put(call, key_limit, sizeof key_limit);

    put(chip, session_key, 32);
    put_string(chip, client_session_id);
}

#endif
