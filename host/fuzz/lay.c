/*
 * Lays a store, sound in most cases, by steps of four bytes: what, and three bytes a, b, c. Numbers, handles and IDs follow by
 * themselves, so that changed steps still give a store that the library goes through to its end. Sessions, IDs, keys and values are
 * those of scripts/lines.py; hence its calls have the right MACs here too.
 */
#include "fuzz.h"

#include <stdio.h>
#include <string.h>

enum step { LEAVE, SESSION, PUK, POLICY, KEY, PENDING, POKE, STEPS };

struct laying {
    uint8_t *store, *session;
    size_t records;
    unsigned sessions, puk, policy, keys;
    uint32_t key[SKS_MOST_RECORDS];
};

static void put16(uint8_t *at, unsigned n)
{
    at[0] = (uint8_t)(n >> 8);
    at[1] = (uint8_t)n;
}

static void put32(uint8_t *at, uint32_t n)
{
    put16(at, n >> 16);
    put16(at + 2, n & 0xFFFF);
}

/* Length and bytes of a string; those behind it are zero already. */
static void put_text(uint8_t *at, const char *text)
{
    at[0] = (uint8_t)strlen(text);
    memcpy(at + 1, text, at[0]);
}

static uint8_t *next_record(struct laying *l, uint8_t kind)
{
    uint8_t *r = l->store + SKS_RECORD * l->records++;
    r[0] = kind;
    return r;
}

static void add_session(struct laying *l, uint8_t a, uint8_t b)
{
    char name[8];
    int closed = a & 1, i;
    uint8_t *r = next_record(l, 1);
    uint32_t handle = (uint32_t)++l->sessions << 16;

    r[1] = closed ? 2 : 1;
    put16(r + 2, a & 8 ? 997 : 1);
    put32(r + 4, handle);
    put32(r + 8, handle);
    snprintf(name, sizeof name, "S%u", l->sessions);
    put_text(r + 16, name);
    name[0] = 'C';
    put_text(r + 49, name);
    for (i = 0; !closed && i < 32; i++)
        r[82 + i] = (uint8_t)((a & 4 ? 101 : 1) + i);
    put16(r + 114, b % 21);
    put16(r + 116, 20);
    r[119] = !(a & 2);
    put32(l->store + 4, l->sessions + 1);
    l->session = r;
    l->puk = l->policy = 0;
}

/* A record of the last session with the next object number, which it returns. */
static unsigned add_object(struct laying *l, uint8_t **r, uint8_t kind, const char *name)
{
    char id[16];
    unsigned object = (unsigned)(l->session[2] << 8 | l->session[3]);

    *r = next_record(l, kind);
    put16(l->session + 2, object + 1);
    memcpy(*r + 4, l->session + 4, 4);
    put16(*r + 6, object);
    memcpy(*r + 8, l->session + 4, 4);
    if (name != NULL) {
        snprintf(id, sizeof id, object > 3 ? "%s%u" : "%s", name, object);
        put_text(*r + 16, id);
    }
    return object;
}

static void put_parent(const struct laying *l, uint8_t *r, unsigned object)
{
    memcpy(r + 12, l->session + 4, 4);
    put16(r + 14, object);
}

static void add_puk(struct laying *l, uint8_t a, uint8_t b, uint8_t c)
{
    uint8_t *r;
    l->puk = add_object(l, &r, 2, "puk");
    r[1] = a & 3;
    r[2] = 3 - b % 4;
    r[3] = c % 4 > r[2] ? r[2] : c % 4;
    put_text(r + 49, "12345678");
}

static void add_policy(struct laying *l, uint8_t a, uint8_t b, uint8_t c)
{
    uint8_t *r;
    l->policy = add_object(l, &r, 3, "pol");
    r[1] = b & 3;
    r[2] = 3;
    r[3] = (a & 2) >> 1;
    if ((a & 1) && l->puk)
        put_parent(l, r, l->puk);
    r[49] = !(a & 4);
    r[50] = !(a & 8);
    r[51] = c & 7;
    r[52] = 4;
    r[53] = 8;
}

static void add_key(struct laying *l, uint8_t a, uint8_t b, uint8_t c)
{
    uint8_t *r;
    int with_pin = (a & 1) && l->policy;
    unsigned object = add_object(l, &r, 4, "key");

    r[1] = !(a & 8);
    r[2] = with_pin ? b % 4 : 0;
    r[3] = (a >> 1) & 3;
    if (with_pin) {
        put_parent(l, r, l->policy);
        put_text(r + 49, "1245");
    }
    put_text(r + 82, "PUBLIC-KEY-ONE");
    memset(r + 179, r[1] ? 0xD1 : 0, 32);
    r[211] = (a >> 4) & 1;
    r[212] = c & 3;
    r[213] = c >> 2;
    l->key[l->keys++] = (uint32_t)l->sessions << 16 | object;
}

static void add_pending(struct laying *l, uint8_t a, uint8_t b)
{
    uint8_t *r;
    add_object(l, &r, 5, NULL);
    r[1] = a & 1 ? 51 : 50;
    r[2] = (a & 2) >> 1;
    if (!r[2] && l->keys)
        put32(r + 12, l->key[b % l->keys]);
}

static void take(struct laying *l, const uint8_t *step)
{
    uint8_t what = step[0] % STEPS, a = step[1], b = step[2], c = step[3];

    if (what == LEAVE)
        l->records++;
    else if (what == SESSION)
        add_session(l, a, b);
    else if (what == POKE)
        l->store[a % l->records * SKS_RECORD + b] ^= c;
    else if (l->session == NULL)
        return;
    else if (what == PUK)
        add_puk(l, a, b, c);
    else if (what == POLICY)
        add_policy(l, a, b, c);
    else if (what == KEY)
        add_key(l, a, b, c);
    else
        add_pending(l, a, b);
}

size_t lay(uint8_t *store, struct bytes steps, size_t spare)
{
    struct laying l = {.store = store};
    size_t i, records;

    memset(store, 0, STORE_ROOM);
    put32(next_record(&l, 6) + 4, 1);
    for (i = 0; i + 4 <= steps.len && l.records < SKS_MOST_RECORDS; i += 4)
        take(&l, steps.at + i);
    records = l.records + spare;
    return SKS_RECORD * (records > SKS_MOST_RECORDS ? SKS_MOST_RECORDS : records);
}
