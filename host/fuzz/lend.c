/*
 * Lends buffers to the library. The library has no instrumentation, so that AddressSanitizer does not see what it reads and writes.
 * Hence every buffer touches a page without access on one side, where a read or write faults, and has guard bytes on the other, where
 * a write shows afterwards. Whoever asks on both sides has both kinds of slip on both sides.
 */
#include "fuzz.h"

#include <string.h>
#include <sys/mman.h>

#define PAGE 4096
#define GUARD PAGE
#define GUARD_FILL 0xC5

/* Room for one buffer with its guard bytes, between two pages without access. */
struct room {
    uint8_t *first;
    size_t len;
};

static struct room make_room(size_t most)
{
    struct room r = {NULL, most + GUARD};
    uint8_t *all = mmap(NULL, r.len + 2 * PAGE, PROT_NONE, MAP_PRIVATE | MAP_ANONYMOUS, -1, 0);
    must(all != MAP_FAILED, "no memory");
    r.first = all + PAGE;
    must(mprotect(r.first, r.len, PROT_READ | PROT_WRITE) == 0, "no memory to write to");
    return r;
}

/* One lent buffer. */
struct lent {
    uint8_t *at, *guard;
    size_t len;
};

static struct lent lend(const struct room *r, enum side side, size_t len)
{
    struct lent l = {r->first, r->first + len, len};
    must(len + GUARD <= r->len, "a buffer does not fit its room");
    if (side == FORBIDDEN_BEHIND) {
        l.at = r->first + r->len - len;
        l.guard = l.at - GUARD;
    }
    memset(l.guard, GUARD_FILL, GUARD);
    return l;
}

static struct lent lend_copy(const struct room *r, enum side side, struct bytes of)
{
    struct lent l = lend(r, side, of.len);
    memcpy(l.at, of.at, of.len);
    return l;
}

static void guard_stands(const struct lent *l, const char *words)
{
    static uint8_t untouched[GUARD];
    if (untouched[0] != GUARD_FILL)
        memset(untouched, GUARD_FILL, GUARD);
    must(memcmp(l->guard, untouched, GUARD) == 0, words);
}

void ask(enum side side, const struct question *q, struct answer *a)
{
    static struct room stores, calls, chips, replies;
    struct lent store, call, chip, reply;

    if (stores.first == NULL) {
        stores = make_room(STORE_ROOM);
        calls = make_room(CALL_ROOM);
        chips = make_room(CALL_ROOM);
        replies = make_room(REPLY_ROOM);
    }
    store = lend_copy(&stores, side, q->store);
    call = lend_copy(&calls, side, q->call);
    chip = lend_copy(&chips, side, q->chip);
    reply = lend(&replies, side, q->reply_len);
    memset(reply.at, REPLY_FILL, reply.len);

    a->status = q->format ? sks_format(store.at, store.len)
                          : sks_call(store.at, store.len, call.at, call.len, chip.at, chip.len, reply.at, reply.len);

    guard_stands(&store, "a byte beside the store was written");
    guard_stands(&call, "a byte beside the call was written");
    guard_stands(&chip, "a byte beside the chip bytes was written");
    guard_stands(&reply, "a byte beside the reply was written");
    must(memcmp(call.at, q->call.at, call.len) == 0, "the call was written");
    must(memcmp(chip.at, q->chip.at, chip.len) == 0, "the chip bytes were written");
    memcpy(a->store, store.at, store.len);
    memcpy(a->reply, reply.at, reply.len);
}
