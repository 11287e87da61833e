/* What the parts of the fuzz target share. */
#ifndef FUZZ_H
#define FUZZ_H

#include <stddef.h>
#include <stdint.h>

#include "sks.h"

/* The largest buffers that are lent, in whole pages: more than the library takes of each. */
#define STORE_ROOM (96 * 1024)
#define CALL_ROOM (24 * 1024)
#define REPLY_ROOM (4 * 1024)

struct bytes {
    const uint8_t *at;
    size_t len;
};

/* What is lent to the library: to sks_format the store alone, to sks_call all of it. */
struct question {
    int format;
    struct bytes store, call, chip;
    size_t reply_len;
};

/* What came back. The store is as long as it was lent, the reply too. */
struct answer {
    uint8_t status;
    uint8_t store[STORE_ROOM], reply[REPLY_ROOM];
};

/* What a reply holds before the call. */
#define REPLY_FILL 0xA5

/* The side on which a lent buffer touches a page that nobody may read or write. */
enum side { FORBIDDEN_BEHIND, FORBIDDEN_BEFORE };

/* lend.c: lends fresh copies and asks. Stops if a byte that was not lent for writing has changed. */
void ask(enum side side, const struct question *q, struct answer *a);

/* judge.c: stops if the answer breaks a rule that needs no second implementation. */
void judge(const struct question *q, const struct answer *a);

/* lay.c: writes a store, sound in most cases, as the steps say. Gives its length. */
size_t lay(uint8_t *store, struct bytes steps, size_t spare);

/* fuzz.c: ends the run with the words if the claim is false. */
void must(int claim, const char *words);

#endif
