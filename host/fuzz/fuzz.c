/*
 * The fuzz target: any bytes as store, call, chip bytes and reply length. An input is
 *
 *     mode, reply length, spare (2 bytes), length of the store part (2), length of the call (2), store part, call, chip bytes.
 *
 * Numbers are big-endian, and a length is cut to what is there. Each input is asked twice, with the forbidden page on either side.
 * The library has no coverage counters, so that libFuzzer is led by what an answer shows: method, status, and which records changed.
 */
#include "fuzz.h"

#include <stdio.h>
#include <stdlib.h>
#include <string.h>

size_t LLVMFuzzerMutate(uint8_t *data, size_t size, size_t max_size);

/* ---- the input */

#define HEAD 8

/* RAW: the store part and `spare` zeros are the store. LAID: the store part is steps for lay(), and `spare` records are free behind
 * what they lay. FORMAT: as RAW, for sks_format. */
enum mode { RAW, LAID, FORMAT, MODES };

struct input {
    uint8_t head[HEAD];
    struct bytes store, call, chip;
};

static size_t get16(const uint8_t *at)
{
    return (size_t)at[0] << 8 | at[1];
}

static struct bytes cut(struct bytes *from, size_t len)
{
    struct bytes part = {from->at, len < from->len ? len : from->len};
    from->at += part.len;
    from->len -= part.len;
    return part;
}

static struct input split(const uint8_t *data, size_t size)
{
    struct input in = {{0}, {NULL, 0}, {NULL, 0}, {NULL, 0}};
    struct bytes rest = {data, size}, head = cut(&rest, HEAD);

    memcpy(in.head, head.at, head.len);
    in.store = cut(&rest, get16(in.head + 4));
    in.call = cut(&rest, get16(in.head + 6));
    in.chip = rest;
    return in;
}

/* The opposite of split; 0 if it does not fit. */
static size_t join(const struct input *in, uint8_t *data, size_t most)
{
    uint8_t *at = data + HEAD;
    size_t size = HEAD + in->store.len + in->call.len + in->chip.len;

    if (size > most)
        return 0;
    memcpy(data, in->head, 4);
    data[4] = (uint8_t)(in->store.len >> 8);
    data[5] = (uint8_t)in->store.len;
    data[6] = (uint8_t)(in->call.len >> 8);
    data[7] = (uint8_t)in->call.len;
    memcpy(at, in->store.at, in->store.len);
    memcpy(at + in->store.len, in->call.at, in->call.len);
    memcpy(at + in->store.len + in->call.len, in->chip.at, in->chip.len);
    return size;
}

/* ---- what was met: for libFuzzer, and for the table at the end */

static const uint8_t methods[] = {2, 3, 5, 8, 9, 10, 12, 50, 51, 80, 82, 83, 100};
static const uint8_t statuses[] = {0, 1, 2, 3, 4, 5, 6, 7, 8, 16, 17, 19, 21};
#define OTHER sizeof methods
#define FORMATS (OTHER + 1)
#define ROWS (FORMATS + 1)
#define COLUMNS sizeof statuses
#define MANY 8
#define KINDS 7

static unsigned long met[ROWS][COLUMNS];

/* For each method and status: how many records changed, the kinds of those, and the kinds that stood in a sound store. `used`, for
 * nothing here reads it. The target itself is built without counters, or else libFuzzer would be led into the target's own corners. */
static struct shown {
    uint8_t changed[MANY], changed_kinds[1 << KINDS], kinds[1 << KINDS];
} shown[ROWS][COLUMNS] __attribute__((used, section("__libfuzzer_extra_counters")));

static size_t place_of(uint8_t n, const uint8_t *list, size_t len)
{
    size_t i = 0;
    while (i < len && list[i] != n)
        i++;
    return i;
}

static void count(const struct question *q, const struct answer *a)
{
    size_t row = q->format ? FORMATS : q->call.len == 0 ? OTHER : place_of(q->call.at[0], methods, OTHER);
    size_t column = place_of(a->status, statuses, COLUMNS), changed = 0, i;
    unsigned changed_kinds = 0, kinds = 0;
    struct shown *s = &shown[row][column];

    for (i = 0; i + SKS_RECORD <= q->store.len; i += SKS_RECORD) {
        unsigned before = 1u << q->store.at[i] % KINDS, after = 1u << a->store[i] % KINDS;
        kinds |= before;
        if (memcmp(q->store.at + i, a->store + i, SKS_RECORD) != 0) {
            changed++;
            changed_kinds |= before | after;
        }
    }
    met[row][column]++;
    s->changed[changed < MANY ? changed : MANY - 1] = 1;
    s->changed_kinds[changed_kinds] = 1;
    if (row != OTHER && a->status != SKS_SHORT_REPLY && a->status != SKS_UNSOUND)
        s->kinds[kinds] = 1;
}

static void print_table(void)
{
    size_t row, column;

    fprintf(stderr, "table: %-8s", "method");
    for (column = 0; column < COLUMNS; column++)
        fprintf(stderr, " %9u", statuses[column]);
    for (row = 0; row < ROWS; row++) {
        if (row < OTHER)
            fprintf(stderr, "\ntable: %-8u", methods[row]);
        else
            fprintf(stderr, "\ntable: %-8s", row == OTHER ? "other" : "format");
        for (column = 0; column < COLUMNS; column++)
            fprintf(stderr, " %9lu", met[row][column]);
    }
    fprintf(stderr, "\n");
}

void must(int claim, const char *words)
{
    if (claim)
        return;
    fprintf(stderr, "fuzz: %s\n", words);
    abort();
}

/* ---- what libFuzzer calls */

int LLVMFuzzerInitialize(int *argc, char ***argv)
{
    (void)argc;
    (void)argv;
    return atexit(print_table);
}

int LLVMFuzzerTestOneInput(const uint8_t *data, size_t size)
{
    static uint8_t store[STORE_ROOM];
    static struct answer a, again;
    struct input in = split(data, size);
    struct question q = {in.head[0] % MODES == FORMAT, {store, 0}, in.call, in.chip, in.head[1]};
    size_t spare = get16(in.head + 2);

    if (size > CALL_ROOM)
        return 0;
    if (in.head[0] % MODES == LAID) {
        q.store.len = lay(store, in.store, spare);
    } else {
        memcpy(store, in.store.at, in.store.len);
        memset(store + in.store.len, 0, spare);
        q.store.len = in.store.len + spare;
    }
    ask(FORBIDDEN_BEHIND, &q, &a);
    judge(&q, &a);
    ask(FORBIDDEN_BEFORE, &q, &again);
    must(again.status == a.status, "asked again, the status differs");
    must(memcmp(again.store, a.store, q.store.len) == 0, "asked again, the store differs");
    must(memcmp(again.reply, a.reply, q.reply_len) == 0, "asked again, the reply differs");
    count(&q, &a);
    return 0;
}

/* Changes the bytes of a part from `kept` on, so that it has at most `most` bytes; the part is then in memory of its own. */
static void change(struct bytes *part, size_t kept, size_t most)
{
    static uint8_t changed[CALL_ROOM];

    if (kept > part->len)
        kept = part->len;
    memcpy(changed, part->at, part->len);
    part->len = kept + LLVMFuzzerMutate(changed + kept, part->len - kept, most - kept);
    part->at = changed;
}

/* Changes one part and leaves the others, and mostly the call's method and handle: with any byte changed, hardly an input would get beyond
 * the first tests. */
size_t LLVMFuzzerCustomMutator(uint8_t *data, size_t size, size_t most, unsigned seed)
{
    static uint8_t old[CALL_ROOM];
    struct input in;
    size_t more = most - size;

    if (size < HEAD || most > CALL_ROOM || seed % 16 == 0)
        return LLVMFuzzerMutate(data, size, most);
    memcpy(old, data, size);
    in = split(old, size);
    if (seed % 16 == 1)
        LLVMFuzzerMutate(in.head, 4, 4);
    else if (seed % 16 < 7)
        change(&in.store, 0, in.store.len + more);
    else if (seed % 16 < 9)
        change(&in.chip, 0, in.chip.len + more);
    else
        change(&in.call, seed % 16 == 9 ? 0 : SKS_SHORTEST_CALL, in.call.len + more);
    return join(&in, data, most);
}

/* The store of one input with the call and chip bytes of another, every other time under the handle that the one's call has. */
size_t LLVMFuzzerCustomCrossOver(const uint8_t *one, size_t one_len, const uint8_t *other, size_t other_len, uint8_t *out, size_t most,
                                 unsigned seed)
{
    struct input in = split(one, one_len), from = split(other, other_len), joined = in;
    size_t size;

    joined.call = from.call;
    joined.chip = from.chip;
    size = join(&joined, out, most);
    if (size > 0 && seed % 2 && in.call.len >= SKS_SHORTEST_CALL && from.call.len >= SKS_SHORTEST_CALL)
        memcpy(out + HEAD + in.store.len + 1, in.call.at + 1, 4);
    return size;
}
