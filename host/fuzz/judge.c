/* What must hold of every answer, whatever was asked. It follows include/sks.h and needs no MAC, no text rule and no soundness test. */
#include "fuzz.h"

#include <string.h>

static const uint8_t zeros[SKS_RECORD];

static int is_user(uint8_t method)
{
    return method == 80 || method == 82 || method == 83 || method == 100;
}

static int is_session(uint8_t method)
{
    return method == 3 || method == 5 || (method >= 8 && method <= 10) || method == 12 || method == 50 || method == 51;
}

static int length_fits(size_t len)
{
    return len % SKS_RECORD == 0 && len >= SKS_FEWEST_RECORDS * SKS_RECORD && len <= SKS_MOST_RECORDS * SKS_RECORD;
}

/* What stands of the form before any field is read. */
static int has_head(struct bytes call)
{
    return call.len >= SKS_SHORTEST_CALL && call.len <= SKS_LONGEST_CALL
           && (call.at[0] == 2 || is_session(call.at[0]) || is_user(call.at[0]));
}

/* 20 is not among them: no sound store gives it, and an unsound one gives 19. */
static int is_call_status(uint8_t s)
{
    return s <= SKS_ALGORITHM || s == SKS_FORM || s == SKS_NOT_ALLOWED || s == SKS_UNSOUND || s == SKS_SHORT_REPLY;
}

static int unchanged(const struct question *q, const struct answer *a)
{
    return memcmp(a->store, q->store.at, q->store.len) == 0;
}

/* Nothing differs, or one error count has grown by one: byte 3 of a PUK or byte 2 of a key. */
static int one_count_grew(const struct question *q, const struct answer *a)
{
    const uint8_t *before = q->store.at, *after = a->store;
    size_t i = 0, len = q->store.len;
    uint8_t kind;

    while (i < len && before[i] == after[i])
        i++;
    if (i == len)
        return 1;
    kind = before[i - i % SKS_RECORD];
    return after[i] == before[i] + 1 && ((kind == 2 && i % SKS_RECORD == 3) || (kind == 4 && i % SKS_RECORD == 2))
           && memcmp(after + i + 1, before + i + 1, len - i - 1) == 0;
}

/* The records of the call's session are free, and all others are as they were. */
static int session_is_gone(const struct question *q, const struct answer *a)
{
    size_t i;
    for (i = 0; i < q->store.len; i += SKS_RECORD) {
        const uint8_t *before = q->store.at + i;
        int own = memcmp(before + 8, q->call.at + 1, 4) == 0;
        if (memcmp(a->store + i, own ? zeros : before, SKS_RECORD) != 0)
            return 0;
    }
    return 1;
}

static void judge_format(const struct question *q, const struct answer *a)
{
    static const uint8_t counter[8] = {6, 0, 0, 0, 0, 0, 0, 1};
    size_t i;

    if (!length_fits(q->store.len)) {
        must(a->status == SKS_UNSOUND, "format of a length that no store has is not refused");
        must(unchanged(q, a), "a refused format changed the store");
        return;
    }
    must(a->status == SKS_DONE, "format of a right length is refused");
    must(memcmp(a->store, counter, sizeof counter) == 0, "format wrote no counter");
    for (i = sizeof counter; i < q->store.len; i++)
        must(a->store[i] == 0, "format left a byte");
}

static void judge_reply(const struct question *q, const struct answer *a)
{
    const uint8_t *handle = a->reply + SKS_REPLY_HANDLE, *attestation = a->reply + SKS_REPLY_ATTESTATION;
    uint8_t method = q->call.len > 0 ? q->call.at[0] : 0;
    int makes = a->status == SKS_DONE && (method == 2 || (method >= 8 && method <= 10));
    int attests = a->status == SKS_DONE && (method == 3 || method == 10);
    size_t i;

    for (i = a->status == SKS_SHORT_REPLY ? 0 : SKS_REPLY; i < q->reply_len; i++)
        must(a->reply[i] == REPLY_FILL, "a byte of the reply that is not the answer's was written");
    if (a->status == SKS_SHORT_REPLY)
        return;
    must(a->reply[0] == a->status, "the reply's status differs from the one returned");
    must((memcmp(handle, zeros, 4) != 0) == makes, "the reply has a handle where none belongs, or lacks one");
    must(attests || memcmp(attestation, zeros, 32) == 0, "the reply has an attestation where none belongs");
}

static void judge_store(const struct question *q, const struct answer *a)
{
    int head = has_head(q->call), stays;

    if (a->status == SKS_DONE)
        return;
    stays = a->status == SKS_SHORT_REPLY || a->status == SKS_UNSOUND || a->status == SKS_NO_SESSION || !head || !is_session(q->call.at[0]);
    if (a->status == SKS_AUTHORIZATION)
        must(one_count_grew(q, a), "status 1 changed more than one count");
    else if (stays)
        must(unchanged(q, a), "a refusal changed a store that it must leave");
    else
        must(session_is_gone(q, a), "a refusal did not end its session, or changed more than that");
}

void judge(const struct question *q, const struct answer *a)
{
    if (q->format) {
        judge_format(q, a);
        return;
    }
    must(is_call_status(a->status), "a status that no call gives");
    must((a->status == SKS_SHORT_REPLY) == (q->reply_len < SKS_REPLY), "status 21 and the reply's length are at odds");
    must(a->status == SKS_SHORT_REPLY || a->status == SKS_UNSOUND || length_fits(q->store.len), "a length that no store has was taken");
    must(a->status == SKS_SHORT_REPLY || a->status == SKS_UNSOUND || a->status == SKS_FORM || has_head(q->call),
         "a call without known method or with a wrong length was taken");
    must(a->status != SKS_AUTHORIZATION || is_user(q->call.at[0]), "status 1 for a call that compares no PIN or PUK");
    judge_reply(q, a);
    judge_store(q, a);
}
