/* Puts a key with PIN and PUK on a token, call by call, and checks both attestations. Ends with 1 if a step goes wrong. */
#include "sks.h"
#include "sks_issuer.h"

#include "create_session.h"

#include <stdio.h>
#include <stdlib.h>

static uint8_t store[16 * SKS_RECORD], call[SKS_LONGEST_CALL], reply[SKS_REPLY];
static size_t len;

static void demand(bool right, const char *what)
{
    if (!right) {
        printf("%s: wrong\n", what);
        exit(1);
    }
}

/* Sends the call that was built. What the chip makes for it comes beside it. Tells the handle that came back. */
static uint32_t ask(const char *what, uint8_t issued, const struct bytes *chip)
{
    const uint8_t *h = reply + SKS_REPLY_HANDLE;
    uint32_t handle;
    uint8_t status;

    demand(issued == SKS_ISSUED, what);
    status = sks_call(store, sizeof store, call, len, chip->at, chip->len, reply, sizeof reply);
    handle = (uint32_t)h[0] << 24 | (uint32_t)h[1] << 16 | (uint32_t)h[2] << 8 | h[3];
    printf("%s: status %u, handle %lu\n", what, status, (unsigned long)handle);
    demand(status == SKS_DONE, what);
    return handle;
}

int main(void)
{
    /* The chip's: keys, and the PUK that it opens. */
    const uint8_t session_key[SKS_SESSION_KEY] = {1, 2, 3}, public_key[91] = {4};
    const struct bytes none = {.len = 0};
    struct bytes first = none, opened = none, made = none, certificates = none;
    uint32_t puk, policy, key;

    sks_format(store, sizeof store);
    create_session(&first, &made, session_key, "client-1");
    memcpy(call, first.at, len = first.len);
    struct sks_session session = {.session = ask("create session", SKS_ISSUED, &made), .session_key = {session_key, sizeof session_key}};

    struct sks_puk_order puk_order = {.id = sks_text("PUK"), .encrypted_value = sks_text("84620375, sealed"), .retry_limit = 3};
    put(&opened, "84620375", 8);
    puk = ask("PUK", sks_order_puk(&session, &puk_order, call, sizeof call, &len), &opened);
    session.counter += SKS_USES_PUK;

    struct sks_policy_order policy_order = {.id = sks_text("PIN"), .puk = puk, .puk_id = puk_order.id, .user_defined = 1,
                                            .user_modifiable = 1, .retry_limit = 3, .min = 4, .max = 8};
    policy = ask("PIN policy", sks_order_policy(&session, &policy_order, call, sizeof call, &len), &none);
    session.counter += SKS_USES_POLICY;

    struct sks_key_order key_order = {.id = sks_text("Badge"), .algorithm = sks_text(SKS_KEY_ENTRY_ALGORITHM), .policy = policy,
                                      .policy_id = policy_order.id, .pin_kind = SKS_USER_PIN, .pin_value = sks_text("2580"),
                                      .key_algorithm = sks_text(SKS_P_256)};
    made.len = 0;
    put(&made, (uint8_t[2]){0, sizeof public_key}, 2);
    put(&made, public_key, sizeof public_key);
    put_string(&made, "");
    key = ask("key", sks_order_key(&session, &key_order, call, sizeof call, &len), &made);
    demand(sks_check_key(session_key, sizeof session_key, session.counter, key_order.id.at, key_order.id.len, public_key, sizeof public_key,
                         reply + SKS_REPLY_ATTESTATION, SKS_ATTESTATION), "the key's attestation");
    session.counter += SKS_USES_KEY;

    put_string(&certificates, "the key's own certificate");
    put_string(&certificates, "the issuer's");
    struct sks_path_order path_order = {.key = key, .key_id = key_order.id, .public_key = {public_key, sizeof public_key}, .count = 2,
                                        .certificates = {certificates.at, certificates.len}};
    ask("certificate path", sks_order_path(&session, &path_order, call, sizeof call, &len), &none);
    session.counter += SKS_USES_PATH;

    struct sks_close_order close_order = {.client_session_id = sks_text("client-1"), .nonce = sks_text("a number used once")};
    ask("close", sks_order_close(&session, &close_order, call, sizeof call, &len), &none);
    demand(sks_check_close(session_key, sizeof session_key, session.counter, close_order.nonce.at, close_order.nonce.len,
                           reply + SKS_REPLY_ATTESTATION, SKS_ATTESTATION), "the close's attestation");
    puts("both attestations are right");
    return 0;
}
