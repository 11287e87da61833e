/* Formats a store, opens a session on it and prints what came back. Ends with 1 if a status is not SKS_DONE. */
#include "sks.h"

#include "create_session.h"

#include <stdio.h>

int main(void)
{
    static uint8_t store[8 * SKS_RECORD];
    const uint8_t session_key[32] = {7};
    struct bytes call = {.len = 0}, chip = {.len = 0};
    uint8_t reply[SKS_REPLY];
    const uint8_t *h = reply + SKS_REPLY_HANDLE;
    uint8_t formatted, created;

    formatted = sks_format(store, sizeof store);
    printf("format: status %u, %s\n", formatted, sks_sound(store, sizeof store) ? "sound" : "unsound");

    create_session(&call, &chip, session_key, "client-1");
    created = sks_call(store, sizeof store, call.at, call.len, chip.at, chip.len, reply, sizeof reply);
    printf("create session: status %u, handle %lu\n", created,
           (unsigned long)h[0] << 24 | (unsigned long)h[1] << 16 | (unsigned long)h[2] << 8 | h[3]);
    return formatted == SKS_DONE && created == SKS_DONE ? 0 : 1;
}
