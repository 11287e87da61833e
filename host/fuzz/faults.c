/* Slips for the fuzz target to find; FAULT in the environment has the number. The linker puts the two functions before the library's. */
#include "sks.h"

#include <stdlib.h>
#include <string.h>

uint8_t __real_sks_format(uint8_t *store, size_t store_len);
uint8_t __real_sks_call(uint8_t *store, size_t store_len, const uint8_t *call, size_t call_len, const uint8_t *chip, size_t chip_len,
                        uint8_t *reply, size_t reply_len);

static volatile uint8_t sink;

static int fault(void)
{
    static int number;
    if (number == 0)
        number = atoi(getenv("FAULT"));
    return number;
}

uint8_t __wrap_sks_format(uint8_t *store, size_t store_len)
{
    uint8_t status = __real_sks_format(store, store_len);
    if (fault() == 1 && status == SKS_DONE)
        store[store_len - 1] = 1;
    if (fault() == 2 && status == SKS_UNSOUND && store_len > 0)
        store[0] ^= 1;
    return status;
}

uint8_t __wrap_sks_call(uint8_t *store, size_t store_len, const uint8_t *call, size_t call_len, const uint8_t *chip, size_t chip_len,
                        uint8_t *reply, size_t reply_len)
{
    static unsigned asked;
    uint8_t before[256 * 256], method = call_len > 0 ? call[0] : 0, status;

    memcpy(before, store, store_len < sizeof before ? store_len : sizeof before);
    status = __real_sks_call(store, store_len, call, call_len, chip, chip_len, reply, reply_len);
    asked++;
    switch (fault()) {
    /* Bytes that were not lent. */
    case 3: sink = call[call_len]; break;
    case 4: sink = call[-1]; break;
    case 5: sink = chip[chip_len]; break;
    case 6: sink = chip[-1]; break;
    case 7: sink = store[store_len]; break;
    case 8: sink = store[-1]; break;
    case 9: sink = reply[reply_len]; break;
    case 10: sink = reply[-1]; break;
    case 11: store[store_len] = 0; break;
    case 12: store[-1] = 0; break;
    case 13: reply[reply_len] = 0; break;
    case 14: reply[-1] = 0; break;
    /* Bytes that were lent for reading. */
    case 15: if (call_len > 0) ((uint8_t *)call)[call_len - 1] ^= 1; break;
    case 16: if (chip_len > 0) ((uint8_t *)chip)[0] ^= 1; break;
    /* The reply. */
    case 17: if (reply_len > 37) reply[37] = 0; break;
    case 18: if (reply_len > 0 && reply_len < 37) reply[0] = status; break;
    case 19: if (status == SKS_MAC) reply[0] = SKS_FORM; break;
    case 20: if (status == SKS_MAC) reply[4] = 1; break;
    case 21: if (status == SKS_DONE && method == 80) reply[36] = 1; break;
    /* The status. */
    case 22: if (status == SKS_NO_KEY) status = reply[0] = SKS_PARENT_MISSING; break;
    case 23: if (status == SKS_NO_KEY) status = reply[0] = 18; break;
    case 24: if (status == SKS_FORM && call_len < 5) status = reply[0] = SKS_NO_SESSION; break;
    case 25: if (status == SKS_UNSOUND && store_len == 511) status = reply[0] = SKS_FORM; break;
    /* The store. */
    case 26: if (status == SKS_UNSOUND && store_len > 0) store[store_len - 1] ^= 1; break;
    case 27: if (status == SKS_SHORT_REPLY && store_len > 0) store[0] ^= 1; break;
    case 28: if (status == SKS_FORM && call_len < 5) store[0] ^= 1; break;
    case 29: if (status == SKS_NO_SESSION) store[0] ^= 1; break;
    case 30: if (status == SKS_NOT_ALLOWED && method == 83) store[0] ^= 1; break;
    case 31: if (status == SKS_FULL && method == 2) store[0] ^= 1; break;
    case 32: if (status == SKS_AUTHORIZATION) store[7] += 1; break;
    case 33: if (status == SKS_MAC) memcpy(store, before, store_len); break;
    case 34: if (status == SKS_MAC) memset(store, 0, 256); break;
    /* An answer that hangs on something else than what was lent. */
    case 35: if (status == SKS_MAC && asked % 2) status = reply[0] = SKS_SIGNATURE; break;
    case 36: if (status == SKS_DONE && method == 100 && asked % 2) store[7] ^= 1; break;
    case 37: if (status == SKS_DONE && method == 10 && asked % 2) reply[36] ^= 1; break;
    }
    return status;
}
