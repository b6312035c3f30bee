/* What the programs in C share: buffers for the calls, and the making of a register block. */
#ifndef COMMON_H
#define COMMON_H

#include "../include/pyhtirso.h"
#include <stdio.h>
#include <stdlib.h>
#include <string.h>

enum { OUT = 8192, COOKIE = 64, RANDOM = 48, BLOCK = 512 };

static uint8_t out[OUT], cookie_out[COOKIE], random_bytes[RANDOM];
static uint64_t outcome[PYHTIRSO_OUTCOME];

/* The house check over the first 508 bytes of a block, written into its last four. */
static void seal(uint8_t *block)
{
    uint32_t a = 1, b = 0, sum;
    for (int i = 0; i < 508; i++) {
        a = (a + block[i]) % 65535;
        b = (b + a) % 65535;
    }
    sum = b * 65536 + a;
    for (int i = 0; i < 4; i++)
        block[508 + i] = (uint8_t)(sum >> (8 * i));
}

/* A register block of a service and its callback. */
static void panel(uint8_t *block, const char *service, const char *callback)
{
    memset(block, 0, BLOCK);
    block[0] = (uint8_t)strlen(service);
    block[2] = (uint8_t)strlen(callback);
    memcpy(block + 4, service, strlen(service));
    memcpy(block + 204, callback, strlen(callback));
    seal(block);
}
#endif
