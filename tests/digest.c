/* Reads messages from standard input, each after its length (8 bytes, little-endian), and writes the
   48 bytes of each one's digest to standard output. tests/digest sends the messages and compares.

   Status 1: tdload_sha384 changed a byte that is not its own. Status 2: the input is malformed. */
#include <stddef.h>
#include <stdint.h>
#include <stdio.h>
#include <stdlib.h>
#include <string.h>

#include "tdload.h"

/* GUARD is odd and the arrays are aligned, so neither the message nor the digest is aligned: the
   library may assume nothing of either. */
enum { DIGEST = 48, LONGEST = 1 << 20, GUARD = 17, MARK = 0xa5 };

static _Alignas(16) uint8_t sent[GUARD + LONGEST + GUARD];
static uint8_t kept[GUARD + LONGEST + GUARD];
static _Alignas(16) uint8_t written[GUARD + DIGEST + GUARD];

static void stop(int status, const char *why, size_t length)
{
    fprintf(stderr, "tests/digest.c: %s (message of %zu bytes)\n", why, length);
    exit(status);
}

/* Whether there is another message: then its length is read, else the input is at its end. */
static int next_length(size_t *length)
{
    uint8_t prefix[8];
    size_t got = fread(prefix, 1, sizeof prefix, stdin);
    if (got == 0)
        return 0;
    if (got != sizeof prefix)
        stop(2, "the input ends within a length", 0);
    uint64_t value = 0;
    for (int i = 7; i >= 0; i--)
        value = value << 8 | prefix[i];
    if (value > LONGEST)
        stop(2, "the message is too long", (size_t)value);
    *length = (size_t)value;
    return 1;
}

/* Reads the message between two guards, and keeps a copy of it with them. */
static void read_message(size_t length)
{
    memset(sent, MARK, GUARD);
    if (fread(sent + GUARD, 1, length, stdin) != length)
        stop(2, "the input ends within a message", length);
    memset(sent + GUARD + length, MARK, GUARD);
    memcpy(kept, sent, GUARD + length + GUARD);
}

/* The digest's own bytes are marked too before the call: one that is not written differs then. */
static void digest_message(size_t length)
{
    memset(written, MARK, sizeof written);
    tdload_sha384(sent + GUARD, length, written + GUARD);
    if (memcmp(sent, kept, GUARD + length + GUARD) != 0)
        stop(1, "the message or a byte beside it was changed", length);
    for (size_t i = 0; i < GUARD; i++)
        if (written[i] != MARK || written[GUARD + DIGEST + i] != MARK)
            stop(1, "a byte beside the 48 of the digest was changed", length);
}

int main(void)
{
    size_t length;
    while (next_length(&length)) {
        read_message(length);
        digest_message(length);
        /* The other side waits for each digest before it sends the next message. */
        if (fwrite(written + GUARD, 1, DIGEST, stdout) != DIGEST || fflush(stdout) != 0)
            stop(2, "cannot write", length);
    }
    return 0;
}
