/* Measures how much stack the library's functions use: each runs on a stack of its own, painted
   beforehand, against an unreadable page, and the lowest byte that it changed is looked for. Then it
   runs again on a stack that is exactly so large, to see that this is enough. `bench/stack` builds
   and runs it. */
#define _DEFAULT_SOURCE
#include <stdint.h>
#include <stdio.h>
#include <stdlib.h>
#include <string.h>
#include <sys/mman.h>
#include <ucontext.h>

#include "tdload.h"

#define PAGE ((size_t)4096)
#define ROOM (16 * PAGE)

static uint8_t image[16 << 20], plan[65536], hob[8192], map[48], digest[48];
static size_t image_length;
static struct tdload_answer answer;
static struct tdload_begun begun;
static struct tdload_turned turned;
static ucontext_t here, there;

static void nothing(void) {}

static void hash(void) { tdload_sha384(image, image_length, digest); }

static void launch(void) {
    answer = tdload_launch(image, image_length, map, sizeof map, 48, plan, sizeof plan, hob, sizeof hob);
}

static void begin(void) {
    begun = tdload_begin(image, image_length, map, sizeof map, 48, plan, sizeof plan, hob, sizeof hob);
}

/* The first turn, with the last block in it. */
static void turn(void) {
    turned = tdload_turn(begun.state, image, image_length, plan, sizeof plan, UINT64_MAX);
}

static void put(uint8_t *at, size_t bytes, uint64_t value) {
    for (size_t k = 0; k < bytes; k++) at[k] = (uint8_t)(value >> (8 * k));
}

static void section(uint8_t *at, uint64_t raw, uint64_t address, uint64_t size, uint64_t type, uint64_t attributes) {
    put(at + 4, 4, raw);
    put(at + 8, 8, address);
    put(at + 16, 8, size);
    put(at + 24, 4, type);
    put(at + 28, 4, attributes);
}

/* An image of `length` bytes whose boot volume is `pages` pages, all measured, and a map for it. */
static void prepare(size_t length, uint64_t pages) {
    size_t start = length - 32 - 80;
    image_length = length;
    for (size_t k = 0; k < length; k++) image[k] = (uint8_t)(k * 7 % 251);
    memset(image + start, 0, length - start);
    memcpy(image + start, "TDVF", 4);
    put(image + start + 4, 4, 80);
    put(image + start + 8, 4, 1);
    put(image + start + 12, 4, 2);
    section(image + start + 16, pages * PAGE, 0x100000000, pages * PAGE, 0, 1);
    section(image + start + 48, 0, 0x9000, 0x1000, 2, 0);
    put(image + length - 32, 4, start);
    put(map + 8, 8, 0x10000);
    put(map + 16, 4, 1);
    put(map + 24, 8, 0x100000000);
    put(map + 32, 8, 0x10000000);
    put(map + 40, 4, 2);
}

/* Runs on a stack that ends at `top` and has `size` bytes. */
static void run(void (*function)(void), uint8_t *top, size_t size) {
    getcontext(&there);
    there.uc_stack.ss_sp = top - size;
    there.uc_stack.ss_size = size;
    there.uc_link = &here;
    makecontext(&there, function, 0);
    swapcontext(&here, &there);
}

static size_t used(void (*function)(void), uint8_t *low) {
    memset(low, 0xA5, ROOM);
    run(function, low + ROOM, ROOM);
    size_t at = 0;
    while (at < ROOM && low[at] == 0xA5) at++;
    return ROOM - at;
}

int main(void) {
    uint8_t *low = mmap(NULL, ROOM + PAGE, PROT_READ | PROT_WRITE, MAP_PRIVATE | MAP_ANONYMOUS, -1, 0);
    if (low == MAP_FAILED || mprotect(low, PAGE, PROT_NONE) != 0) return perror("stack"), 1;
    low += PAGE;
    prepare(sizeof image, 4095);
    struct { const char *name; void (*function)(void); } tried[] = {
        {"tdload_sha384, 16 MiB", hash}, {"tdload_launch, 16 MiB all measured", launch},
        {"tdload_begin of the same", begin}, {"tdload_turn, all blocks of it in one", turn}};
    size_t bare = used(nothing, low);
    for (size_t k = 0; k < sizeof tried / sizeof *tried; k++) {
        size_t bytes = used(tried[k].function, low);
        printf("%-36s %5zu bytes, of which %zu are this program's own\n", tried[k].name, bytes, bare);
        memset(low, 0xA5, ROOM);
        /* The unreadable page stands right below. */
        run(tried[k].function, low + bytes, bytes);
    }
    if (answer.refusal != 0) return printf("refused %u\n", answer.refusal), 1;
    if (memcmp(answer.measurement, turned.measurement, 48) != 0) return puts("the measurements differ"), 1;
    puts("each ran again on a stack of exactly that size; a call's arguments and the room for its answer are counted in");
    return 0;
}
