/* The launcher of launcher.c with its measurement in turns: tries an image against a memory map, and if it is accepted works out the measurement
   in turns and "adds" every planned page by printing what it would hand to the TDX module, in the
   module's order. A launcher that is more than an example has the calls of the TDX module in the places
   of those prints, and looks after its other tenants between two turns.

       gcc -std=c11 -Iinclude -o launcher examples/launcher_in_turns.c target/staticlib/libtdload.a
       ./launcher command/worked/image.bin command/worked/map.bin

   Status 0: launched. 1: refused. 2: wrong usage, or a file that cannot be read, or no output. */
#include <errno.h>
#include <inttypes.h>
#include <stdio.h>
#include <stdlib.h>
#include <string.h>

#include "tdload.h"

enum { LAUNCHED, REFUSED, FAILED };
enum { IMAGE_MOST = 16777216, MAP_MOST = 64 * 24, WIDTH = 48 };
enum { RECORD = 16, PLAN = 65536, HOB = 8192 };

/* What a turn of the measurement may do before others are answered: with blocks of half a microsecond,
   an eighth of a millisecond. */
enum { BLOCKS_A_TURN = 256 };

struct bytes {
    uint8_t *start;
    size_t length;
};

/* One byte more than the rules allow: it is enough to have a longer file refused. */
static uint8_t image_room[IMAGE_MOST + 1], map_room[MAP_MOST + 1];

/* The library clears both over their full lengths before anything else, so they may be used again. */
static uint8_t plan[PLAN], hob[HOB];

static void fail(const char *what, const char *name)
{
    fprintf(stderr, "launcher: cannot %s %s: %s\n", what, name, strerror(errno));
    exit(FAILED);
}

/* Reads a file, as far as there is room. */
static struct bytes read_file(const char *name, uint8_t *room, size_t size)
{
    FILE *file = fopen(name, "rb");
    if (file == NULL)
        fail("open", name);
    size_t length = fread(room, 1, size, file);
    if (ferror(file))
        fail("read", name);
    fclose(file);
    return (struct bytes){room, length};
}

static void print_refusal(uint32_t refusal, uint32_t place, uint64_t index)
{
    static const char *const places[] = {"", " section ", " record "};
    printf("refused %" PRIu32, refusal);
    if (place == 1 || place == 2)
        printf("%s%" PRIu64, places[place], index);
    printf("\n");
}

/* A little-endian number. */
static uint64_t number_at(const uint8_t *bytes, size_t count)
{
    uint64_t value = 0;
    while (count > 0)
        value = value << 8 | bytes[--count];
    return value;
}

/* What the module is told of a page: where it goes, whether its contents are measured, and where its
   bytes are. Behind them a page is filled up with zeros to 4,096 bytes. */
static void add_page(const uint8_t *record, struct bytes image, struct bytes list)
{
    static const char *const slices[] = {"zeros", "image", "hob"};
    uint32_t offset = (uint32_t)number_at(record + 8, 4);
    uint16_t length = (uint16_t)number_at(record + 12, 2);
    struct tdload_view view = tdload_view(image.start, image.length, list.start, list.length,
                                          offset, length, record[14]);
    printf("add %016" PRIx64 " %s from %s", number_at(record, 8),
           record[15] ? "measured" : "unmeasured", slices[view.slice]);
    if (view.slice != 0)
        printf(" at %" PRIu32 ", %" PRIu32 " bytes", view.offset, view.length);
    printf("\n");
}

/* Where a control thread looks whether another tenant waits for an answer. */
static void answer_others(void) {}

/* The whole measurement, or a refused turn. A refused turn leaves the state as it is, so who goes on by
   the state alone would go on for ever. */
static struct tdload_turned measure(struct tdload_state state, struct bytes image)
{
    for (;;) {
        struct tdload_turned turned = tdload_turn(state, image.start, image.length, plan, sizeof plan,
                                                  BLOCKS_A_TURN);
        state = turned.state;
        if (turned.refusal != 0 || state.done >= state.total)
            return turned;
        answer_others();
    }
}

static int launch(struct bytes image, struct bytes map)
{
    struct tdload_begun begun = tdload_begin(image.start, image.length, map.start, map.length,
                                             WIDTH, plan, sizeof plan, hob, sizeof hob);
    /* A refused start needs no care of its own: the first turn answers its refusal. */
    struct tdload_turned last = measure(begun.state, image);
    if (last.refusal != 0) {
        print_refusal(last.refusal, last.place, last.index);
        return REFUSED;
    }
    /* The list with its own length: bytes behind it are no part of any page. */
    struct bytes list = {hob, (size_t)begun.answer.hob_length};
    for (uint64_t page = 0; page < begun.answer.pages; page++)
        add_page(plan + RECORD * page, image, list);
    printf("measurement ");
    for (size_t at = 0; at < sizeof last.measurement; at++)
        printf("%02x", last.measurement[at]);
    printf("\n");
    return LAUNCHED;
}

int main(int count, char **words)
{
    if (count != 3) {
        fprintf(stderr, "usage: launcher IMAGE MAP\n");
        return FAILED;
    }
    struct bytes image = read_file(words[1], image_room, sizeof image_room);
    struct bytes map = read_file(words[2], map_room, sizeof map_room);
    int status = launch(image, map);
    /* What is printed stands for pages added, so it must have arrived. */
    if (fflush(stdout) != 0 || ferror(stdout))
        fail("write to", "standard output");
    return status;
}
