/* tdload: a launch loader for Intel TDX trust domains, and SHA-384, for C and C++, from a library
   whose every function is proved.

   Link target/staticlib/libtdload.a, which `tools/build` writes. It is for x86-64-v2 Linux and
   needs nothing but memcpy and memset of the C library.

   What every function here asks of its caller, which C cannot check and the function does not test:

   - A pointer with a length points to that many bytes. Where the length is 0 no byte is read or
     written and any pointer will do, but for a null pointer: the bytes are lent as a Rattle slice,
     and a slice has a pointer that is not null even when it is empty.
   - A length is at most 2^63 - 1 (PTRDIFF_MAX).
   - What is lent to be written (a pointer without const) overlaps nothing else that is lent.
   - During the call no other thread writes what is lent, or reads what is lent to be written.

   No pointer needs an alignment. The caller owns every buffer: nothing of it is kept after the call.
   The functions allocate nothing, have no state of their own and always return, so several threads
   may call them at once on different buffers; they may share what is only read. */
#ifndef TDLOAD_H
#define TDLOAD_H

#include <stddef.h>
#include <stdint.h>

#ifdef __cplusplus
extern "C" {
#endif

/* ---- the launch */

/* What a launch answers. A refused one has counts of 0 and a measurement of 48 zero bytes. */
struct tdload_answer {
    uint32_t refusal;        /* 0: accepted; else the number of the first broken rule, 1 to 19 */
    uint32_t place;          /* where it is broken: 0 none, 1 a section, 2 a map record */
    uint64_t index;          /* of the section or record, from 0; 0 where there is none */
    uint64_t pages;          /* planned pages: the plan has so many records of 16 bytes */
    uint64_t hob_length;     /* bytes of the hand-off block list */
    uint64_t blocks;         /* blocks of 128 bytes that the measured stream has */
    uint8_t measurement[48]; /* SHA-384 of that stream: MRTD as the TDX module computes it */
};

/* Tries a firmware image in the TDVF format against a memory map and the guest address width, 48 or
   52. Both buffers are cleared first, over their full lengths, whatever comes of the launch.

   - Refused (`refusal` is not 0): both buffers are zero. They may be of any length; a plan buffer
     below 65,536 bytes or a HOB buffer below 8,192 is refusal 1.
   - Accepted: `plan` starts with `pages` records, one for each page in the order in which the TDX
     module adds them: address (8 bytes), data offset (4), data length (2), section type (1),
     measured 0 or 1 (1), all little-endian; `hob` starts with the hand-off block list. Zeros follow
     in both.

   The map has records of 24 bytes: start (8), length (8), kind (4; 1 RAM, 2 firmware, 3 MMIO), zero
   (4). Image and map are only read, and may be the same bytes. docs/RULES.md says what each refusal
   means. */
struct tdload_answer tdload_launch(const uint8_t *image, size_t image_length,
                                   const uint8_t *map, size_t map_length, uint32_t width,
                                   uint8_t *plan, size_t plan_length,
                                   uint8_t *hob, size_t hob_length);

/* ---- the measurement in turns */

/* What a turn is handed and hands back. Keep it as it is between two turns: it is plain numbers, may
   be copied and stored, and holds no pointer. */
struct tdload_state {
    uint64_t hash[8];      /* SHA-384's hash value after the `done` blocks reported so far */
    uint64_t done;         /* blocks done */
    uint64_t total;        /* blocks to do: those of the stream, and one for the padding */
    uint64_t image_length; /* of the image and of the plan buffer at the start */
    uint64_t plan_length;
    uint32_t refusal;      /* 0, or the launch's refusal, with its place and index */
    uint32_t place;
    uint64_t index;
};

/* What a start answers: the launch's answer, with a measurement of 48 zero bytes, and the first state. */
struct tdload_begun {
    struct tdload_answer answer;
    struct tdload_state state;
};

/* What a turn answers. */
struct tdload_turned {
    struct tdload_state state; /* for the next turn */
    uint32_t refusal;          /* 0: none; the launch's own, 1 to 19; 24: the quota is 0; 27: another length */
    uint32_t place;            /* as in tdload_answer: none, but for the launch's own */
    uint64_t index;
    uint64_t blocks;           /* blocks done in this turn */
    uint8_t measurement[48];   /* of a finished measurement, else 48 zero bytes */
};

/* Does all that tdload_launch does but for the measurement: the same refusals, and the same content of
   both buffers. A refused launch gives a refused state. */
struct tdload_begun tdload_begin(const uint8_t *image, size_t image_length,
                                 const uint8_t *map, size_t map_length, uint32_t width,
                                 uint8_t *plan, size_t plan_length,
                                 uint8_t *hob, size_t hob_length);

/* Does the next blocks of the measurement, `quota` at most. Lend the image and the plan of the start at
   every turn: then the turn that does the last block answers the measurement that tdload_launch answers,
   however the blocks were cut into turns. What another image or plan of the same lengths gives is defined
   too, block by block (docs/TURNS.md), but is the measurement of no launch.

   In this order:
   - A refused state answers its refusal, 0 blocks and the same state, whatever else is lent.
   - A quota of 0 is refusal 24, and an image or a plan of another length than at the start is refusal 27:
     0 blocks, and the same state, with which the next turn goes on.
   - A finished state answers its measurement and 0 blocks.
   - Else the smaller of `quota` and of what is left of the total is done.

   Image and plan are only read. A state that no tdload_begin and no tdload_turn gave is safe, and means
   what its fields say: a refusal that is not 0 is answered as it stands, with its place and index; `done`
   at or above `total` is finished, and `hash` is then the measurement's words; with refusal 0 the state's
   place and index are not looked at, and are handed back. */
struct tdload_turned tdload_turn(struct tdload_state state, const uint8_t *image, size_t image_length,
                                 const uint8_t *plan, size_t plan_length, uint64_t quota);

/* ---- the page view */

/* Where the bytes behind a plan record are. All three are 0 where the page has no data. */
struct tdload_view {
    uint32_t slice;  /* 0 neither, 1 the image, 2 the HOB list */
    uint32_t offset; /* from that slice's start */
    uint32_t length; /* at most 4,096; zeros follow up to the page's 4,096 bytes */
};

/* The bytes behind a plan record, by its data offset, data length and section type: a part of the
   image for types 0 and 1, of the HOB list for type 2. It answers no data where the range does not
   lie in that slice, where the length is above 4,096 and for types from 3 on, so that a damaged
   record leads to no byte outside. Lend the HOB list with its own length, `hob_length` of the answer,
   and not with the buffer's. No byte of either slice is read. */
struct tdload_view tdload_view(const uint8_t *image, size_t image_length,
                               const uint8_t *hob, size_t hob_length,
                               uint32_t offset, uint16_t length, uint8_t type);

/* ---- SHA-384 */

/* Writes the SHA-384 digest (FIPS 180-4) of the `length` bytes at `message` to the 48 bytes at
   `digest`, and no byte beside them. */
void tdload_sha384(const uint8_t *message, size_t length, uint8_t digest[48]);

#ifdef __cplusplus
}
#endif

#endif
