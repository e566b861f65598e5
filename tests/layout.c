/* Prints the layout of the header's structs as C has it. tests/layout compares. */
#include <stdalign.h>
#include <stddef.h>
#include <stdio.h>

#include "tdload.h"

#define WHOLE(name) \
    printf(#name " size %zu alignment %zu\n", sizeof(struct name), alignof(struct name))
#define FIELD(name, field) \
    printf(#name " " #field " offset %zu size %zu\n", offsetof(struct name, field), \
           sizeof(((struct name *)0)->field))

int main(void)
{
    WHOLE(tdload_answer);
    FIELD(tdload_answer, refusal);
    FIELD(tdload_answer, place);
    FIELD(tdload_answer, index);
    FIELD(tdload_answer, pages);
    FIELD(tdload_answer, hob_length);
    FIELD(tdload_answer, blocks);
    FIELD(tdload_answer, measurement);
    WHOLE(tdload_state);
    FIELD(tdload_state, hash);
    FIELD(tdload_state, done);
    FIELD(tdload_state, total);
    FIELD(tdload_state, image_length);
    FIELD(tdload_state, plan_length);
    FIELD(tdload_state, refusal);
    FIELD(tdload_state, place);
    FIELD(tdload_state, index);
    WHOLE(tdload_begun);
    FIELD(tdload_begun, answer);
    FIELD(tdload_begun, state);
    WHOLE(tdload_turned);
    FIELD(tdload_turned, state);
    FIELD(tdload_turned, refusal);
    FIELD(tdload_turned, place);
    FIELD(tdload_turned, index);
    FIELD(tdload_turned, blocks);
    FIELD(tdload_turned, measurement);
    WHOLE(tdload_view);
    FIELD(tdload_view, slice);
    FIELD(tdload_view, offset);
    FIELD(tdload_view, length);
    return 0;
}
