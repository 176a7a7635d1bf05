/*
 * Verifies two scripts through grain.h: one that is sound, and one that pops from an empty stack.
 * Prints each answer, and exits with 0 only if both are the ones expected.
 */
#include "grain.h"

#include <inttypes.h>
#include <stdio.h>
#include <stdlib.h>

/* What a caller keeps of an answer. */
typedef struct answer {
    int asked; /* 0 where memory ran out before the call */
    grain_verdict verdict;
    uint16_t height;
} answer;

/* Asks about a code without tables or rights, with one chunk over all of it. */
static answer verify(const uint8_t *code, size_t code_len, uint16_t max_stack)
{
    const grain_chunk chunk = {0, (uint32_t)code_len, max_stack};
    const grain_room room = grain_room_for(code, code_len, NULL, 0, 1);
    uint64_t *marks = (uint64_t *)calloc(room.marks, sizeof *marks);
    uint32_t *records = (uint32_t *)calloc(room.records, sizeof *records);
    uint32_t *work = (uint32_t *)calloc(room.work, sizeof *work);
    answer got = {0, {0, 0, 0, 0, 0, 0, 0, 0}, 0};
    if (marks != NULL && records != NULL && work != NULL) {
        got.asked = 1;
        got.verdict = grain_verify(
            0, 0,        /* rights, functions */
            NULL, 0,     /* constants */
            NULL, 0,     /* names */
            0, 0,        /* tokens, op-assignments */
            NULL, 0,     /* chains */
            NULL, 0,     /* steps */
            NULL, 0,     /* switches */
            NULL, 0,     /* cases */
            NULL, 0,     /* ranges */
            code, code_len,
            &chunk, 1,
            marks, room.marks,
            &got.height, room.heights,
            records, room.records,
            work, room.work);
    }
    free(work);
    free(records);
    free(marks);
    return got;
}

static void print(const char *script, answer got)
{
    const grain_verdict v = got.verdict;
    if (!got.asked) {
        printf("%s: no memory\n", script);
    } else if (v.kind == GRAIN_ACCEPTED) {
        printf("%s: accepted, height %u, instructions %" PRIu64 ", reached %" PRIu64 ", taken %" PRIu64 "\n",
            script, got.height, v.instructions, v.reached, v.taken);
    } else {
        printf("%s: refused, kind %" PRIu32 ", chunk %" PRIu32 ", at %" PRIu64 ", p %" PRIu64 ", q %" PRIu64 "\n",
            script, v.kind, v.chunk, v.at, v.p, v.q);
    }
}

int main(void)
{
    const uint8_t sound[] = {0x01, 0x07}; /* UNIT, RETURN */
    const uint8_t empty[] = {0x07};       /* RETURN with nothing on the stack */
    const answer first = verify(sound, sizeof sound, 9);
    const answer second = verify(empty, sizeof empty, 9);
    const grain_verdict refused = second.verdict;
    int expected = first.asked && first.verdict.kind == GRAIN_ACCEPTED && first.height == 1;
    expected = expected && second.asked && refused.kind == GRAIN_UNDERFLOW && refused.chunk == 0;
    expected = expected && refused.at == 0 && refused.p == 1 && refused.q == 0;
    print("01 07", first);
    print("07", second);
    return expected ? EXIT_SUCCESS : EXIT_FAILURE;
}
