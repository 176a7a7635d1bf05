/*
 * Lists two scripts through grain.h: one whose last instruction is whole, and one whose operands are
 * cut off. Prints a line for each instruction and one for the end, and exits with 0 only if the two
 * end as expected.
 */
#include "grain.h"

#include <inttypes.h>
#include <stdio.h>
#include <stdlib.h>

/* Prints the instructions of a code in turn, and answers how the listing ended. */
static grain_item list(const char *script, const uint8_t *code, size_t code_len)
{
    size_t at = 0;
    grain_item item = grain_item_at(code, code_len, at);
    printf("%s:\n", script);
    while (item.kind == GRAIN_ITEM_INSTRUCTION) {
        printf("  %" PRIu64 ": tag 0x%02" PRIx32 ", width %" PRIu64 "\n", item.at, item.tag, item.width);
        at = (size_t)item.next;
        item = grain_item_at(code, code_len, at);
    }
    if (item.kind == GRAIN_ITEM_END) {
        printf("  %zu: the end\n", at);
    } else {
        printf("  %" PRIu64 ": no width\n", item.at);
    }
    return item;
}

int main(void)
{
    const uint8_t whole[] = {0x01, 0x24, 0x02, 0x00, 0x07}; /* UNIT, LOAD_CONST 2, RETURN */
    const uint8_t cut[] = {0x01, 0x24, 0x02};               /* UNIT, and LOAD_CONST without its last byte */
    const grain_item first = list("01 24 02 00 07", whole, sizeof whole);
    const grain_item second = list("01 24 02", cut, sizeof cut);
    const int expected = first.kind == GRAIN_ITEM_END && second.kind == GRAIN_ITEM_NO_WIDTH && second.at == 1;
    return expected ? EXIT_SUCCESS : EXIT_FAILURE;
}
