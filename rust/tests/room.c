/*
 * Prints grain_room_for of each script on its standard input, for the test that holds it against the
 * same function in Rust. A script is numbers in decimal: the bytes of code and how many they are
 * before them, likewise the words of switches, and the number of chunks.
 */
#include "grain.h"

#include <inttypes.h>
#include <stdio.h>
#include <stdlib.h>

/* So many numbers, in memory of its own; null where they are not there. */
static uint32_t *numbers(size_t count)
{
    uint32_t *all = (uint32_t *)malloc((count + 1) * sizeof *all);
    size_t i;
    for (i = 0; all != NULL && i < count; i++) {
        if (scanf("%" SCNu32, all + i) != 1) {
            free(all);
            return NULL;
        }
    }
    return all;
}

int main(void)
{
    size_t code_len, switches_len, chunk_count, i;
    while (scanf("%zu", &code_len) == 1) {
        uint32_t *bytes = numbers(code_len);
        uint32_t *switches = scanf("%zu", &switches_len) == 1 ? numbers(switches_len) : NULL;
        uint8_t *code = (uint8_t *)malloc(code_len + 1);
        grain_room room;
        if (bytes == NULL || switches == NULL || code == NULL || scanf("%zu", &chunk_count) != 1) {
            return EXIT_FAILURE;
        }
        for (i = 0; i < code_len; i++) {
            code[i] = (uint8_t)bytes[i];
        }
        room = grain_room_for(code, code_len, switches, switches_len, chunk_count);
        printf("%zu %zu %zu %zu\n", room.marks, room.heights, room.records, room.work);
        free(code);
        free(switches);
        free(bytes);
    }
    return EXIT_SUCCESS;
}
