/*
 * The chunk verifier for Grain bytecode, for callers in C and C++.
 *
 * One call of grain_verify decides about a whole script: its code, its tables and its chunks. It is
 * proved to answer any input, to end, and to touch nothing but the four buffers lent to it.
 * grain_item_at lists code, one instruction at a time, for people and for tools.
 * README.md says how to build and link the library, docs/PROMISES.md what is proved of it.
 *
 * What is left to the caller's word, since no callee can test it:
 *   - a pointer has as many elements as the length beside it says, and is aligned for its type;
 *   - a pointer is null only where its length is 0;
 *   - none of the four buffers overlaps another or anything that the call reads, and nobody else
 *     reads or writes them during the call;
 *   - nobody writes anything that the call reads while it runs.
 * Everything else may hold anything. What is read is never changed by the call.
 *
 * The library is for x86-64. It asks its linker for memset and for nothing else.
 */
#ifndef GRAIN_H
#define GRAIN_H

#include <stddef.h>
#include <stdint.h>

#ifdef __cplusplus
extern "C" {
#endif

/* Fails to compile where size_t is not 64 bits wide. */
typedef char grain_size_has_64_bits[sizeof(size_t) == 8 ? 1 : -1];

/* ---- What is read --------------------------------------------------------------------------- */

/* The most that a script may have. A table is counted in whole entries. */
#define GRAIN_MAX_CODE 65536 /* bytes */
#define GRAIN_MAX_CONSTANTS 65536
#define GRAIN_MAX_NAMES 65536
#define GRAIN_MAX_TOKENS 65536
#define GRAIN_MAX_OP_ASSIGNMENTS 65536
#define GRAIN_MAX_STEPS 65536
#define GRAIN_MAX_CASES 65536
#define GRAIN_MAX_RANGES 65536
#define GRAIN_MAX_CHAINS 4096
#define GRAIN_MAX_SWITCHES 4096
#define GRAIN_MAX_CHUNKS 1024

/*
 * Tables are words of 32 bits. A span in a table is the number of its first entry and a count; both
 * together may not pass the table's whole entries, also where the count is 0.
 *
 *   chain, 7 words   0  root: GRAIN_ROOT_*
 *                    1  name, for a local or named root
 *                    2  operands that the chain takes from the stack
 *                    3  tail: GRAIN_TAIL_*
 *                    4  operator, as an index of the op-assignments, for GRAIN_TAIL_ASSIGN_OP
 *                    5  first step
 *                    6  steps
 *   step, 4 words    0  kind: GRAIN_STEP_*
 *                    1  name, for a property or a method
 *                    2  getter, a name, for a property
 *                    3  setter, a name, for a property
 *   switch, 5 words  0  first case
 *                    1  cases
 *                    2  first range
 *                    3  ranges
 *                    4  default: the target where nothing matches
 *   case, 2 words    0  target
 *                    1  constant
 *   range, 1 word    0  target
 *
 * A target is an offset in the code. Words that an entry has no use for may hold anything.
 */
#define GRAIN_CHAIN_WORDS 7
#define GRAIN_STEP_WORDS 4
#define GRAIN_SWITCH_WORDS 5
#define GRAIN_CASE_WORDS 2
#define GRAIN_RANGE_WORDS 1

enum { GRAIN_ROOT_LOCAL = 0, GRAIN_ROOT_NAMED = 1, GRAIN_ROOT_THIS = 2, GRAIN_ROOT_TEMPORARY = 3 };
enum { GRAIN_TAIL_READ = 0, GRAIN_TAIL_ASSIGN = 1, GRAIN_TAIL_ASSIGN_OP = 2 };
enum { GRAIN_STEP_INDEX = 0, GRAIN_STEP_PROPERTY = 1, GRAIN_STEP_METHOD = 2 };

/* The bits of a word of rights. A bit that has no name here counts like the others. */
#define GRAIN_RIGHT_FUNCTION (UINT32_C(1) << 0)
#define GRAIN_RIGHT_THIS (UINT32_C(1) << 1)
#define GRAIN_RIGHT_INDEXING (UINT32_C(1) << 2)
#define GRAIN_RIGHT_PROPERTY (UINT32_C(1) << 3)
#define GRAIN_RIGHT_METHOD (UINT32_C(1) << 4)
#define GRAIN_RIGHT_FN_PTR (UINT32_C(1) << 5)
#define GRAIN_RIGHT_CURRYING (UINT32_C(1) << 6)
#define GRAIN_RIGHT_SHARING (UINT32_C(1) << 7)
#define GRAIN_RIGHT_ARRAY (UINT32_C(1) << 8)
#define GRAIN_RIGHT_MAP (UINT32_C(1) << 9)
#define GRAIN_RIGHT_CUSTOM_SYNTAX (UINT32_C(1) << 10)
#define GRAIN_RIGHT_EXPORT (UINT32_C(1) << 11)
#define GRAIN_RIGHT_IMPORT (UINT32_C(1) << 12)
#define GRAIN_RIGHT_MODULE (UINT32_C(1) << 13)
#define GRAIN_RIGHT_FLOAT (UINT32_C(1) << 14)
#define GRAIN_RIGHT_DECIMAL (UINT32_C(1) << 15)
#define GRAIN_RIGHT_BLOB (UINT32_C(1) << 16)

/* One chunk: a span of the code that runs with an operand stack of its own. */
typedef struct grain_chunk {
    uint32_t entry;     /* offset of its first instruction */
    uint32_t end;       /* offset just past it */
    uint16_t max_stack; /* the stack height that the script declares for it */
} grain_chunk;
typedef char grain_chunk_has_12_bytes[sizeof(grain_chunk) == 12 ? 1 : -1];

/* ---- What comes back ------------------------------------------------------------------------ */

/*
 * The kinds of an answer, with what p, q and at hold for each. What is not named holds 0.
 * Kinds 1, 2, 5 and 6 come before the chunks, and so do 3 for marks and heights and 4 for a constant
 * and for the right to have functions. All other refusals are about a chunk.
 */
enum {
    /* The script is sound. */
    GRAIN_ACCEPTED = 0,
    /* More of something than its limit allows. p: GRAIN_LIMIT_*. */
    GRAIN_TOO_LARGE = 1,
    /*
     * A table that is no whole number of entries, or an entry with an unknown root, tail or kind or
     * with a span past its table. p: GRAIN_TABLE_*; q: the entry, or the number of whole entries.
     */
    GRAIN_BAD_TABLE = 2,
    /* A buffer is too small. p: the elements needed; q: GRAIN_BUFFER_*. */
    GRAIN_NO_ROOM = 3,
    /*
     * A right lacks. In a chunk, at: the instruction; p: the rights that lack. Before the chunks at is
     * 0; p: the whole word of a constant, or GRAIN_RIGHT_FUNCTION for a script that has functions.
     */
    GRAIN_MISSING_CAPS = 4,
    /* No instruction stands there: an unknown tag, or operands cut off. at: its offset. */
    GRAIN_UNDECODABLE = 5,
    /* An index with nothing behind it. at: the instruction; p: the index; q: GRAIN_POOL_*. */
    GRAIN_BAD_INDEX = 6,
    /* A chunk that does not lie in the code. p: its entry; q: its end. */
    GRAIN_CHUNK_OUT_OF_RANGE = 7,
    /* A chunk that does not begin at an instruction. p: its entry. */
    GRAIN_MISALIGNED = 8,
    /* A jump out of the chunk. at: the jump; p: its target. */
    GRAIN_JUMP_OUT_OF_RANGE = 9,
    /* A jump to a place that is no instruction's start. at: the jump; p: its target. */
    GRAIN_JUMP_INTO_AN_INSTRUCTION = 10,
    /*
     * Two ways to one place with different depths of operands, iterators or handlers. at: the place;
     * p: the operands of the first way; q: those of the second. They may be equal.
     */
    GRAIN_DEPTH_CONFLICT = 11,
    /* Too few operands. at: the instruction; p: how many it needs; q: how many there are. */
    GRAIN_UNDERFLOW = 12,
    /* Control runs past the chunk's end. */
    GRAIN_FALLS_OFF_THE_END = 13,
    /* The stack grows above what is declared. p: the height reached; q: the one declared. */
    GRAIN_STACK_EXCEEDS_DECLARED = 14,
    /* An instruction needs an iterator, and there is none. at: the instruction. */
    GRAIN_ITERATOR_UNDERFLOW = 15,
    /* An instruction needs a handler, and there is none. at: the instruction. */
    GRAIN_HANDLER_UNDERFLOW = 16
};

/* p of GRAIN_TOO_LARGE. */
enum {
    GRAIN_LIMIT_CODE = 1,
    GRAIN_LIMIT_CONSTANTS = 2,
    GRAIN_LIMIT_NAMES = 3,
    GRAIN_LIMIT_TOKENS = 4,
    GRAIN_LIMIT_OP_ASSIGNMENTS = 5,
    GRAIN_LIMIT_STEPS = 6,
    GRAIN_LIMIT_CASES = 7,
    GRAIN_LIMIT_RANGES = 8,
    GRAIN_LIMIT_CHAINS = 9,
    GRAIN_LIMIT_SWITCHES = 10,
    GRAIN_LIMIT_CHUNKS = 11
};

/* p of GRAIN_BAD_TABLE. */
enum { GRAIN_TABLE_CHAIN = 1, GRAIN_TABLE_STEP = 2, GRAIN_TABLE_SWITCH = 3, GRAIN_TABLE_CASE = 4 };

/* q of GRAIN_NO_ROOM. */
enum {
    GRAIN_BUFFER_MARKS = 1,
    GRAIN_BUFFER_HEIGHTS = 2,
    GRAIN_BUFFER_RECORDS = 3,
    GRAIN_BUFFER_WORK = 4
};

/* q of GRAIN_BAD_INDEX. There are no custom syntax sites, so every index of one is bad. */
enum {
    GRAIN_POOL_CONSTANT = 1,
    GRAIN_POOL_NAME = 2,
    GRAIN_POOL_OPERATOR = 3,
    GRAIN_POOL_OP_ASSIGNMENT = 4,
    GRAIN_POOL_CHAIN = 5,
    GRAIN_POOL_SWITCH = 6,
    GRAIN_POOL_SITE = 7
};

/* The chunk of an answer that is about none: an acceptance, or a refusal before the chunks. */
#define GRAIN_NO_CHUNK UINT32_C(4294967295)

/* The answer. */
typedef struct grain_verdict {
    uint32_t kind;  /* GRAIN_ACCEPTED to GRAIN_HANDLER_UNDERFLOW */
    uint32_t chunk; /* number of the chunk refused, from 0; else GRAIN_NO_CHUNK */
    uint64_t at;    /* an offset in the code, for the kinds that name one */
    uint64_t p;     /* what the kind says */
    uint64_t q;     /* what the kind says */
    /* On acceptance; 0 on refusal. */
    uint64_t instructions; /* instructions in the code */
    uint64_t reached;      /* of each chunk, instructions that a run can come to; summed over chunks */
    uint64_t taken;        /* of each chunk, 1 + the edges out of those; summed over chunks */
} grain_verdict;
typedef char grain_verdict_has_56_bytes[sizeof(grain_verdict) == 56 ? 1 : -1];

/* ---- The call ------------------------------------------------------------------------------- */

/*
 * Verifies a script. Read are
 *
 *   rights          what the script may do, as GRAIN_RIGHT_*
 *   functions       how many functions it has; only whether it has any matters
 *   constants       for each constant, the rights that it needs, 0 for none
 *   names           for each name, a byte that is not 0 where the name is qualified
 *   tokens          how many operators there are
 *   op_assignments  how many assignment operators there are
 *   chains, steps, switches, cases, ranges
 *                   the tables above; their lengths count words
 *   code            the bytes of all instructions
 *   chunks          the spans to verify, which may overlap and come in any order
 *
 * and lent are four buffers, which may hold anything before the call. They need, in elements,
 *
 *   marks    code_len / 64 + 1, for any code
 *   heights  chunks_len
 *   records  4 x (1 + T), for the chunk with the most
 *   work     4 x (1 + E), for the chunk with the most
 *
 * where T and E are over the instructions that start in a chunk, whether a run comes to them or not: T
 * counts the targets that they name, repeated ones again, and E the edges out of them, which are none
 * for RETURN and THROW, 1 for JUMP, cases + ranges + 1 for SWITCH, 2 for any other instruction that
 * names a target, and 1 for all others. grain_room_for gives room enough. What is lent beyond the need
 * does no harm.
 *
 * On return they hold, by kind:
 *
 *   1, 2, and 3 for marks or heights  all four as they were before the call
 *   0                                 marks: bit i % 64 of word i / 64 is set exactly if an instruction
 *                                     starts at offset i; all other bits of all words are 0.
 *                                     heights: for each chunk the greatest height of its stack.
 *   any other                         marks: all 0. heights: for each chunk before the one refused the
 *                                     greatest height of its stack; nothing where none was judged yet.
 *
 * Elements of heights not named here are as they were. After every kind but those of the first line
 * all of records and work is 0.
 *
 * The first test that fails decides the answer, in this order: limits; tables; room for marks and
 * heights; rights of the constants; each instruction of the code, its width and then its indices;
 * the right to have functions; then the chunks from the first to the last, of each its span, room for
 * records and work, its instructions as a run can come to them, and its declared height.
 */
grain_verdict grain_verify(
    uint32_t rights, uint32_t functions,
    const uint32_t *constants, size_t constants_len,
    const uint8_t *names, size_t names_len,
    size_t tokens, size_t op_assignments,
    const uint32_t *chains, size_t chains_len,
    const uint32_t *steps, size_t steps_len,
    const uint32_t *switches, size_t switches_len,
    const uint32_t *cases, size_t cases_len,
    const uint32_t *ranges, size_t ranges_len,
    const uint8_t *code, size_t code_len,
    const grain_chunk *chunks, size_t chunks_len,
    uint64_t *marks, size_t marks_len,
    uint16_t *heights, size_t heights_len,
    uint32_t *records, size_t records_len,
    uint32_t *work, size_t work_len);

/* ---- The listing ---------------------------------------------------------------------------- */

/* What stands at an offset of the code. */
enum {
    /* An instruction. */
    GRAIN_ITEM_INSTRUCTION = 0,
    /* The code's end: the offset is past its last byte. */
    GRAIN_ITEM_END = 1,
    /* A byte without a width: an unknown tag, or operands cut off. */
    GRAIN_ITEM_NO_WIDTH = 2
};

/* One item of the listing. What its kind has no use for is 0. */
typedef struct grain_item {
    uint32_t kind;  /* GRAIN_ITEM_* */
    uint32_t tag;   /* of an instruction, its first byte */
    uint64_t at;    /* its offset; 0 for GRAIN_ITEM_END */
    uint64_t width; /* of an instruction, how many bytes it has, operands included */
    uint64_t next;  /* of an instruction, the offset after it */
} grain_item;
typedef char grain_item_has_32_bytes[sizeof(grain_item) == 32 ? 1 : -1];

/*
 * What stands at an offset, which may be any: code beyond GRAIN_MAX_CODE is listed too. From offset 0
 * on, with each instruction's next as the next offset, the calls list the code's instructions in turn,
 * and end in one of the other two kinds. Nothing is lent, and nothing is stored.
 */
grain_item grain_item_at(const uint8_t *code, size_t code_len, size_t at);

/* ---- How much to lend ----------------------------------------------------------------------- */

/* A number of elements for each buffer. */
typedef struct grain_room {
    size_t marks;
    size_t heights;
    size_t records;
    size_t work;
} grain_room;

/* The tag of a switch, behind which two bytes of an index stand, the lower one first. */
#define GRAIN_SWITCH_TAG 0x31

/* The lesser of a count and the most that a table may hold: above it a script is refused in any case. */
static inline size_t grain_at_most(size_t count, size_t most)
{
    return count < most ? count : most;
}

/*
 * The targets that switches can name at most: over each byte that could be the tag of a switch with
 * its operands behind it, the cases, the ranges and the default of the entry that it would name.
 */
static inline size_t grain_switch_targets(
    const uint8_t *code, size_t code_len, const uint32_t *switches, size_t switches_len)
{
    size_t sum = 0;
    size_t at;
    for (at = 0; at + 2 < code_len; at++) {
        const size_t index = code[at + 1] + 256 * (size_t)code[at + 2];
        if (code[at] == GRAIN_SWITCH_TAG && index < switches_len / GRAIN_SWITCH_WORDS) {
            const uint32_t *entry = switches + GRAIN_SWITCH_WORDS * index;
            sum += grain_at_most(entry[1], GRAIN_MAX_CASES) + grain_at_most(entry[3], GRAIN_MAX_RANGES) + 1;
        }
    }
    return sum;
}

/*
 * Room in which a script with this code, these switches and so many chunks is never refused for want
 * of it, wherever its chunks lie. switches_len counts words.
 *
 * It is a bound from above that decodes nothing. An instruction that names one target is at least 5
 * bytes wide and has at most 2 edges; a switch has as many edges as targets; every other instruction
 * has at most one edge. A byte inside an instruction may look like a switch, so the bound can be far
 * above the need: who has less memory lends what there is, and is told the need by GRAIN_NO_ROOM.
 *
 * Where the code, the switches or the chunks are over their limit all four are 0: the call refuses
 * such a script before it asks for room. Within the limits every sum here is below 2^36.
 */
static inline grain_room grain_room_for(
    const uint8_t *code, size_t code_len, const uint32_t *switches, size_t switches_len, size_t chunk_count)
{
    grain_room room = {0, 0, 0, 0};
    if (code_len <= GRAIN_MAX_CODE && switches_len / GRAIN_SWITCH_WORDS <= GRAIN_MAX_SWITCHES
        && chunk_count <= GRAIN_MAX_CHUNKS) {
        const size_t arms = grain_switch_targets(code, code_len, switches, switches_len);
        room.marks = code_len / 64 + 1;
        room.heights = chunk_count;
        room.records = 4 * (1 + code_len / 5 + arms);
        room.work = 4 * (1 + code_len + arms);
    }
    return room;
}

#ifdef __cplusplus
}
#endif

#endif
