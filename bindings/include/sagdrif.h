/* Reads one 68020 operand from lent bytes; docs/FORMAT.md has every byte of tokens, records and answers. Link libterminal.a, which
 * bindings/check builds of crates/terminal_c for x86-64 Linux (ELF, the System V calling convention); of other libraries it needs
 * `memset` alone. */
#ifndef SAGDRIF_H
#define SAGDRIF_H

#include <stddef.h>
#include <stdint.h>

#ifdef __cplusplus
extern "C" {
#endif

/* Sizes in bytes, and counts, of the narrow layout: an offset, a node's number and a count take one byte. */
#define SAGDRIF_LINE_MOST 255          /* bytes of a line */
#define SAGDRIF_TOKEN 4                /* kind, detail, start, end */
#define SAGDRIF_TOKENS_MOST 255        /* tokens of a list */
#define SAGDRIF_NODE 14                /* a node record */
#define SAGDRIF_NODES_BYTES 3570       /* the least node store: 255 records */
#define SAGDRIF_DIAGNOSTIC 10          /* a diagnostic record */
#define SAGDRIF_DIAGNOSTICS_FREE 511   /* records that must be free behind the used ones */
#define SAGDRIF_ANSWER_BYTES 27        /* the least answer store */
#define SAGDRIF_STACK_BYTES 65536      /* stack that a call is given on x86-64: more than any line tried takes, which is 28,888 bytes at the
                                          limit 128 and 21,720 at 64 (bindings/c/stack.c) */

/* The same of the wide layout: an offset, a node's number and a count take two bytes, low first. */
#define SAGDRIF_WIDE_LINE_MOST 4095
#define SAGDRIF_WIDE_TOKEN 6           /* kind, detail, start 2, end 2 */
#define SAGDRIF_WIDE_TOKENS_MOST 1023
#define SAGDRIF_WIDE_NODE 18
#define SAGDRIF_WIDE_NODES_BYTES 18414 /* 1,023 records */
#define SAGDRIF_WIDE_DIAGNOSTIC 16
#define SAGDRIF_WIDE_DIAGNOSTICS_FREE 2047
#define SAGDRIF_WIDE_ANSWER_BYTES 39
#define SAGDRIF_WIDE_STACK_BYTES 131072 /* more than any line tried takes, which is 78,312 bytes at the limit 128 and 71,144 at 64
                                          (bindings/c/stack.c) */

/* The nesting limits are those of both layouts. */
#define SAGDRIF_LIMIT_MOST 128         /* the greatest nesting limit; the least is 1 */
#define SAGDRIF_LIMIT_PROGRAM 64       /* the nesting limit of the program `operands`, which is the Rust's */

/* What is returned: 0, and the answer is written; or the number of a refusal, and no byte is written. Where two numbers stand, the second
 * is the wide layout's. */
enum sagdrif_number {
    SAGDRIF_READ = 0,
    SAGDRIF_LONG_LINE = 1,             /* over 255 or 4,095 bytes */
    SAGDRIF_FOREIGN_BYTE = 2,          /* a byte of the line outside 20 to 7E hexadecimal */
    SAGDRIF_BAD_LIST = 3,              /* length not a multiple of 4 or 6, or over 255 or 1,023 tokens */
    SAGDRIF_BAD_TOKEN = 4,             /* undefined kind or detail, a span out of order or past the line, a wrong spelling: docs/FORMAT.md, "Tokens" */
    SAGDRIF_BAD_START = 5,             /* start past the token count */
    SAGDRIF_SHORT_NODES = 6,           /* node store under 3,570 or 18,414 bytes */
    SAGDRIF_SHORT_DIAGNOSTICS = 7,     /* fewer than 511 or 2,047 whole records free after the used ones. 8 is the program's alone */
    SAGDRIF_BAD_LIMIT = 18,            /* limit outside 1 to 128; checked after 7 */
    SAGDRIF_SHORT_ANSWER = 255         /* answer store under 27 or 39 bytes; checked before the others. The library's own number */
};

/* The narrow answer's bytes, by place. */
enum sagdrif_answer {
    SAGDRIF_KIND = 0,                  /* 0 operand, 1 none */
    SAGDRIF_CURSOR = 1,                /* the first token that was not consumed */
    SAGDRIF_NODES_USED = 2,            /* node records, from the store's beginning */
    SAGDRIF_DIAGNOSTICS_ADDED = 3,     /* 2 bytes, low first: diagnostic records, behind the used ones */
    SAGDRIF_OPERAND = 5,               /* 20 bytes: the operand's record; 0 without an operand */
    SAGDRIF_MASK = 25                  /* 2 bytes, low first: a register list's mask, bit 0 for D0 up to bit 15 for A7; else 0 */
};

/* The wide answer's bytes, by place. */
enum sagdrif_wide_answer {
    SAGDRIF_WIDE_KIND = 0,
    SAGDRIF_WIDE_CURSOR = 1,           /* 2 bytes, low first, as all below but the operand */
    SAGDRIF_WIDE_NODES_USED = 3,
    SAGDRIF_WIDE_DIAGNOSTICS_ADDED = 5,
    SAGDRIF_WIDE_OPERAND = 7,          /* 30 bytes */
    SAGDRIF_WIDE_MASK = 37
};

/* The two functions differ in the layout alone: what both can hold, both read alike. Each pointer goes with the length behind it, in bytes.
 * No pointer may be null, not even with the length 0. From each on, so many bytes must be readable; those of the three stores writable too.
 * No store may overlap the line, the tokens or another store. Nothing is kept after the return, nothing else is read or written, and no
 * memory is allocated. Any length, any byte and any number has its result. Where two numbers stand, the second is the wide layout's.
 *
 *   line, line_length                  the line, read only
 *   tokens, tokens_length              the tokens, SAGDRIF_TOKEN or SAGDRIF_WIDE_TOKEN bytes each, read only
 *   start                              the token that the operand begins at
 *   mark                               the token that is not read as a suppressed register (zd0, za0, zpc); one at or past the token count means none
 *   limit                              how many terms may be open in each other, 1 to 128; the program `operands` gives 64
 *   nodes, nodes_length                the node store. With an answer its first 3,570 or 18,414 bytes are the used records and zeros; the others stay
 *   diagnostics, diagnostics_length    the diagnostic list. With an answer the added records stand behind the used ones; all other bytes stay
 *   used                               how many records of the list are used
 *   answer, answer_length              the answer store. With an answer its first 27 or 39 bytes are written; the others stay
 */
uint8_t sagdrif_parse_operand(
    const uint8_t *line, size_t line_length,
    const uint8_t *tokens, size_t tokens_length,
    size_t start, size_t mark, size_t limit,
    uint8_t *nodes, size_t nodes_length,
    uint8_t *diagnostics, size_t diagnostics_length,
    size_t used,
    uint8_t *answer, size_t answer_length);

uint8_t sagdrif_parse_operand_wide(
    const uint8_t *line, size_t line_length,
    const uint8_t *tokens, size_t tokens_length,
    size_t start, size_t mark, size_t limit,
    uint8_t *nodes, size_t nodes_length,
    uint8_t *diagnostics, size_t diagnostics_length,
    size_t used,
    uint8_t *answer, size_t answer_length);

#ifdef __cplusplus
}
#endif

#endif
