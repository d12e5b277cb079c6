/* Both layouts as values, for the programs that speak both. */
#ifndef LAYOUTS_H
#define LAYOUTS_H

#include "sagdrif.h"

struct layout {
    const char *name, *sign;            /* sign: what a frame's line opens with */
    size_t number;                      /* bytes of an offset, a node's number or a count */
    size_t line_most, token, tokens_most, node, nodes, diagnostic, diagnostics, answer, stack;
    size_t nodes_used, added, operand, mask;    /* places of the answer */
    uint8_t (*parse)(const uint8_t *, size_t, const uint8_t *, size_t, size_t, size_t, size_t, uint8_t *, size_t, uint8_t *, size_t, size_t,
        uint8_t *, size_t);
};

enum { NARROW, WIDE, LAYOUTS };

static const struct layout layouts[LAYOUTS] = {
    [NARROW] = {
        .name = "narrow", .sign = "", .number = 1,
        .line_most = SAGDRIF_LINE_MOST, .token = SAGDRIF_TOKEN, .tokens_most = SAGDRIF_TOKENS_MOST,
        .node = SAGDRIF_NODE, .nodes = SAGDRIF_NODES_BYTES,
        .diagnostic = SAGDRIF_DIAGNOSTIC, .diagnostics = SAGDRIF_DIAGNOSTIC * SAGDRIF_DIAGNOSTICS_FREE,
        .answer = SAGDRIF_ANSWER_BYTES, .stack = SAGDRIF_STACK_BYTES,
        .nodes_used = SAGDRIF_NODES_USED, .added = SAGDRIF_DIAGNOSTICS_ADDED, .operand = SAGDRIF_OPERAND, .mask = SAGDRIF_MASK,
        .parse = sagdrif_parse_operand,
    },
    [WIDE] = {
        .name = "wide", .sign = "w", .number = 2,
        .line_most = SAGDRIF_WIDE_LINE_MOST, .token = SAGDRIF_WIDE_TOKEN, .tokens_most = SAGDRIF_WIDE_TOKENS_MOST,
        .node = SAGDRIF_WIDE_NODE, .nodes = SAGDRIF_WIDE_NODES_BYTES,
        .diagnostic = SAGDRIF_WIDE_DIAGNOSTIC, .diagnostics = SAGDRIF_WIDE_DIAGNOSTIC * SAGDRIF_WIDE_DIAGNOSTICS_FREE,
        .answer = SAGDRIF_WIDE_ANSWER_BYTES, .stack = SAGDRIF_WIDE_STACK_BYTES,
        .nodes_used = SAGDRIF_WIDE_NODES_USED, .added = SAGDRIF_WIDE_DIAGNOSTICS_ADDED, .operand = SAGDRIF_WIDE_OPERAND,
        .mask = SAGDRIF_WIDE_MASK,
        .parse = sagdrif_parse_operand_wide,
    },
};

#endif
