/* Reads `4(a0)` and prints its answer line, the sample of docs/FORMAT.md. */
#include "sagdrif.h"

#include <stdio.h>

static uint8_t nodes[SAGDRIF_NODES_BYTES];
static uint8_t diagnostics[SAGDRIF_DIAGNOSTIC * SAGDRIF_DIAGNOSTICS_FREE];

static void print(const uint8_t *bytes, size_t length) {
    for (size_t i = 0; i < length; i++) {
        printf("%02x", bytes[i]);
    }
}

int main(void) {
    static const uint8_t line[] = {'4', '(', 'a', '0', ')'};
    static const uint8_t tokens[] = {2, 0, 0, 1, 7, 0, 1, 2, 0, 0, 2, 4, 8, 0, 4, 5};
    uint8_t answer[SAGDRIF_ANSWER_BYTES];
    uint8_t number = sagdrif_parse_operand(line, sizeof line, tokens, sizeof tokens, 0, 255, SAGDRIF_LIMIT_PROGRAM, nodes, sizeof nodes,
        diagnostics, sizeof diagnostics, 0, answer, sizeof answer);
    if (number != SAGDRIF_READ) {
        printf("02%02x\n", number);
        return 1;
    }
    size_t added = answer[SAGDRIF_DIAGNOSTICS_ADDED] + 256u * answer[SAGDRIF_DIAGNOSTICS_ADDED + 1];
    print(answer, answer[SAGDRIF_KIND] == 0 ? SAGDRIF_MASK : SAGDRIF_OPERAND);
    print(nodes, SAGDRIF_NODE * (size_t)answer[SAGDRIF_NODES_USED]);
    print(diagnostics, SAGDRIF_DIAGNOSTIC * added);
    printf("\n");
    return 0;
}
