/* Frames on standard input, answer lines on standard output, as the program `operands` gives them; then COUNT calls with arbitrary bytes,
 * of both layouts in turn.
 *     replay [--limit N] [COUNT]
 * A line that opens with `w` is a wide frame, every other a narrow one. The frames are read at the nesting limit N (64), which may be any
 * number; the other calls draw theirs. Every lent byte is allocated at its exact length, so that valgrind sees any access past it. */
#include "layouts.h"

#include <stdio.h>
#include <stdlib.h>
#include <string.h>

#define LONGEST 917507                  /* characters of the longest frame: `w`, 65,535 bytes of line, 65,535 tokens */

/* What a call lends and gives. */
struct call {
    uint8_t *line, *tokens, *nodes, *diagnostics, *answer;
    size_t line_length, tokens_length, nodes_length, diagnostics_length, answer_length;
    size_t start, mark, limit, used;
};

static uint8_t made(const struct layout *l, const struct call *c) {
    return l->parse(c->line, c->line_length, c->tokens, c->tokens_length, c->start, c->mark, c->limit, c->nodes, c->nodes_length,
        c->diagnostics, c->diagnostics_length, c->used, c->answer, c->answer_length);
}

static void give_back(struct call *c) {
    free(c->line), free(c->tokens), free(c->nodes), free(c->diagnostics), free(c->answer);
}

static uint8_t *block(size_t length) {
    uint8_t *bytes = malloc(length ? length : 1);
    if (!bytes) {
        exit(2);
    }
    return bytes;
}

static uint8_t *copy(const uint8_t *from, size_t length) {
    uint8_t *bytes = block(length);
    memcpy(bytes, from, length);
    return bytes;
}

static void print(const uint8_t *bytes, size_t length) {
    for (size_t i = 0; i < length; i++) {
        printf("%02x", bytes[i]);
    }
}

static int digit(char c) {
    return c >= '0' && c <= '9' ? c - '0' : c >= 'a' && c <= 'f' ? c - 'a' + 10 : -1;
}

/* The bytes that a line spells, or -1. */
static long decode(const char *text, size_t length, uint8_t *bytes) {
    if (length % 2) {
        return -1;
    }
    for (size_t i = 0; i < length / 2; i++) {
        int high = digit(text[2 * i]), low = digit(text[2 * i + 1]);
        if (high < 0 || low < 0) {
            return -1;
        }
        bytes[i] = (uint8_t)(16 * high + low);
    }
    return (long)(length / 2);
}

/* A number of one byte or two. */
static size_t number_at(const uint8_t *bytes, size_t length) {
    return bytes[0] + (length > 1 ? 256u * bytes[1] : 0);
}

/* Fills in the call that a frame is, or returns 0 if its counts do not give its length. */
static int lend(const struct layout *l, const uint8_t *frame, size_t length, struct call *c) {
    size_t n = l->number, line_length = length < n ? 0 : number_at(frame, n);
    if (length < line_length + 4 * n) {
        return 0;
    }
    const uint8_t *count = frame + n + line_length;
    size_t tokens_length = l->token * number_at(count, n);
    if (length != line_length + tokens_length + 4 * n) {
        return 0;
    }
    c->line = copy(frame + n, line_length), c->line_length = line_length;
    c->tokens = copy(count + n, tokens_length), c->tokens_length = tokens_length;
    c->start = number_at(frame + length - 2 * n, n), c->mark = number_at(frame + length - n, n);
    c->nodes = block(l->nodes), c->nodes_length = l->nodes;
    c->diagnostics = block(l->diagnostics), c->diagnostics_length = l->diagnostics, c->used = 0;
    c->answer = block(l->answer), c->answer_length = l->answer;
    return 1;
}

static void answer_frame(const struct layout *l, const uint8_t *frame, size_t length, size_t limit) {
    struct call c = {.limit = limit};
    if (!lend(l, frame, length, &c)) {
        printf("0208\n");
        return;
    }
    uint8_t number = made(l, &c);
    if (number != SAGDRIF_READ) {
        printf("02%02x", number);
    } else {
        print(c.answer, c.answer[SAGDRIF_KIND] == 0 ? l->mask : l->operand);
        print(c.nodes, l->node * number_at(c.answer + l->nodes_used, l->number));
        print(c.diagnostics, l->diagnostic * number_at(c.answer + l->added, 2));
    }
    printf("\n");
    give_back(&c);
}

static uint64_t state = 88172645463325252u;

static uint64_t draw(void) {
    state ^= state << 13;
    state ^= state >> 7;
    state ^= state << 17;
    return state;
}

static uint8_t *noise(size_t length) {
    uint8_t *bytes = block(length);
    for (size_t i = 0; i < length; i += 8) {
        uint64_t eight = draw();
        memcpy(bytes + i, &eight, length - i < 8 ? length - i : 8);
    }
    return bytes;
}

static uint8_t *noise_between(size_t length, unsigned low, unsigned count) {
    uint8_t *bytes = block(length);
    for (size_t i = 0; i < length; i++) {
        bytes[i] = (uint8_t)(low + draw() % count);
    }
    return bytes;
}

/* Bytes of a list whose numbers are small, as those of a short line are: with two bytes their high one is 0. */
static uint8_t *small_tokens(const struct layout *l, size_t length) {
    uint8_t *tokens = noise_between(length, 0, 6);
    for (size_t i = 0; l->number > 1 && i < length; i++) {
        if (i % l->token == 3 || i % l->token == 5) {
            tokens[i] = 0;
        }
    }
    return tokens;
}

/* Whether a call may return a number. */
static int is_known(int number) {
    return number <= SAGDRIF_SHORT_DIAGNOSTICS || number == SAGDRIF_BAD_LIMIT || number == SAGDRIF_SHORT_ANSWER;
}

/* Arbitrary lengths, bytes and numbers, each mostly near what a call takes. */
static struct call drawn(const struct layout *l) {
    struct call c;
    c.line_length = draw() % 8 ? draw() % 12 : draw() % (l->line_most * 9 / 8);
    c.tokens_length = draw() % 8 ? l->token * (draw() % 4) : draw() % (l->token * l->tokens_most * 9 / 8);
    c.nodes_length = draw() % 4 ? l->nodes + draw() % 3 : draw() % (l->nodes + 1);
    c.diagnostics_length = draw() % 4 ? l->diagnostics + draw() % 40 : draw() % (l->diagnostics + 1);
    c.answer_length = draw() % 4 ? l->answer + draw() % 3 : draw() % (l->answer + 1);
    c.line = draw() % 4 ? noise_between(c.line_length, 32, 95) : noise(c.line_length);
    c.tokens = draw() % 2 ? small_tokens(l, c.tokens_length) : noise(c.tokens_length);
    c.nodes = noise(c.nodes_length), c.diagnostics = noise(c.diagnostics_length), c.answer = noise(c.answer_length);
    c.used = draw() % 4 ? draw() % 3 : (size_t)draw();
    c.start = draw() % 8 ? draw() % 3 : (size_t)draw(), c.mark = draw() % 2 ? draw() % 3 : (size_t)draw();
    c.limit = draw() % 8 ? 1 + draw() % SAGDRIF_LIMIT_MOST : draw() % 2 ? (SAGDRIF_LIMIT_MOST + 1) * (draw() % 2) : (size_t)draw();
    return c;
}

/* Whether an answer is one: without an operand its record and its mask are zeros, and the store's bytes behind it stay. */
static int is_answer(const struct layout *l, const struct call *c, const uint8_t *before) {
    int zeros = 1;
    for (size_t i = l->operand; i < l->answer; i++) {
        zeros = zeros && !c->answer[i];
    }
    return (c->answer[SAGDRIF_KIND] == 0 || (c->answer[SAGDRIF_KIND] == 1 && zeros)) &&
        !memcmp(c->answer + l->answer, before + l->answer, c->answer_length - l->answer);
}

/* One call with arbitrary bytes. A refusal must write nothing. */
static int arbitrary(const struct layout *l) {
    struct call c = drawn(l);
    uint8_t *nodes = copy(c.nodes, c.nodes_length), *diagnostics = copy(c.diagnostics, c.diagnostics_length);
    uint8_t *answer = copy(c.answer, c.answer_length), number = made(l, &c);
    int stays = !memcmp(c.nodes, nodes, c.nodes_length) && !memcmp(c.diagnostics, diagnostics, c.diagnostics_length) &&
        !memcmp(c.answer, answer, c.answer_length);
    int short_answer = c.answer_length < l->answer, good_limit = c.limit >= 1 && c.limit <= SAGDRIF_LIMIT_MOST;
    int well = is_known(number) && short_answer == (number == SAGDRIF_SHORT_ANSWER) &&
        (number == SAGDRIF_READ ? good_limit && is_answer(l, &c, answer) : stays) && !(number == SAGDRIF_BAD_LIMIT && good_limit);
    free(nodes), free(diagnostics), free(answer), give_back(&c);
    return well ? number : -1;
}

/* Reads a line of any bytes and keeps as many as a frame can have. Returns its length, or -1 at the end. */
static long read_line(char *text) {
    long length = 0;
    int c = getchar();
    if (c == EOF) {
        return -1;
    }
    for (; c != EOF && c != '\n'; c = getchar()) {
        if (length < LONGEST) {
            text[length] = (char)c;
        }
        length++;
    }
    return length;
}

static void answer_lines(size_t limit) {
    static char text[LONGEST];
    static uint8_t frame[LONGEST / 2 + 1];
    for (long length; (length = read_line(text)) >= 0;) {
        int wide = length > 0 && text[0] == 'w';
        long bytes = length > LONGEST ? -1 : decode(text + wide, (size_t)(length - wide), frame);
        printf("%s", layouts[wide].sign);
        if (bytes < 0) {
            printf("0208\n");
        } else {
            answer_frame(&layouts[wide], frame, (size_t)bytes, limit);
        }
    }
}

int main(int count, char **words) {
    size_t limit = SAGDRIF_LIMIT_PROGRAM;
    if (count > 2 && !strcmp(words[1], "--limit")) {
        limit = (size_t)strtoull(words[2], NULL, 10);
        count -= 2, words += 2;
    }
    answer_lines(limit);
    long calls = count > 1 ? atol(words[1]) : 0, seen[LAYOUTS][SAGDRIF_SHORT_ANSWER + 1] = {{0}};
    for (long i = 0; i < calls; i++) {
        int number = arbitrary(&layouts[i % LAYOUTS]);
        if (number < 0) {
            fprintf(stderr, "call %ld, %s: a refusal wrote, or the answer is none\n", i, layouts[i % LAYOUTS].name);
            return 1;
        }
        seen[i % LAYOUTS][number]++;
    }
    for (int k = 0; calls && k < LAYOUTS * (SAGDRIF_SHORT_ANSWER + 1); k++) {
        int layout = k / (SAGDRIF_SHORT_ANSWER + 1), number = k % (SAGDRIF_SHORT_ANSWER + 1);
        if (is_known(number)) {
            fprintf(stderr, "%s, number %d: %ld calls\n", layouts[layout].name, number, seen[layout][number]);
        }
    }
    return 0;
}
