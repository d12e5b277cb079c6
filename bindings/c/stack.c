/* How much stack a call takes: lines that open terms and pile up operators, read on a thread whose stack is painted before each call, in
 * both layouts, at the program's nesting limit and at the greatest. Prints the bytes of some lines and of the deepest of all that were tried,
 * and fails if one needs more than the header says for its layout, or the wide layout more than three times what the narrow one does. What a
 * call takes is counted from its caller's frame down to the lowest byte that was written. */
#define _POSIX_C_SOURCE 200809L
#include "layouts.h"

#include <pthread.h>
#include <stdio.h>
#include <stdlib.h>
#include <string.h>

static _Alignas(64) uint8_t stack[SAGDRIF_WIDE_STACK_BYTES + 262144];
static uint8_t nodes[SAGDRIF_WIDE_NODES_BYTES], diagnostics[SAGDRIF_WIDE_DIAGNOSTIC * SAGDRIF_WIDE_DIAGNOSTICS_FREE];
static uint8_t answer[SAGDRIF_WIDE_ANSWER_BYTES], tokens[SAGDRIF_WIDE_TOKEN * SAGDRIF_WIDE_LINE_MOST];
static char line[SAGDRIF_WIDE_LINE_MOST + 1];
static const struct layout *l;
static size_t limit, most_at_limit;

/* The deepest line of a layout. */
static struct {
    char line[SAGDRIF_WIDE_LINE_MOST + 1];
    size_t bytes, limit, tried;
} deepest[LAYOUTS];

/* Adds a text to the line as often as it fits, `count` times at most. */
static void add(const char *text, size_t count) {
    while (count-- && strlen(line) + strlen(text) <= l->line_most) {
        strcat(line, text);
    }
}

/* Writes an offset as the layout has it, and returns the place behind it. */
static size_t put(size_t at, size_t offset) {
    for (size_t i = 0; i < l->number; i++, offset /= 256) {
        tokens[at++] = (uint8_t)offset;
    }
    return at;
}

/* The tokens of a text: signs of one byte, `<<`, numbers, and names. Returns their count. */
static size_t lex(const char *text) {
    static const char signs[] = "#,()[]{}:+-*/\\&!|^~";
    size_t count = 0;
    for (size_t i = 0, end; text[i]; i = end, count++) {
        const char *sign = strchr(signs, text[i]);
        int digits = text[i] >= '0' && text[i] <= '9';
        size_t name = strspn(text + i, digits ? "0123456789" : "abcdefghijklmnopqrstuvwxyz0123456789"), at = l->token * count;
        end = i + (sign ? 1 : text[i] == '<' ? 2 : name);
        tokens[at] = (uint8_t)(sign ? 5 + (sign - signs) : text[i] == '<' ? 24 : digits ? 2 : 0);
        tokens[at + 1] = 0;
        put(put(at + 2, i), end);
    }
    return count;
}

/* How often a text fits into a line beside so many bytes and tokens. */
static size_t fits(const char *text, size_t bytes, size_t count) {
    size_t by_bytes = (l->line_most - bytes) / strlen(text), by_tokens = (l->tokens_most - count) / lex(text);
    return by_bytes < by_tokens ? by_bytes : by_tokens;
}

static __attribute__((noinline)) size_t painted(uint8_t colour) {
    static uint8_t page[4096];
    uint8_t *top = __builtin_frame_address(0);
    size_t length = l->token * lex(line), untouched = 0;
    memset(page, colour, sizeof page);
    memset(stack, colour, (size_t)(top - stack) - 512);
    uint8_t number = l->parse((const uint8_t *)line, strlen(line), tokens, length, 0, l->tokens_most, limit, nodes, l->nodes, diagnostics,
        l->diagnostics, 0, answer, l->answer);
    if (number != SAGDRIF_READ) {
        printf("`%s` is refused: %d\n", line, number);
        exit(1);
    }
    while (!memcmp(stack + untouched, page, sizeof page)) {
        untouched += sizeof page;
    }
    while (((volatile uint8_t *)stack)[untouched] == colour) {
        untouched++;
    }
    return (size_t)(top - stack) - untouched;
}

/* What the line's reading takes, in two colours, since a byte may be written with the colour that it has. */
static size_t measured(void) {
    size_t first = painted(0xA5), second = painted(0x5A), bytes = first > second ? first : second, layout = (size_t)(l - layouts);
    deepest[layout].tried++;
    most_at_limit = bytes > most_at_limit ? bytes : most_at_limit;
    if (bytes > deepest[layout].bytes) {
        deepest[layout].bytes = bytes, deepest[layout].limit = limit;
        strcpy(deepest[layout].line, line);
    }
    return bytes;
}

static void show(const char *name) {
    size_t count = lex(line);
    printf("%-32s %5zu tokens %7zu\n", name, count, measured());
    line[0] = 0;
}

static void repeated(const char *name, const char *text, size_t count, const char *end) {
    add(text, count);
    add(end, 1);
    show(name);
}

#define COUNT(of) (sizeof of / sizeof *of)

/* A line of the family number `k`: a beginning, some openers and a group, operators as many as fit, the other openers, and a last term;
 * the openers open one term more than may be open. Returns 0 behind the last number. */
static int piled(size_t k) {
    static const char *starts[] = {"", "#", "(", "([", "([],", "([a0],", "([a0],d0,", "(d0,", "1(a0,"};
    static const char *openers[] = {"-", "(", "+", "-("}, *lasts[] = {"", "1", "a", "d0"};
    static const char *operators[] = {"1+", "1&", "1+1*1&", "1+1*1&1<<"};
    const size_t befores[] = {0, 1, 2, limit / 4, limit / 2, limit / 4 * 3, limit - 2, limit - 1};
    const char *start = starts[k % COUNT(starts)], *opener = openers[k / COUNT(starts) % COUNT(openers)];
    k /= COUNT(starts) * COUNT(openers);
    const char *last = lasts[k % COUNT(lasts)], *operator = operators[k / COUNT(lasts) % COUNT(operators)];
    k /= COUNT(lasts) * COUNT(operators);
    if (k == COUNT(befores)) {
        return 0;
    }
    size_t most = limit + 1, open = most / strlen(opener), before = befores[k] < open ? befores[k] : open, group = before > 0;
    line[0] = 0;
    add(start, 1);
    add(opener, before);
    add("(", group);
    add(operator, fits(operator, strlen(start) + most + group + strlen(last), lex(start) + most + group + lex(last)));
    add(opener, open - before);
    add(last, 1);
    return 1;
}

/* A memory-indirect operand, whose displacement and outer displacement are sums of as many terms as fit. */
static void two_sums(const char *name, const char *middle) {
    size_t bytes = strlen("([1") + strlen(middle) + strlen("1)"), terms = fits("1+", bytes, bytes) / 2;
    add("([", 1);
    add("1+", terms);
    add("1", 1);
    add(middle, 1);
    repeated(name, "1+", terms, "1)");
}

static void all_at(const struct layout *layout, size_t terms) {
    l = layout, limit = terms, most_at_limit = 0;
    printf("%s, nesting limit %zu\n", l->name, limit);
    repeated("d0", "d0", 1, "");
    repeated("4(a0)", "4(a0)", 1, "");
    repeated("([4,a0],8)", "([4,a0],8)", 1, "");
    repeated("a name", "a", l->line_most, "");
    repeated("a number", "9", l->line_most, "");
    repeated("list of registers", "d0/", fits("d0/", 2, 1), "d0");
    repeated("list of ranges", "d0-d7/", fits("d0-d7/", 2, 1), "d0");
    repeated("list of ranges that fall", "d7-d0/", fits("d7-d0/", 2, 1), "d0");
    repeated("plus signs", "+", l->tokens_most, "");
    repeated("groups, as many as the limit", "(", limit, "1");
    repeated("minus signs, as many", "-", limit, "1");
    repeated("a sum", "1+", fits("1+", 1, 1), "1");
    repeated("a sum of names", "aa+", fits("aa+", 2, 1), "aa");
    two_sums("([sum,a0],d0,sum)", ",a0],d0,");
    two_sums("([sum,a0,d0],sum)", ",a0,d0],");
    for (size_t k = 0; piled(k); k++) {
        measured();
    }
    line[0] = 0;
    printf("%-32s %12s %7zu\n", "any line tried, at most", "", most_at_limit);
}

static void *all(void *nothing) {
    for (size_t i = 0; i < LAYOUTS; i++) {
        all_at(&layouts[i], SAGDRIF_LIMIT_PROGRAM);
        all_at(&layouts[i], SAGDRIF_LIMIT_MOST);
    }
    return nothing;
}

int main(void) {
    pthread_attr_t attributes;
    pthread_t thread;
    int well = 1;
    if (pthread_attr_init(&attributes) || pthread_attr_setstack(&attributes, stack, sizeof stack) ||
        pthread_create(&thread, &attributes, all, NULL) || pthread_join(thread, NULL)) {
        return 2;
    }
    for (size_t i = 0; i < LAYOUTS; i++) {
        printf("%s: the deepest of %zu lines tried, at limit %zu\n%s\n", layouts[i].name, deepest[i].tried, deepest[i].limit, deepest[i].line);
        well = well && deepest[i].bytes <= layouts[i].stack;
    }
    printf("stack at most: narrow %zu, wide %zu, wide / narrow %.2f\n", deepest[NARROW].bytes, deepest[WIDE].bytes,
        (double)deepest[WIDE].bytes / (double)deepest[NARROW].bytes);
    return !well || deepest[WIDE].bytes > 3 * deepest[NARROW].bytes;
}
