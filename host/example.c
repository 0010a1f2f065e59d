/* Document 01's "One run whole" by calls of the library, then what a host could do wrong. Prints host/example.out. */
#include "ragnulois.h"

#include <inttypes.h>
#include <stdio.h>
#include <stdlib.h>
#include <string.h>

#define WORDS RAGNULOIS_WORDS
#define LENT 1

static uint64_t block[WORDS];
static uint64_t items[LENT];

static void must(uint8_t refusal) {
    if (refusal != 0) {
        printf("refused\t%d\n", refusal);
        exit(1);
    }
}

static void begin(enum ragnulois_call call, uint64_t number) {
    must(ragnulois_begin(block, WORDS, items, LENT, 0, call, 0, 0, number));
}

/* The answers that this run has. */
static void print_answer(void) {
    uint64_t token = ragnulois_reply(block, WORDS, RAGNULOIS_REPLY_TOKEN);
    switch (ragnulois_reply(block, WORDS, RAGNULOIS_REPLY_ANSWER)) {
    case RAGNULOIS_ANSWER_PUSHED:
        puts("answer\t0\tpushed");
        break;
    case RAGNULOIS_ANSWER_FULL:
        printf("answer\t0\tfull\t%" PRIu64 "\n", token);
        break;
    case RAGNULOIS_ANSWER_POPPED:
        printf("answer\t0\tpopped\t%" PRIu64 "\n", token);
        break;
    }
}

static void step(int times) {
    for (int i = 0; i < times; i++) {
        must(ragnulois_step(block, WORDS, items, LENT, 0, RAGNULOIS_MARK_PLAIN, 0));
        print_answer();
    }
}

static void print_rest(void) {
    printf("rest\t0");
    for (uint64_t i = 0; i < ragnulois_resting(block, WORDS, 0); i++)
        printf("\t%" PRIu64, ragnulois_token(block, WORDS, items, LENT, 0, i));
    puts("");
}

static void one_run(void) {
    const uint64_t requests[] = {0};
    const uint32_t positions[] = {0};
    must(ragnulois_open(block, WORDS, RAGNULOIS_LIFO, 1, requests, 1, positions, 1, items, LENT));
    begin(RAGNULOIS_PUSH, 7);
    step(5);
    begin(RAGNULOIS_PUSH, 8);
    step(3);
    begin(RAGNULOIS_POP, 0);
    step(4);
    print_rest();
}

/* A begin that is refused leaves the block, given as its first `count` words, and the items as they came. */
static void try(const char *what, uint64_t *words, size_t count, size_t lent, uint64_t party, uint64_t call) {
    uint64_t words_before[WORDS], items_before[LENT];
    memcpy(words_before, words, sizeof words_before);
    memcpy(items_before, items, sizeof items_before);
    printf("refused\t%s\t%d\n", what, ragnulois_begin(words, count, items, lent, party, call, 0, 0, 0));
    if (memcmp(words, words_before, sizeof words_before) || memcmp(items, items_before, sizeof items_before)) {
        puts("changed");
        exit(1);
    }
}

static void wrong_uses(void) {
    uint64_t zeros[WORDS] = {0}, other[WORDS];
    memcpy(other, block, sizeof other);
    other[0] += 1;
    try("zeros for a block", zeros, WORDS, LENT, 0, RAGNULOIS_POP);
    try("a block with another seal", other, WORDS, LENT, 0, RAGNULOIS_POP);
    try("a block one word short", block, WORDS - 1, LENT, 0, RAGNULOIS_POP);
    try("items one short", block, WORDS, LENT - 1, 0, RAGNULOIS_POP);
    try("party 1 of 1", block, WORDS, LENT, 1, RAGNULOIS_POP);
    try("call 10", block, WORDS, LENT, 0, RAGNULOIS_EMPTY + 1);
    puts("unchanged");
}

int main(void) {
    if (ragnulois_words() != WORDS) return 1;
    one_run();
    wrong_uses();
    return 0;
}
