/* Prints the type of a term given as words in decimal, and where a run of it ends, with its steps by kind.
 *
 *     cc -I include host/examples/type.c target/staticlib/libfeguavy.a -o type && ./type 4 0 16
 *
 * It is C and C++. Exit status: 0 typed, 1 refused, 2 a word that is none.
 */
#include "feguavy.h"

#include <errno.h>
#include <stdio.h>
#include <stdlib.h>

#define LIMIT 64
#define BUDGET 1000

static uint16_t term[FEGUAVY_LONGEST + 1], work[FEGUAVY_CHECK_WORK(LIMIT)], output[LIMIT], state[FEGUAVY_LONGEST];

/* A word: decimal digits alone, at most 65,535. Answers 0 where the text is none. */
static int parse_word(const char *text, uint16_t *word) {
    char *end;
    if (*text < '0' || *text > '9') return 0;
    errno = 0;
    unsigned long value = strtoul(text, &end, 10);
    if (errno != 0 || *end != '\0' || value > 65535) return 0;
    *word = (uint16_t)value;
    return 1;
}

static void print_words(const char *name, const uint16_t *words, size_t count) {
    printf("%s", name);
    for (size_t i = 0; i < count; i++) printf(" %u", words[i]);
    printf("\n");
}

int main(int argc, char **argv) {
    /* words beyond the 1,025th change nothing: a term of so many is refused by its length */
    size_t count = 0;
    for (int i = 1; i < argc; i++) {
        uint16_t word;
        if (!parse_word(argv[i], &word)) {
            fprintf(stderr, "type: '%s' is no word: a decimal number of at most 65535 is asked for\n", argv[i]);
            return 2;
        }
        if (count <= FEGUAVY_LONGEST) term[count++] = word;
    }
    feguavy_checked checked = feguavy_check(term, count, LIMIT, work, FEGUAVY_CHECK_WORK(LIMIT), output, LIMIT);
    if (checked.answer != 0) {
        printf("refused: %s (refusal %u, place %u)\n", feguavy_refusal_text(checked.answer), checked.answer, checked.place);
        return 1;
    }
    print_words("type:", output, checked.length);
    /* caller 0 has what the budget asks for, and the other seven callers have nothing */
    const feguavy_desk desk = {{BUDGET, 0, 0, 0, 0, 0, 0, 0}};
    feguavy_ran ran = feguavy_run(term, count, BUDGET, work, FEGUAVY_CHECK_WORK(LIMIT), state, FEGUAVY_LONGEST, 0, desk);
    printf("run: ended %s, steps: %u, substitutions: %u, unfoldings: %u, cancelled casts: %u\n", feguavy_end_text(ran.end), ran.steps,
           ran.substitutions, ran.unfoldings, ran.cancellations);
    print_words("state:", state, feguavy_length(state, FEGUAVY_LONGEST));
    return 0;
}
