/* Requests and answers as lines, in the format of the vectors. */
#ifndef LINES_H
#define LINES_H
#include <stddef.h>
#include <stdint.h>
#include <stdio.h>
#include <string.h>

static unsigned digit(char c) { return c <= '9' ? (unsigned)(c - '0') : (unsigned)(c - 'a' + 10); }

static size_t unhex(const char *s, uint8_t *to) {
    size_t n = 0;
    if (!strcmp(s, "-")) return 0;
    for (; s[0] && s[1]; s += 2) to[n++] = (uint8_t)(16 * digit(s[0]) + digit(s[1]));
    return n;
}

/* An evaluation's answer: a refusal's number and place in values[0]; or 0, length, work and inferences, with the certificate. */
static void print_evaluation(size_t number, const size_t values[3], const uint8_t *certificate) {
    if (number) {
        printf("E %zu %zu\n", number, values[0]);
        return;
    }
    printf("E 0 %zu %zu %zu ", values[0], values[1], values[2]);
    for (size_t i = 0; i < values[0]; i++) printf("%02x", certificate[i]);
    printf("\n");
}

/* A check's answer: a refusal's number and place; or 0, the conclusion and the inferences. */
static void print_check(size_t number, size_t first, size_t inferences) {
    if (number) printf("C %zu %zu\n", number, first);
    else printf("C 0 %zu %zu\n", first, inferences);
}
#endif
