/* The library, held to the vectors and to the baseline.
 *
 *     driver replay < requests        a request a line, answered through the library as the vectors are
 *     driver stress ROUNDS [SEED] < requests
 *                                     damaged and shuffled requests, each answered by the library and by the baseline: answers, certificates, canaries
 *                                     around every buffer, the output past a certificate and the scratch afterwards are compared
 *     driver stack < requests         how many bytes of stack the library needs for each request, and the answer's number
 */
#include "../../include/waxdapple.h"
#include "baseline.h"
#include "lines.h"
#include <stdlib.h>
#include <ucontext.h>

#define CANARY 0xA5u
#define MARGIN 64
#define ROOM 65536
#define LONGEST 70000

/* A lent buffer of numbers between two margins, longer than fixed so that what is past the fixed length is watched too. */
struct buffer { size_t fixed; size_t length; uint32_t *all; };

static struct buffer evaluation[7] = {{WAXDAPPLE_EVALUATE_LISTING, 0, 0}, {WAXDAPPLE_EVALUATE_FORMS, 0, 0}, {WAXDAPPLE_EVALUATE_PATTERNS, 0, 0},
    {WAXDAPPLE_EVALUATE_PHRASES, 0, 0}, {WAXDAPPLE_EVALUATE_BASE, 0, 0}, {WAXDAPPLE_EVALUATE_BINDINGS, 0, 0}, {WAXDAPPLE_EVALUATE_TOKENS, 0, 0}};
static struct buffer checking[5] = {{WAXDAPPLE_CHECK_NAMES, 0, 0}, {WAXDAPPLE_CHECK_FORMS, 0, 0}, {WAXDAPPLE_CHECK_PATTERNS, 0, 0},
    {WAXDAPPLE_CHECK_PHRASES, 0, 0}, {WAXDAPPLE_CHECK_BASE, 0, 0}};
static uint8_t output[MARGIN + ROOM + MARGIN], expected[4 * ROOM];

/* What came of a call: number 0 and values, or the refusal's number and place. */
struct answer { size_t number, values[3]; };

/* What no call has set. */
static const struct answer unset = {(size_t)-1, {(size_t)-1, (size_t)-1, (size_t)-1}};

static void prepare(struct buffer *b, int n) {
    for (int i = 0; i < n; i++) {
        b[i].length = b[i].fixed + MARGIN;
        if (!b[i].all) b[i].all = malloc((b[i].length + 2 * MARGIN) * sizeof(uint32_t));
        if (!b[i].all) abort();
        memset(b[i].all, CANARY, (b[i].length + 2 * MARGIN) * sizeof(uint32_t));
    }
}

static uint32_t *lent(struct buffer *b) { return b->all + MARGIN; }

/* Whether every buffer is zero up to its fixed length, or untouched, and all else is untouched. */
static int kept(struct buffer *b, int n, int untouched) {
    uint32_t mark;
    memset(&mark, CANARY, sizeof mark);
    for (int i = 0; i < n; i++)
        for (size_t j = 0; j < b[i].length + 2 * MARGIN; j++) {
            int inside = j >= MARGIN && j < MARGIN + b[i].fixed;
            if (b[i].all[j] != (inside && !untouched ? 0 : mark)) return 0;
        }
    return 1;
}

/* Whether the output is untouched past so many bytes of it, and all around it. */
static int output_kept(size_t written) {
    for (size_t i = 0; i < sizeof output; i++)
        if ((i < MARGIN || i >= MARGIN + written) && output[i] != CANARY) return 0;
    return 1;
}

static struct answer evaluate(const uint8_t *sheet, size_t n, size_t budget, size_t room) {
    struct buffer *b = evaluation;
    struct answer r = unset;
    prepare(b, 7);
    memset(output, CANARY, sizeof output);
    r.number = waxdapple_evaluate(sheet, n, budget, lent(b), b[0].length, lent(b + 1), b[1].length, lent(b + 2), b[2].length, lent(b + 3), b[3].length,
        lent(b + 4), b[4].length, lent(b + 5), b[5].length, lent(b + 6), b[6].length, output + MARGIN, room, &r.values[0], &r.values[1], &r.values[2]);
    return r;
}

static struct answer check(const uint8_t *sheet, size_t n, const uint8_t *certificate, size_t m) {
    struct buffer *b = checking;
    struct answer r = unset;
    prepare(b, 5);
    r.values[2] = 0;
    r.number = waxdapple_check(sheet, n, certificate, m, lent(b), b[0].length, lent(b + 1), b[1].length, lent(b + 2), b[2].length, lent(b + 3), b[3].length,
        lent(b + 4), b[4].length, &r.values[0], &r.values[1]);
    return r;
}

static uint8_t sheet[LONGEST], certificate[LONGEST];
static char line[2 * LONGEST + 100], first[2 * LONGEST], second[2 * LONGEST];

static int replay(void) {
    unsigned long long budget;
    size_t room;
    while (fgets(line, sizeof line, stdin)) {
        struct answer r;
        if (sscanf(line, "E %llu %zu %s", &budget, &room, first) == 3) {
            r = evaluate(sheet, unhex(first, sheet), (size_t)budget, room < ROOM ? room : ROOM);
            print_evaluation(r.number, r.values, output + MARGIN);
        } else if (sscanf(line, "C %s %s", first, second) == 2) {
            size_t n = unhex(first, sheet);
            r = check(sheet, n, certificate, unhex(second, certificate));
            print_check(r.number, r.values[0], r.values[1]);
        } else printf("?\n");
    }
    return 0;
}

/* A call on a stack of its own, every byte of which is marked before. */
#define STACK (16u << 20)
static uint8_t *stack;
static ucontext_t here, there;
static struct { size_t sheet, certificate, budget, room; } asked;
static struct answer given;

static void evaluate_asked(void) { given = evaluate(sheet, asked.sheet, asked.budget, asked.room); }
static void check_asked(void) { given = check(sheet, asked.sheet, certificate, asked.certificate); }

/* How many bytes of a marked stack a call has used. */
static size_t stack_used(void (*call)(void)) {
    size_t untouched = 0;
    memset(stack, CANARY, STACK);
    getcontext(&there);
    there.uc_stack.ss_sp = stack;
    there.uc_stack.ss_size = STACK;
    there.uc_link = &here;
    makecontext(&there, call, 0);
    swapcontext(&here, &there);
    while (untouched < STACK && stack[untouched] == CANARY) untouched++;
    return STACK - untouched;
}

static int stack_needed(void) {
    unsigned long long budget;
    stack = malloc(STACK);
    if (!stack) abort();
    while (fgets(line, sizeof line, stdin)) {
        size_t used = 0;
        if (sscanf(line, "E %llu %zu %s", &budget, &asked.room, first) == 3) {
            asked.sheet = unhex(first, sheet);
            asked.budget = (size_t)budget;
            if (asked.room > ROOM) asked.room = ROOM;
            used = stack_used(evaluate_asked);
        } else if (sscanf(line, "C %s %s", first, second) == 2) {
            asked.sheet = unhex(first, sheet);
            asked.certificate = unhex(second, certificate);
            used = stack_used(check_asked);
        }
        printf("%c %zu bytes of stack, answer %zu %zu\n", line[0], used, given.number, given.values[0]);
    }
    return 0;
}

/* Requests to damage: sheets, and certificates with the number of their sheet. */
struct bytes { uint8_t *at; size_t length; size_t of; };
static struct bytes *sheets, *certificates;
static size_t sheet_count, certificate_count;
static uint64_t state;

static uint64_t drawn(uint64_t below) {
    state ^= state << 13;
    state ^= state >> 7;
    state ^= state << 17;
    return state % below;
}

static void keep(struct bytes **list, size_t *count, const uint8_t *from, size_t n) {
    *list = realloc(*list, (*count + 1) * sizeof **list);
    (*list)[*count].at = malloc(n + 1);
    memcpy((*list)[*count].at, from, n);
    (*list)[*count].length = n;
    (*list)[(*count)++].of = sheet_count ? sheet_count - 1 : 0;
}

/* A copy with up to three bytes changed, put in, taken out or cut off. */
static size_t damaged(const struct bytes *b, uint8_t *to) {
    size_t n = b->length;
    memcpy(to, b->at, n);
    for (uint64_t k = drawn(4); k > 0; k--) {
        size_t at = n ? (size_t)drawn(n) : 0;
        switch (drawn(5)) {
        case 0: if (n) to[at] = (uint8_t)drawn(256); break;
        case 1: if (n) to[at] = (uint8_t)drawn(24); break;
        case 2: memmove(to + at + 1, to + at, n - at); to[at] = (uint8_t)drawn(24); n++; break;
        case 3: if (n) { memmove(to + at, to + at + 1, n - at - 1); n--; } break;
        default: if (!drawn(8)) n = at;
        }
    }
    return n;
}

static void fail(const char *what, size_t round) {
    printf("round %zu: %s\n", round, what);
    exit(1);
}

static void evaluated(size_t round) {
    size_t n = damaged(&sheets[drawn(sheet_count)], sheet), budget = drawn(4) ? 1024 : (size_t)drawn(1100), room = drawn(4) ? ROOM : (size_t)drawn(200);
    struct answer r = evaluate(sheet, n, budget, room);
    struct baseline_answer b = baseline_evaluate(sheet, n, (uint32_t)budget, expected, room);
    size_t written = r.number ? 0 : r.values[0];
    if (r.number != b.number || r.values[0] != b.values[0]) fail("evaluation: another answer", round);
    if (!r.number && (r.values[1] != b.values[1] || r.values[2] != b.values[2] || memcmp(output + MARGIN, expected, written))) fail("evaluation: another certificate", round);
    if (r.number && (r.values[1] || r.values[2])) fail("evaluation: counts with a refusal", round);
    if (!output_kept(written)) fail("evaluation: output touched", round);
    if (!kept(evaluation, 7, r.number == 1)) fail("evaluation: scratch", round);
}

static void checked(size_t round) {
    const struct bytes *c = &certificates[drawn(certificate_count)], *s = &sheets[drawn(8) ? c->of : drawn(sheet_count)];
    size_t n = s->length, m = damaged(c, certificate);
    if (drawn(4)) memcpy(sheet, s->at, n);
    else n = damaged(s, sheet);
    struct answer r = check(sheet, n, certificate, m);
    struct baseline_answer b = baseline_check(sheet, n, certificate, m);
    if (r.number != b.number || r.values[0] != b.values[0] || r.values[1] != (r.number ? 0 : b.values[1])) fail("check: another answer", round);
    if (!kept(checking, 5, 0)) fail("check: scratch", round);
}

/* Each buffer one number too short: refusal 2, and nothing is touched. */
static void short_buffers(void) {
    for (int i = 0; i < 7; i++) {
        struct buffer *b = evaluation;
        size_t l[7], place = 9, work = 9, inferences = 9;
        prepare(b, 7);
        memset(output, CANARY, sizeof output);
        for (int j = 0; j < 7; j++) l[j] = b[j].fixed - (i == j);
        if (waxdapple_evaluate(sheets[0].at, sheets[0].length, 1024, lent(b), l[0], lent(b + 1), l[1], lent(b + 2), l[2], lent(b + 3), l[3], lent(b + 4), l[4],
                lent(b + 5), l[5], lent(b + 6), l[6], output + MARGIN, ROOM, &place, &work, &inferences) != 2 || place || work || inferences || !kept(b, 7, 1) || !output_kept(0)) fail("a short buffer of an evaluation", (size_t)i);
    }
    for (int i = 0; i < 5; i++) {
        struct buffer *b = checking;
        size_t l[5], place = 9, inferences = 9;
        prepare(b, 5);
        for (int j = 0; j < 5; j++) l[j] = b[j].fixed - (i == j);
        if (waxdapple_check(sheets[0].at, sheets[0].length, certificates[0].at, certificates[0].length, lent(b), l[0], lent(b + 1), l[1], lent(b + 2), l[2],
                lent(b + 3), l[3], lent(b + 4), l[4], &place, &inferences) != 2 || place || inferences || !kept(b, 5, 1)) fail("a short buffer of a check", (size_t)i);
    }
}

static int stress(size_t rounds, uint64_t seed) {
    unsigned long long budget;
    size_t room;
    state = seed * 2685821657736338717u + 1;
    while (fgets(line, sizeof line, stdin)) {
        if (sscanf(line, "E %llu %zu %s", &budget, &room, first) == 3) {
            size_t n = unhex(first, sheet);
            keep(&sheets, &sheet_count, sheet, n);
            struct answer r = evaluate(sheet, n, 1024, ROOM);
            if (!r.number) keep(&certificates, &certificate_count, output + MARGIN, r.values[0]);
        } else if (sscanf(line, "C %s %s", first, second) == 2) {
            keep(&sheets, &sheet_count, sheet, unhex(first, sheet));
            keep(&certificates, &certificate_count, certificate, unhex(second, certificate));
        }
    }
    if (!sheet_count || !certificate_count) fail("no requests", 0);
    short_buffers();
    for (size_t i = 0; i < rounds; i++) {
        if (drawn(3)) evaluated(i);
        else checked(i);
    }
    printf("%zu rounds agree\n", rounds);
    return 0;
}

int main(int argc, char **argv) {
    if (argc == 2 && !strcmp(argv[1], "replay")) return replay();
    if ((argc == 3 || argc == 4) && !strcmp(argv[1], "stress")) return stress(strtoull(argv[2], 0, 10), argc == 4 ? strtoull(argv[3], 0, 10) : 1);
    if (argc == 2 && !strcmp(argv[1], "stack")) return stack_needed();
    fprintf(stderr, "usage: driver replay | driver stress ROUNDS [SEED] | driver stack\n");
    return 2;
}
