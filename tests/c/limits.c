/* Prints requests for a benchmark: limits KIND COPIES, where KIND is c1 (the bench case's certificate), nodes (7,168 nodes over a few
   propositions) or listing (7,168 nodes over 4,608 propositions). */
#include <stdint.h>
#include <stdio.h>
#include <stdlib.h>
#include <string.h>

static uint8_t text[262144];
static size_t length;

static void put(uint32_t v) {
    while (v >= 128) { text[length++] = (uint8_t)(128 + v % 128); v /= 128; }
    text[length++] = (uint8_t)v;
}

static void puts_of(const int *v, size_t n) { while (n--) put((uint32_t)*v++); }

static void print(void) {
    size_t i;
    for (i = 0; i < length; i++) printf("%02x", text[i]);
    length = 0;
}

/* a balanced tree of sequences over so many left-eithers of A0 and a listed proposition, the first of them under an assume of A0 */
static uint32_t leaf, choices;
static void tree(uint32_t leaves) {
    if (leaves == 1) {
        if (!leaf) { put(2); put(0); }
        put(0); put(7); put(0); put(leaf++ % choices);
        return;
    }
    put(1);
    tree(leaves / 2);
    tree(leaves - leaves / 2);
}

int main(int argc, char **argv) {
    static const int c1[] = {3, 0, 0, 0, 1, 4, 0, 1, 0, 10, 3, 5, 3, 6, 3, 4, 0, 2, 0, 1, 0, 0, 16, 0, 1, 3, 16, 1, 1, 3, 16, 2, 2, 4, 5, 21, 3, 6, 7, 8, 1, 2, 9};
    static const int c1_certificate[] = {4, 0, 0, 0, 1, 4, 0, 1, 4, 1, 0, 1, 0, 5, 2, 1, 0, 6, 2, 0, 4, 1, 0, 3};
    static const int sheet[] = {1, 0, 0, 0, 2, 3, 13, 16, 0, 0, 1, 0, 1};
    const char *kind = argc > 1 ? argv[1] : "c1";
    int copies = argc > 2 ? atoi(argv[2]) : 1;
    while (copies-- > 0) {
        uint32_t i, listed = strcmp(kind, "listing") ? 8 : 4608;
        printf("C ");
        if (!strcmp(kind, "c1")) {
            puts_of(c1, sizeof c1 / sizeof *c1);
            print();
            printf(" ");
            puts_of(c1_certificate, sizeof c1_certificate / sizeof *c1_certificate);
        } else {
            puts_of(sheet, sizeof sheet / sizeof *sheet);
            print();
            printf(" ");
            put(listed);
            put(0); put(0);
            for (i = 1; i + 1 < listed; i++) { put(3); put(i - 1); }
            leaf = 0;
            choices = listed - 2;
            put(5); put(0); put((3584 - 1) % choices); /* the last conclusion */
            tree(3584);
            put(listed - 1);
        }
        print();
        printf("\n");
    }
    return 0;
}
