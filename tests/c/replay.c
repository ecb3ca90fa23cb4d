/* Replays requests in the format of the vectors through the baseline: a line of standard input, a line of standard output. */
#include "baseline.h"
#include "lines.h"

#define LONGEST 262144

static uint8_t sheet[LONGEST], certificate[LONGEST], out[LONGEST];

int main(void) {
    static char line[4 * LONGEST + 100], a[2 * LONGEST], b[2 * LONGEST];
    unsigned long long budget;
    unsigned room;
    while (fgets(line, sizeof line, stdin)) {
        struct baseline_answer r;
        if (sscanf(line, "E %llu %u %s", &budget, &room, a) == 3) {
            r = baseline_evaluate(sheet, unhex(a, sheet), budget > 1024 ? 1025 : (uint32_t)budget, out, room);
            size_t values[3] = {r.values[0], r.values[1], r.values[2]};
            print_evaluation(r.number, values, out);
        } else if (sscanf(line, "C %s %s", a, b) == 2) {
            size_t n = unhex(a, sheet);
            r = baseline_check(sheet, n, certificate, unhex(b, certificate));
            print_check(r.number, r.values[0], r.values[1]);
        } else printf("?\n");
    }
    return 0;
}
