/* Checking and editing against plain C: same bytes, same run, best of several rounds. */
#define _POSIX_C_SOURCE 199309L
#include "hlumostr.h"
#include "plain.h"

#include <stdio.h>
#include <time.h>

static double now(void) {
    struct timespec t;
    clock_gettime(CLOCK_MONOTONIC, &t);
    return t.tv_sec * 1e9 + t.tv_nsec;
}

static volatile uint64_t sink;

enum { ROUNDS = 15, CALLS = 2000 };

#define BEST(into, call)                                       \
    do {                                                       \
        into = 1e18;                                           \
        for (int r = 0; r < ROUNDS; r++) {                     \
            double start = now();                              \
            for (int k = 0; k < CALLS; k++) sink += (call);    \
            double took = (now() - start) / CALLS;             \
            if (took < into) into = took;                      \
        }                                                      \
    } while (0)

int main(int argc, char **argv) {
    printf("%-24s %8s %26s %26s %26s\n", "description", "bytes", "check ns: ours, C, ratio", "retire ns: ours, C, ratio", "pull ns: ours, C, ratio");
    for (int i = 1; i < argc; i++) {
        uint8_t d[4096], out[2057];
        FILE *f = fopen(argv[i], "rb");
        if (!f) return 1;
        size_t n = fread(d, 1, sizeof d, f);
        fclose(f);
        uint64_t uid = 0;
        const uint8_t *last = d + 9 + 8 * ((d[5] << 8 | d[6]) - 1);
        for (int k = 0; k < 6; k++) uid = uid << 8 | last[k];
        double a, b, c, e, g, h;
        BEST(a, udr_check(d, n));
        BEST(b, plain_check(d, n));
        BEST(c, udr_retire(d, n, uid, out, sizeof out));
        BEST(e, plain_retire(d, n, uid, out, sizeof out));
        BEST(g, udr_pull(d, n, uid, 1, out, sizeof out));
        BEST(h, plain_pull(d, n, uid, 1, out, sizeof out));
        printf("%-24s %8zu %10.0f %8.0f %6.2f %10.0f %8.0f %6.2f %10.0f %8.0f %6.2f\n", argv[i], n, a, b, a / b, c, e, c / e, g, h, g / h);
    }
    return 0;
}
