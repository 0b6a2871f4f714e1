/* The C faces, called through the archive: known answers, hostile input, buffers of exact size between guard bytes, and random nets against plain C. */
#include "hlumostr.h"
#include "plain.h"

#include <stdbool.h>
#include <stdio.h>
#include <stdlib.h>
#include <string.h>

/* single comparisons, and the tests that they make up */
static unsigned compared, wrong, passed, failed;

static void expect(bool right, const char *what) {
    compared++;
    if (!right && ++wrong <= 20) printf("FAILED: %s\n", what);
}

/* closes a test: it passed if none of its comparisons went wrong */
static void test(const char *name) {
    if (wrong == 0) passed++;
    else failed++;
    printf("%s: %u compared, %u wrong\n", name, compared, wrong);
    compared = wrong = 0;
}

static uint64_t refusal(unsigned number, unsigned position) { return (uint64_t)number << 32 | position; }

/* A lent output of exactly n bytes between guards, filled with a pattern. */
enum { GUARD = 32 };
struct lent {
    uint8_t *whole, *out;
    size_t n;
};

static uint8_t pattern(size_t i) { return (uint8_t)(i * 37 + 11); }

static struct lent lend(size_t n) {
    struct lent l = {malloc(n + 2 * GUARD), NULL, n};
    for (size_t i = 0; i < n + 2 * GUARD; i++) l.whole[i] = pattern(i);
    l.out = l.whole + GUARD;
    return l;
}

/* whether all but the first k bytes of the output are as they were */
static bool untouched(struct lent l, size_t k) {
    for (size_t i = 0; i < l.n + 2 * GUARD; i++)
        if ((i < GUARD || i >= GUARD + k) && l.whole[i] != pattern(i)) return false;
    return true;
}

/* a copy of exactly n bytes, so that a sanitizer sees a read past its end */
static uint8_t *exact(const uint8_t *d, size_t n) {
    uint8_t *copy = malloc(n ? n : 1);
    if (n) memcpy(copy, d, n);
    return copy;
}

static const uint8_t ring[69] = {
    'U', 'D', 'R', 0, 1, 0, 5, 0, 5,
    0, 0, 0, 0, 0, 10, 0, 32, 0, 0, 0, 0, 0, 20, 0, 32, 0, 0, 0, 0, 0, 30, 0, 32, 0, 0, 0, 0, 0, 40, 0, 32, 0, 0, 0, 0, 0, 50, 0, 32,
    0, 1, 1, 1, 1, 2, 2, 1, 2, 2, 3, 1, 3, 2, 4, 1, 4, 2, 0, 2};

static uint64_t check_with(size_t at, uint8_t value) {
    uint8_t d[69];
    memcpy(d, ring, 69);
    d[at] = value;
    uint8_t *e = exact(d, 69);
    uint64_t r = udr_check(e, 69);
    free(e);
    return r;
}

static void known_checks(void) {
    expect(udr_check(NULL, 0) == refusal(1, 0), "no bytes, null pointer");
    expect(udr_check(ring, 69) == 0, "R5 is accepted");
    for (size_t n = 0; n < 69; n++) expect(udr_check(ring, n) == refusal(n < 9 ? 1 : 6, 0), "R5 cut short");
    expect(check_with(2, 'r') == refusal(2, 0), "third letter");
    expect(check_with(4, 2) == refusal(3, 0), "version 2");
    expect(check_with(6, 0) == refusal(4, 0), "no switch");
    expect(check_with(6, 65) == refusal(4, 0), "65 switches");
    expect(check_with(7, 2) == refusal(5, 0), "more than 384 cables");
    expect(check_with(8, 4) == refusal(6, 0), "another cable count");
    expect(check_with(22, 10) == refusal(7, 1), "a UID again");
    expect(check_with(22, 0) == refusal(7, 1), "no UID");
    expect(check_with(22, 11) == 0, "a UID that differs in the last bit only");
    expect(check_with(16, 33) == refusal(8, 0), "a host at port 0");
    expect(check_with(15, 32) == refusal(8, 0), "a host at port 13");
    expect(check_with(15, 16) == 0, "a host at port 12");
    expect(check_with(51, 5) == refusal(9, 0), "a switch that is not there");
    expect(check_with(50, 13) == refusal(10, 0), "port 13");
    expect(check_with(50, 12) == 0, "port 12");
    expect(check_with(55, 1) == refusal(11, 1), "both ends on one switch");
    expect(check_with(54, 5) == refusal(12, 1), "a host's port");
    expect(check_with(54, 1) == refusal(12, 1), "a used port");
}

static void known_edits(void) {
    struct lent l = lend(53);
    expect(udr_retire(ring, 69, 30, l.out, 53) == 53 && untouched(l, 53), "retire C of R5 into exactly 53 bytes");
    expect(udr_check(l.out, 53) == 0, "what is left is accepted");
    expect(l.out[6] == 4 && l.out[8] == 3 && l.out[45] == 2 && l.out[47] == 3, "positions above C fell by 1");
    free(l.whole);
    l = lend(52);
    expect(udr_retire(ring, 69, 30, l.out, 52) == refusal(16, 0) && untouched(l, 0), "52 bytes are too few");
    expect(udr_retire(ring, 69, 21, l.out, 52) == refusal(13, 0) && untouched(l, 0), "no UID 21");
    expect(udr_retire(ring, 69, (uint64_t)1 << 48 | 30, l.out, 52) == refusal(13, 0), "49 bits");
    expect(udr_retire(ring, 69, (uint64_t)1 << 32 | 30, l.out, 52) == refusal(13, 0), "the low 32 bits alone");
    expect(udr_retire(ring, 68, 30, l.out, 52) == refusal(6, 0) && untouched(l, 0), "a damaged description");
    expect(udr_retire(NULL, 0, 30, NULL, 0) == refusal(1, 0), "nothing at all");
    free(l.whole);
    l = lend(80);
    expect(udr_pull(ring, 69, 20, 1, l.out, 80) == 65 && untouched(l, 65), "pull A.1-B.1 from B");
    expect(memcmp(l.out + 49, ring + 53, 16) == 0 && l.out[8] == 4, "the other four cables stay");
    expect(udr_pull(ring, 69, 20, 5, l.out, 80) == refusal(15, 0) && untouched(l, 65), "a host port");
    expect(udr_pull(ring, 69, 20, 0, l.out, 80) == refusal(15, 0), "port 0");
    expect(udr_pull(ring, 69, 20, 257, l.out, 80) == refusal(15, 0), "port 257 is not port 1");
    expect(udr_pull(ring, 69, 20, UINT64_MAX, l.out, 80) == refusal(15, 0), "the largest port");
    expect(udr_pull(ring, 69, 20, 1, l.out, 64) == refusal(16, 0), "64 bytes are too few");
    free(l.whole);
    static const uint8_t one[17] = {'U', 'D', 'R', 0, 1, 0, 1, 0, 0, 0, 0, 0, 0, 0, 7, 0, 0};
    expect(udr_retire(one, 17, 7, NULL, 0) == refusal(14, 0), "the only switch");
    expect(udr_retire(one, 17, 8, NULL, 0) == refusal(13, 0), "13 before 14");
}

static uint64_t seed = 88172645463325252ull;

static unsigned draw(unsigned below) {
    seed ^= seed << 13;
    seed ^= seed >> 7;
    seed ^= seed << 17;
    return (unsigned)(seed >> 33) % below;
}

/* a random accepted description; UIDs often differ in one bit only */
static size_t random_net(uint8_t *d) {
    unsigned s = 1 + draw(64), l = 0;
    uint8_t used[64][13];
    memset(used, 0, sizeof used);
    memcpy(d, "UDR\0\1\0", 6);
    d[6] = (uint8_t)s;
    uint64_t base = (uint64_t)draw(1u << 16) << 32 | draw(1u << 31);
    for (unsigned i = 0; i < s; i++) {
        uint64_t u = (draw(2) ? base ^ (uint64_t)(i + 1) << draw(40) : base + i + 1) & 0xffffffffffffull;
        uint8_t *r = d + 9 + 8 * i;
        for (int k = 0; k < 6; k++) r[k] = (uint8_t)(u >> (8 * (5 - k)));
        unsigned hosts = draw(1u << 13) & draw(1u << 13) & ~1u;
        r[6] = (uint8_t)(hosts >> 8);
        r[7] = (uint8_t)hosts;
        for (int p = 1; p < 13; p++) used[i][p] = hosts >> p & 1;
    }
    uint8_t *c = d + 9 + 8 * s;
    for (unsigned tries = draw(800); tries > 0 && l < 384; tries--) {
        unsigned a = draw(s), b = draw(s), p = 1 + draw(12), q = 1 + draw(12);
        if (a == b || used[a][p] || used[b][q]) continue;
        used[a][p] = used[b][q] = 1;
        c[4 * l] = (uint8_t)a, c[4 * l + 1] = (uint8_t)p, c[4 * l + 2] = (uint8_t)b, c[4 * l + 3] = (uint8_t)q;
        l++;
    }
    d[7] = (uint8_t)(l >> 8);
    d[8] = (uint8_t)l;
    return 9 + 8 * s + 4 * l;
}

static void compare_one(const uint8_t *bytes, size_t n) {
    uint8_t *d = exact(bytes, n), *copy = exact(bytes, n), want[2057];
    expect(udr_check(d, n) == plain_check(d, n), "random check");
    uint64_t uid = 0;
    size_t i = n > 17 ? 9 + 8 * draw((unsigned)(n - 9) / 8) : 9;
    for (int k = 0; k < 6 && i + k < n; k++) uid = uid << 8 | d[i + k];
    if (draw(8) == 0) uid ^= (uint64_t)1 << draw(64);
    uint64_t port = draw(16) ? draw(15) : (uint64_t)draw(1u << 30) << 8 | draw(15);
    size_t room = draw(4) ? 2057 : draw(2058);
    struct lent l = lend(room);
    memcpy(want, l.out, room < 2057 ? room : 2057);
    uint64_t w = plain_retire(d, n, uid, want, room), r = udr_retire(d, n, uid, l.out, room);
    expect(r == w && memcmp(l.out, want, room) == 0 && untouched(l, room), "random retire");
    free(l.whole);
    l = lend(room);
    memcpy(want, l.out, room < 2057 ? room : 2057);
    w = plain_pull(d, n, uid, port, want, room), r = udr_pull(d, n, uid, port, l.out, room);
    expect(r == w && memcmp(l.out, want, room) == 0 && untouched(l, room), "random pull");
    expect(n == 0 || memcmp(d, copy, n) == 0, "the input stays");
    free(l.whole);
    free(copy);
    free(d);
}

static void random_nets(unsigned nets) {
    uint8_t d[4096];
    for (unsigned k = 0; k < nets; k++) {
        size_t n = random_net(d);
        compare_one(d, n);
        for (int damage = 0; damage < 6; damage++) {
            uint8_t e[4096];
            memcpy(e, d, n);
            size_t m = n;
            for (unsigned flips = 1 + draw(3); flips > 0; flips--) e[draw(4) ? draw((unsigned)n) : draw(9)] ^= (uint8_t)(1u << draw(8));
            if (draw(5) == 0) m = draw((unsigned)n + 1);
            compare_one(e, m);
        }
    }
}

static void sample(const char *name) {
    char path[256];
    uint8_t d[4096];
    snprintf(path, sizeof path, "samples/%s.udr", name);
    FILE *f = fopen(path, "rb");
    expect(f != NULL, path);
    if (!f) return;
    size_t n = fread(d, 1, sizeof d, f);
    fclose(f);
    expect(udr_check(d, n) == 0, path);
    for (int k = 0; k < 200; k++) compare_one(d, n);
}

int main(void) {
    static const char *const names[] = {"r5", "reg12", "ring64", "torus4x8", "torus4x8_30", "torus8x8", "turn2"};
    known_checks();
    test("known checks");
    known_edits();
    test("known edits");
    for (size_t i = 0; i < sizeof names / sizeof *names; i++) {
        sample(names[i]);
        test(names[i]);
    }
    random_nets(3000);
    test("random and damaged nets");
    printf("faces: %u passed, %u failed\n", passed, failed);
    return failed != 0;
}
