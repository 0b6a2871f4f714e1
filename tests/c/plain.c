#include "plain.h"

#include <stdbool.h>
#include <string.h>

enum { HEADER = 9, SWITCH = 8, CABLE = 4 };

static uint64_t refuse(unsigned number, size_t position) { return (uint64_t)number << 32 | position; }

static unsigned big16(const uint8_t *p) { return p[0] << 8 | p[1]; }

static const uint8_t *switch_at(const uint8_t *d, size_t i) { return d + HEADER + SWITCH * i; }

static const uint8_t *cable_at(const uint8_t *d, size_t c) { return d + HEADER + SWITCH * big16(d + 5) + CABLE * c; }

static uint64_t uid_at(const uint8_t *d, size_t i) {
    uint64_t u = 0;
    for (int k = 0; k < 6; k++) u = u << 8 | switch_at(d, i)[k];
    return u;
}

static unsigned hosts_at(const uint8_t *d, size_t i) { return big16(switch_at(d, i) + 6); }

static uint64_t check_switches(const uint8_t *d, size_t s) {
    for (size_t i = 0; i < s; i++) {
        uint64_t u = uid_at(d, i);
        if (u == 0) return refuse(7, i);
        for (size_t j = 0; j < i; j++)
            if (uid_at(d, j) == u) return refuse(7, i);
        if (hosts_at(d, i) & ~0x1ffeu) return refuse(8, i);
    }
    return 0;
}

static uint64_t check_cables(const uint8_t *d, size_t s, size_t l) {
    bool used[64][13];
    memset(used, 0, sizeof used);
    for (size_t c = 0; c < l; c++) {
        const uint8_t *r = cable_at(d, c);
        if (r[0] >= s || r[2] >= s) return refuse(9, c);
        if (r[1] == 0 || r[1] > 12 || r[3] == 0 || r[3] > 12) return refuse(10, c);
        if (r[0] == r[2]) return refuse(11, c);
        for (int e = 0; e < 4; e += 2)
            if ((hosts_at(d, r[e]) >> r[e + 1] & 1) || used[r[e]][r[e + 1]]) return refuse(12, c);
        used[r[0]][r[1]] = used[r[2]][r[3]] = true;
    }
    return 0;
}

uint64_t plain_check(const uint8_t *d, size_t n) {
    if (n < HEADER) return refuse(1, 0);
    if (memcmp(d, "UDR", 3) != 0) return refuse(2, 0);
    if (big16(d + 3) != 1) return refuse(3, 0);
    size_t s = big16(d + 5), l = big16(d + 7);
    if (s == 0 || s > 64) return refuse(4, 0);
    if (l > 384) return refuse(5, 0);
    if (n != HEADER + SWITCH * s + CABLE * l) return refuse(6, 0);
    uint64_t v = check_switches(d, s);
    return v ? v : check_cables(d, s, l);
}

/* position of the record with that UID, or -1 */
static int find(const uint8_t *d, uint64_t uid) {
    for (size_t i = 0; i < big16(d + 5); i++)
        if (uid_at(d, i) == uid) return (int)i;
    return -1;
}

/* d without switch x and without cable b, -1 for none, into new; its length */
static size_t without(const uint8_t *d, int x, int b, uint8_t *new) {
    size_t s = big16(d + 5), l = big16(d + 7), at = HEADER, cables = 0;
    memcpy(new, d, HEADER);
    for (size_t i = 0; i < s; i++)
        if ((int)i != x) {
            memcpy(new + at, switch_at(d, i), SWITCH);
            at += SWITCH;
        }
    for (size_t c = 0; c < l; c++) {
        const uint8_t *r = cable_at(d, c);
        if ((int)c == b || r[0] == x || r[2] == x) continue;
        for (int k = 0; k < CABLE; k++) new[at + k] = (uint8_t)(r[k] - (k % 2 == 0 && x >= 0 && r[k] > x));
        at += CABLE;
        cables++;
    }
    size_t kept = s - (x >= 0);
    new[5] = (uint8_t)(kept >> 8);
    new[6] = (uint8_t)kept;
    new[7] = (uint8_t)(cables >> 8);
    new[8] = (uint8_t)cables;
    return at;
}

static uint64_t hand_over(const uint8_t *new, size_t n, uint8_t *out, size_t room) {
    if (room < n) return refuse(16, 0);
    memcpy(out, new, n);
    return n;
}

uint64_t plain_retire(const uint8_t *d, size_t n, uint64_t uid, uint8_t *out, size_t room) {
    uint8_t new[2057];
    uint64_t v = plain_check(d, n);
    if (v) return v;
    int x = find(d, uid);
    if (x < 0) return refuse(13, 0);
    if (big16(d + 5) == 1) return refuse(14, 0);
    return hand_over(new, without(d, x, -1, new), out, room);
}

uint64_t plain_pull(const uint8_t *d, size_t n, uint64_t uid, uint64_t port, uint8_t *out, size_t room) {
    uint8_t new[2057];
    uint64_t v = plain_check(d, n);
    if (v) return v;
    int x = find(d, uid);
    if (x < 0) return refuse(13, 0);
    for (size_t c = 0; c < big16(d + 7); c++) {
        const uint8_t *r = cable_at(d, c);
        if ((r[0] == x && r[1] == port) || (r[2] == x && r[3] == port)) return hand_over(new, without(d, -1, (int)c, new), out, room);
    }
    return refuse(15, 0);
}
