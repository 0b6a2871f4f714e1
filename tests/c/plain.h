/* A plain C reading of the description rules, written from the scope document alone: the tests compare with it, the bench measures against it. */
#ifndef PLAIN_H
#define PLAIN_H

#include <stddef.h>
#include <stdint.h>

/* refusal number << 32 | position, or 0 */
uint64_t plain_check(const uint8_t *d, size_t n);
/* refusal number << 32 | position, or the new length; out is written on success only */
uint64_t plain_retire(const uint8_t *d, size_t n, uint64_t uid, uint8_t *out, size_t room);
uint64_t plain_pull(const uint8_t *d, size_t n, uint64_t uid, uint64_t port, uint8_t *out, size_t room);

#endif
