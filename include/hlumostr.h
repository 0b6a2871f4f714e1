/* Hlumostr: descriptions of a net, checked and edited. Link with libfirmware.a.
 *
 * Every call takes any bytes and any numbers, ends, and touches nothing but what it was lent.
 * A buffer is a pointer and a count of elements; with count 0 the pointer may be null.
 * `d` and `out` must not overlap. On a refusal `out` is as it was.
 *
 * An answer is one number. Its upper 32 bits are the refusal, 0 for none; its lower 32 bits are the
 * position of the record that is refused, or what the call returns. */
#ifndef HLUMOSTR_H
#define HLUMOSTR_H

#include <stddef.h>
#include <stdint.h>

#ifdef __cplusplus
extern "C" {
#endif

enum udr_refusal {
    UDR_OK = 0,
    UDR_SHORT = 1,            /* fewer than 9 bytes */
    UDR_MARK = 2,             /* it does not open with UDR */
    UDR_VERSION = 3,          /* the version is not 1 */
    UDR_SWITCH_COUNT = 4,     /* no switch, or more than 64 */
    UDR_CABLE_COUNT = 5,      /* more than 384 cables */
    UDR_LENGTH = 6,           /* the length is not 9 + 8 S + 4 L */
    UDR_UID = 7,              /* a UID of 0, or one that an earlier record has */
    UDR_HOSTS = 8,            /* a host at port 0 or above port 12 */
    UDR_END_SWITCH = 9,       /* a cable end at a switch that is not there */
    UDR_END_PORT = 10,        /* a cable end at port 0 or above port 12 */
    UDR_ONE_SWITCH = 11,      /* a cable with both ends on one switch */
    UDR_PORT_TAKEN = 12,      /* a cable end at a host's port, or at one that an earlier cable uses */
    UDR_NO_SUCH_UID = 13,     /* no switch has that UID */
    UDR_ONLY_SWITCH = 14,     /* it is the only switch */
    UDR_NO_CABLE = 15,        /* no cable at that port */
    UDR_LITTLE_ROOM = 16,     /* the lent output is too short */
    UDR_UNSOUND = 17,         /* the rehearsal's record is not sound */
    UDR_NO_SUCH_PLACE = 18,   /* no such switch number or channel */
    UDR_BAD_ADDRESS = 19,     /* no good address */
    UDR_CHANNEL_EMPTY = 20,   /* the channel is empty */
    UDR_PORT_FORBIDDEN = 21,  /* the entry does not allow that port, or it has no cable */
    UDR_CHANNEL_TAKEN = 22    /* the next channel is taken */
};

/* The largest description. */
#define UDR_BYTES 2057

static inline uint32_t udr_refusal_of(uint64_t answer) { return (uint32_t)(answer >> 32); }
static inline uint32_t udr_value_of(uint64_t answer) { return (uint32_t)answer; }

/* Whether the d_len bytes at d are a description: 0, or the first of 1 to 12 with its position. */
uint64_t udr_check(const uint8_t *d, size_t d_len);

/* Writes d without the switch of that UID and its cables to out. Returns the new length, or 1 to 14 or 16. */
uint64_t udr_retire(const uint8_t *d, size_t d_len, uint64_t uid, uint8_t *out, size_t out_len);

/* Writes d without the cable at that port of the switch of that UID to out. Returns the new length, or 1 to 13, 15 or 16. */
uint64_t udr_pull(const uint8_t *d, size_t d_len, uint64_t uid, uint64_t port, uint8_t *out, size_t out_len);

#ifdef __cplusplus
}
#endif
#endif
