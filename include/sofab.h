/* What a C host calls of Moasettee. Link with libhost.a, which `rt lib` makes of the crate host_c: README says how. */
#ifndef SOFAB_H
#define SOFAB_H

#include <stddef.h>
#include <stdint.h>

#ifdef __cplusplus
extern "C" {
#endif

/* The verdict on a message given whole: 0 complete, 1 incomplete, -2 broken. `ticket` points to `len` bytes; where `len` is 0 it may be
 * null. */
int64_t sofab_verdict(const uint8_t *ticket, size_t len);

/* The copy of a message given whole: the same fields in the fewest bytes, written to `out`, which has room for `room` bytes.
 *   0 or more  how many bytes the copy has; those of `out` after them are as they were
 *   -2         the message is broken; nothing is written
 *   -100       it is incomplete; nothing is written
 *   -101       `room` is too small; `out` is filled with the copy's start
 * A copy has at most `len` bytes, so a room of `len` is enough. `ticket` and `out` must not overlap; each may be null where its length is
 * 0. A room beyond 9,223,372,036,854,775,807 counts as that. */
int64_t sofab_copy(const uint8_t *ticket, size_t len, uint8_t *out, size_t room);

/* The length of that copy beforehand; nothing is written.
 *   0 or more  how many bytes the copy has: a room of exactly so many is enough for sofab_copy, which then answers the same number
 *   -2         the message is broken
 *   -100       it is incomplete
 * `ticket` points to `len` bytes; where `len` is 0 it may be null. */
int64_t sofab_length(const uint8_t *ticket, size_t len);

/* How many drains that copy costs, written from the first byte of a buffer of `buffer` bytes on, drained when it is full and once at the end
 * if bytes remain: its length divided by `buffer`, rounded up; none where the copy has no byte. Nothing is written.
 *   0 or more  the number of drains
 *   -18        `buffer` is 0, whatever the message is
 *   -2         the message is broken
 *   -100       it is incomplete
 * `ticket` points to `len` bytes; where `len` is 0 it may be null. */
int64_t sofab_drains(const uint8_t *ticket, size_t len, size_t buffer);

/* The exports ask for pointers that are not null, also where they point to no byte: here they get one. */
static inline int64_t sofab_verdict_of(const uint8_t *ticket, size_t len)
{
    return sofab_verdict(len ? ticket : (const uint8_t *)"", len);
}
#define sofab_verdict(ticket, len) sofab_verdict_of((ticket), (len))

static inline int64_t sofab_copy_of(const uint8_t *ticket, size_t len, uint8_t *out, size_t room)
{
    uint8_t none;
    return sofab_copy(len ? ticket : (const uint8_t *)"", len, room ? out : &none, room);
}
#define sofab_copy(ticket, len, out, room) sofab_copy_of((ticket), (len), (out), (room))

static inline int64_t sofab_length_of(const uint8_t *ticket, size_t len)
{
    return sofab_length(len ? ticket : (const uint8_t *)"", len);
}
#define sofab_length(ticket, len) sofab_length_of((ticket), (len))

static inline int64_t sofab_drains_of(const uint8_t *ticket, size_t len, size_t buffer)
{
    return sofab_drains(len ? ticket : (const uint8_t *)"", len, buffer);
}
#define sofab_drains(ticket, len, buffer) sofab_drains_of((ticket), (len), (buffer))

#ifdef __cplusplus
}
#endif

#endif
