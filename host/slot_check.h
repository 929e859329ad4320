/* The checker of slot tables, for a bench host in C. Link with target/staticlib/libhost.a. */
#ifndef SLOT_CHECK_H
#define SLOT_CHECK_H

#include <stddef.h>
#include <stdint.h>

/* What slot_check adds to a refusal's number. */
#define SLOT_CHECK_REFUSED 65536u

/*
 * Checks the slots of a bench.
 *
 * job:   N and L records of 8 bytes: N with the count of nodes (1 to 64) in byte 1, first and only
 *        first; then L for each link, with its ends in bytes 1 and 2. Every other byte is 0.
 * slots: a byte for each node, 0 for no slot. Bytes past the nodes are not read.
 *
 * Answers 0 if no two contenders share a slot; 256 * a + b for the first pair a, b that does; or
 * SLOT_CHECK_REFUSED plus the number of a refusal: 2 (job over 32768 bytes), 13 (its length is no
 * multiple of 8), 14 (a bad record), 1 (fewer slots than nodes).
 *
 * Each pointer must be valid for its length, and not null; nothing is written or kept.
 */
uint32_t slot_check(const uint8_t *job, size_t job_length, const uint8_t *slots, size_t slots_length);

#endif
