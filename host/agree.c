/* Feeds slot_check good and damaged input, and compares it with known answers and with a checker
 * of its own, written from the rules. Prints how many agreed; ends with 1 unless all did. */
#include "slot_check.h"
#include <stdio.h>
#include <string.h>

enum { MOST_NODES = 64, MOST_BYTES = 32768 };

static unsigned tried, agreed;

static void expect(const char *what, uint32_t got, uint32_t want) {
    tried++;
    if (got == want)
        agreed++;
    else
        printf("%s: %u, and not %u\n", what, (unsigned)got, (unsigned)want);
}

static size_t put(uint8_t *job, size_t at, char letter, uint8_t first, uint8_t second) {
    memset(job + at, 0, 8);
    job[at] = (uint8_t)letter;
    job[at + 1] = first;
    job[at + 2] = second;
    return at + 8;
}

/* ---- a second opinion: the rules, read by another hand */

static uint32_t second_opinion(const uint8_t *job, size_t job_length, const uint8_t *slots, size_t slots_length) {
    static unsigned char link[MOST_NODES][MOST_NODES];
    unsigned count, a, b, k;
    size_t at, i;
    if (job_length > MOST_BYTES)
        return SLOT_CHECK_REFUSED + 2;
    if (job_length % 8)
        return SLOT_CHECK_REFUSED + 13;
    if (job_length == 0 || job[0] != 'N' || job[1] < 1 || job[1] > MOST_NODES || job[2])
        return SLOT_CHECK_REFUSED + 14;
    count = job[1];
    memset(link, 0, sizeof link);
    for (at = 0; at < job_length; at += 8) {
        for (i = 3; i < 8; i++)
            if (job[at + i])
                return SLOT_CHECK_REFUSED + 14;
        if (at == 0)
            continue;
        a = job[at + 1];
        b = job[at + 2];
        if (job[at] != 'L' || a >= count || b >= count || a == b)
            return SLOT_CHECK_REFUSED + 14;
        link[a][b] = link[b][a] = 1;
    }
    if (slots_length < count)
        return SLOT_CHECK_REFUSED + 1;
    for (a = 0; a < count; a++)
        for (b = a + 1; b < count; b++) {
            int contend = link[a][b];
            for (k = 0; k < count; k++)
                contend = contend || (link[a][k] && link[k][b]);
            if (contend && slots[a] && slots[a] == slots[b])
                return 256 * a + b;
        }
    return 0;
}

/* ---- input by chance, always the same */

static uint32_t state = 1;

static uint32_t chance(uint32_t below) {
    state ^= state << 13;
    state ^= state >> 17;
    state ^= state << 5;
    return state % below;
}

static void compare_at_random(void) {
    static uint8_t job[8 * 200];
    uint8_t slots[MOST_NODES];
    size_t length = put(job, 0, 'N', (uint8_t)(1 + chance(MOST_NODES)), 0);
    unsigned links = chance(100), i;
    uint32_t range = 1 + chance(40);
    for (i = 0; i < links; i++) {
        uint8_t a = (uint8_t)chance(job[1]), b = (uint8_t)chance(job[1]);
        if (a != b)
            length = put(job, length, 'L', a, b);
    }
    for (i = 0; i < MOST_NODES; i++)
        slots[i] = (uint8_t)chance(range);
    if (chance(4) == 0)
        job[chance((uint32_t)length)] ^= (uint8_t)(1u << chance(8));
    if (chance(20) == 0)
        length -= chance(8);
    i = chance(10) ? MOST_NODES : chance(MOST_NODES);
    expect("by chance", slot_check(job, length, slots, i), second_opinion(job, length, slots, i));
}

int main(void) {
    static uint8_t job[MOST_BYTES + 8];
    const uint8_t one_two_one[] = {1, 2, 1}, one_two_none[] = {1, 2, 0, 9}, none[1] = {0};
    size_t path, i;
    path = put(job, 0, 'N', 3, 0);
    path = put(job, path, 'L', 0, 1);
    path = put(job, path, 'L', 1, 2);
    expect("clear", slot_check(job, path, one_two_none, 3), 0);
    expect("more bytes than nodes", slot_check(job, path, one_two_none, 4), 0);
    expect("ends of a path", slot_check(job, path, one_two_one, 3), 2);
    expect("too few slots", slot_check(job, path, one_two_one, 2), SLOT_CHECK_REFUSED + 1);
    expect("torn", slot_check(job, path - 1, one_two_one, 3), SLOT_CHECK_REFUSED + 13);
    expect("empty", slot_check(job, 0, none, 0), SLOT_CHECK_REFUSED + 14);
    put(job, path, 'D', 0, 0);
    expect("another letter", slot_check(job, path + 8, one_two_one, 3), SLOT_CHECK_REFUSED + 14);
    put(job, path, 'L', 2, 3);
    expect("no such node", slot_check(job, path + 8, one_two_one, 3), SLOT_CHECK_REFUSED + 14);
    for (i = path; i < MOST_BYTES + 8; i += 8)
        put(job, i, 'L', 0, 1);
    expect("longest", slot_check(job, MOST_BYTES, one_two_none, 3), 0);
    expect("too long", slot_check(job, MOST_BYTES + 8, one_two_none, 3), SLOT_CHECK_REFUSED + 2);
    for (i = 0; i < 20000; i++)
        compare_at_random();
    printf("slot_check: %u of %u answers agreed\n", agreed, tried);
    return agreed == tried ? 0 : 1;
}
