/* A search run in two legs from C: the sequences ACGTA, CAGGT, AT, the template N[0,1]N, quorum 2. The second leg goes on from a
 * copy of the bytes that the first one left, as it could on another machine. check.sh builds it, runs it and checks what it prints. */
#include <inttypes.h>
#include <stdio.h>
#include <string.h>

#include "tulfasheq.h"

#define ROOM 16

static const uint8_t letters[12] = {'A', 'C', 'G', 'T', 'A', 'C', 'A', 'G', 'G', 'T', 'A', 'T'};
static const uint32_t lengths[3] = {5, 5, 2};
static const uint16_t shape[6] = {1, 0, 0, 1, 0, 1}, allowances[2] = {0, 0};

/* What is wrong with saved bytes. */
static const char *fault(uint64_t answer) {
    switch (answer) {
    case TULFASHEQ_SAVED_SIZE:
        return "not as long as its records";
    case TULFASHEQ_SAVED_KIND:
        return "wrong kind, or wrong number of a component";
    case TULFASHEQ_SAVED_BLANK:
        return "a byte that must be 0 is not";
    case TULFASHEQ_SAVED_SUM:
        return "the lengths do not add up";
    case TULFASHEQ_PLACE_RULE:
        return "no place of this template";
    default:
        return "see tulfasheq.h";
    }
}

static int refused(uint64_t answer, uint64_t place) {
    printf("refused %" PRIu64 " %" PRIu64 ": %s\n", answer, place, fault(answer));
    return 1;
}

/* Runs a leg and prints its rows and counts; 1 if it was refused, and else 0. */
static int leg(uint8_t *saved, size_t size, uint64_t budget) {
    uint64_t motifs[ROOM], weights[ROOM], place, stop, steps, rows;
    uint32_t supports[ROOM];
    uint64_t answer = tulfasheq_leg(letters, 12, lengths, 3, saved, size, budget, motifs, ROOM, supports, ROOM, weights, ROOM,
                                    &place, &stop, &steps, &rows);
    if (answer != TULFASHEQ_OK)
        return refused(answer, place);
    for (uint64_t i = 0; i < rows; i++)
        printf("motif %" PRIu64 " support %" PRIu32 " weighted %" PRIu64 "\n", motifs[i], supports[i], weights[i]);
    printf("%s after %" PRIu64 " steps, %" PRIu64 " rows\n", stop == TULFASHEQ_ENDED ? "ended" : "stopped", steps, rows);
    return 0;
}

int main(void) {
    uint8_t saved[TULFASHEQ_SAVED_MOST], copy[TULFASHEQ_SAVED_MOST];
    uint64_t place, size;
    uint64_t answer = tulfasheq_begin(letters, 12, lengths, 3, TULFASHEQ_EXACT, 2, shape, 6, allowances, 2, 2, saved, sizeof saved,
                                      &place, &size);
    if (answer != TULFASHEQ_OK)
        return refused(answer, place);
    if (leg(saved, size, 4))
        return 1;
    printf("saved %" PRIu64 " bytes, at", size);
    for (uint64_t i = size - 16; i < size; i++)
        printf(" %02x", saved[i]);
    printf("\n");
    memcpy(copy, saved, size);
    if (leg(copy, size, UINT64_MAX))
        return 1;
    /* Bytes cut short are refused, and so are damaged ones, with the record that is bad: a wrong kind, a byte that must be 0 in the
     * first component's record, a wrong sum, a place of 9 letters. */
    static const struct {
        size_t at;
        uint8_t byte;
    } damage[4] = {{0, 9}, {19, 9}, {6, 9}, {49, 9}};
    if (!leg(saved, size - 1, 1))
        return 1;
    for (int i = 0; i < 4; i++) {
        memcpy(copy, saved, size);
        copy[damage[i].at] = damage[i].byte;
        if (!leg(copy, size, 1))
            return 1;
    }
    return 0;
}
