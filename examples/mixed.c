/* A mixed search in C: the sequences ACGTA, CAGGT, AT, the template N[0,1]N with one letter for several bases in its second
 * component, quorum 3. No motif of A, C, G, T alone is in all three; those that are, are printed, and where each of them stands.
 * check.sh builds it, runs it and checks what it prints. */
#include <inttypes.h>
#include <stdio.h>

#include "tulfasheq.h"

#define ROOM 16

static const uint8_t letters[12] = {'A', 'C', 'G', 'T', 'A', 'C', 'A', 'G', 'G', 'T', 'A', 'T'};
static const uint32_t lengths[3] = {5, 5, 2};
static const uint16_t shape[6] = {1, 0, 0, 1, 0, 1}, allowances[2] = {0, 1};

static int refused(uint64_t answer, uint64_t place) {
    printf("refused %" PRIu64 " %" PRIu64 "\n", answer, place);
    return 1;
}

/* Prints a motif: its first letter is the higher digit of base 16. */
static void print_motif(uint64_t motif) {
    static const char names[] = "ACGTRYKMSWBDHV";
    printf("%c[0,1]%c", names[motif >> 4], names[motif & 15]);
}

/* Prints where a motif stands: the sequence, and a start for each component. 1 if that was refused, and else 0. */
static int print_occurrences(uint64_t motif) {
    uint32_t out[ROOM * TULFASHEQ_ROW(2)];
    uint64_t place, rows, length;
    uint64_t answer = tulfasheq_recover(letters, 12, lengths, 3, TULFASHEQ_MIXED, 2, shape, 6, allowances, 2, motif, 0, out,
                                        ROOM * TULFASHEQ_ROW(2), &place, &rows, &length);
    if (answer != TULFASHEQ_OK)
        return refused(answer, place);
    for (uint64_t i = 0; i < rows; i++)
        printf("  %" PRIu32 ": %" PRIu32 " %" PRIu32 "\n", out[3 * i], out[3 * i + 1], out[3 * i + 2]);
    return 0;
}

int main(void) {
    uint8_t saved[TULFASHEQ_SAVED_MOST];
    uint32_t supports[ROOM];
    uint64_t motifs[ROOM], weights[ROOM], place, size, stop, steps, rows;
    uint64_t answer = tulfasheq_begin(letters, 12, lengths, 3, TULFASHEQ_MIXED, 2, shape, 6, allowances, 2, 3, saved, sizeof saved,
                                      &place, &size);
    if (answer != TULFASHEQ_OK)
        return refused(answer, place);
    answer = tulfasheq_leg(letters, 12, lengths, 3, saved, size, UINT64_MAX, motifs, ROOM, supports, ROOM, weights, ROOM, &place,
                           &stop, &steps, &rows);
    if (answer != TULFASHEQ_OK)
        return refused(answer, place);
    for (uint64_t i = 0; i < rows; i++) {
        print_motif(motifs[i]);
        printf(" %" PRIu32 " %" PRIu64 "\n", supports[i], weights[i]);
        if (print_occurrences(motifs[i]))
            return 1;
    }
    printf("end %" PRIu64 " %" PRIu64 "\n", steps, rows);

    /* A motif that the allowances do not cover is none of this template: R[0,1]T. And an allowance is at most the length. */
    static const uint16_t above[2] = {0, 2};
    if (!print_occurrences(4 * 16 + 3))
        return 1;
    answer = tulfasheq_begin(letters, 12, lengths, 3, TULFASHEQ_MIXED, 2, shape, 6, above, 2, 3, saved, sizeof saved, &place,
                             &size);
    return answer == TULFASHEQ_OK || !refused(answer, place);
}
