/* From a FASTA file to the motifs of its records, in C: reads the file on standard input, prints the name and the number of letters
 * of each record, then runs the search for NNNNNN[15,19]NNNNNN, quorum 3, in legs until it has ended, and prints its rows as the
 * printing program does. check.sh builds it, runs it over promoters.fa and checks what it prints. */
#include <inttypes.h>
#include <stdio.h>

#include "tulfasheq.h"

#define BYTES 1048576
#define BUDGET 1000
#define ROOM 4

static uint8_t file[BYTES + 1], letters[TULFASHEQ_LETTERS];
static uint32_t lengths[TULFASHEQ_SEQUENCES];
static const uint16_t shape[6] = {6, 0, 0, 6, 15, 19}, allowances[2] = {0, 0};

static int refused(uint64_t answer, uint64_t place) {
    printf("refused %" PRIu64 " %" PRIu64 "\n", answer, place);
    return 1;
}

/* Prints a motif: its first letter is the highest digit, and the gap stands between the two components. */
static void print_motif(uint64_t motif) {
    for (int i = 11; i >= 0; i--)
        printf("%c%s", "ACGT"[motif >> 2 * i & 3], i == 6 ? "[15,19]" : "");
}

/* Reads the records one after another and prints their names; 1 if one was refused, and else 0. */
static int read_records(size_t size, uint64_t *used, uint64_t *count) {
    uint64_t at = 0, place, found, name_start, name_end;
    do {
        uint64_t answer = tulfasheq_fasta(file, size, letters, TULFASHEQ_LETTERS, lengths, TULFASHEQ_SEQUENCES, &at, used, count,
                                          &place, &found, &name_start, &name_end);
        if (answer != TULFASHEQ_OK)
            return refused(answer, place);
        if (found) {
            fwrite(file + name_start, 1, name_end - name_start, stdout);
            printf(" %" PRIu32 "\n", lengths[*count - 1]);
        }
    } while (found);
    return 0;
}

int main(void) {
    uint8_t saved[TULFASHEQ_SAVED_MOST];
    uint32_t supports[ROOM];
    uint64_t motifs[ROOM], weights[ROOM], used = 0, count = 0, place, saved_size, stop, steps, rows, all_steps = 0, all_rows = 0;

    size_t size = fread(file, 1, sizeof file, stdin);
    if (size > BYTES || ferror(stdin)) {
        puts(ferror(stdin) ? "the file cannot be read" : "the file is longer than 1 MiB");
        return 1;
    }
    if (read_records(size, &used, &count))
        return 1;

    uint64_t answer = tulfasheq_begin(letters, used, lengths, count, TULFASHEQ_EXACT, 2, shape, 6, allowances, 2, 3, saved,
                                      sizeof saved, &place, &saved_size);
    if (answer != TULFASHEQ_OK)
        return refused(answer, place);
    do {
        answer = tulfasheq_leg(letters, used, lengths, count, saved, saved_size, BUDGET, motifs, ROOM, supports, ROOM, weights,
                               ROOM, &place, &stop, &steps, &rows);
        if (answer != TULFASHEQ_OK)
            return refused(answer, place);
        for (uint64_t i = 0; i < rows; i++) {
            print_motif(motifs[i]);
            printf(" %" PRIu32 " %" PRIu64 "\n", supports[i], weights[i]);
        }
        all_steps += steps;
        all_rows += rows;
    } while (stop != TULFASHEQ_ENDED);
    printf("end %" PRIu64 " %" PRIu64 "\n", all_steps, all_rows);
    return 0;
}
