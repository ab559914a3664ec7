/* The header held to the paper: the number of each name that it declares, and the join. header_search.c has the functions of a
 * search, and header_fasta.c the reader of FASTA files. header.sh builds all three over the library, runs them, and sees to it
 * that each name of the header is in a CHECK.
 *
 * What a call may write holds 7s before it, so that what it sets to 0 shows, and what it leaves. */
#include "check.h"
#include "tulfasheq.h"

static void answers(void) {
    CHECK(TULFASHEQ_OK, 0);
    CHECK(TULFASHEQ_SEQUENCE_COUNT, 1);
    CHECK(TULFASHEQ_LETTER_COUNT, 2);
    CHECK(TULFASHEQ_LENGTH_SUM, 3);
    CHECK(TULFASHEQ_NOT_A_LETTER, 4);
    CHECK(TULFASHEQ_COMPONENT_COUNT, 5);
    CHECK(TULFASHEQ_COMPONENT_LENGTH, 6);
    CHECK(TULFASHEQ_MOTIF_LENGTH, 7);
    CHECK(TULFASHEQ_GAP_RANGE, 8);
    CHECK(TULFASHEQ_QUORUM, 9);
    CHECK(TULFASHEQ_SAVED_SIZE, 10);
    CHECK(TULFASHEQ_SAVED_KIND, 11);
    CHECK(TULFASHEQ_OTHER_SET, 12);
    CHECK(TULFASHEQ_NOT_A_CANDIDATE, 13);
    CHECK(TULFASHEQ_MOTIF_NUMBER, 14);
    CHECK(TULFASHEQ_FIRST_ROW, 15);
    CHECK(TULFASHEQ_JOIN_LIST, 16);
    CHECK(TULFASHEQ_ROOM, 17);
    CHECK(TULFASHEQ_TEXT_BEFORE, 19);
    CHECK(TULFASHEQ_NO_ROOM, 20);
    CHECK(TULFASHEQ_SAVED_BLANK, 21);
    CHECK(TULFASHEQ_SAVED_SUM, 22);
    CHECK(TULFASHEQ_PLACE_RULE, 23);
    CHECK(TULFASHEQ_ALLOWANCE, 24);

    CHECK(TULFASHEQ_EXACT, 0);
    CHECK(TULFASHEQ_MIXED, 1);

    /* The paper tells stops apart in this order, without numbers. */
    CHECK(TULFASHEQ_ENDED, 1);
    CHECK(TULFASHEQ_SPENT, 2);
    CHECK(TULFASHEQ_FULL, 3);
}

static void limits(void) {
    CHECK(TULFASHEQ_SEQUENCES, 1024);
    CHECK(TULFASHEQ_LETTERS, 65536);
    CHECK(TULFASHEQ_COMPONENTS, 6);
    CHECK(TULFASHEQ_LENGTH, 12);
    CHECK(TULFASHEQ_MOTIF, 32);
    CHECK(TULFASHEQ_MIXED_MOTIF, 16);
    CHECK(TULFASHEQ_GAP, 255);

    CHECK(TULFASHEQ_SHAPE, 18);
    CHECK(TULFASHEQ_SAVED(1), 48);
    CHECK(TULFASHEQ_SAVED(1 + 1), 64);
    CHECK(TULFASHEQ_SAVED_MOST, 128);
    CHECK(TULFASHEQ_ROW(1), 2);
    CHECK(TULFASHEQ_ROW(1 + 1) * 2, 6);
}

static void join(void) {
    static const uint32_t first[2] = {1, 4}, second[2] = {3, 5};
    uint32_t out[3] = {7, 7, 7};
    uint64_t place = 7, kept = 7;
    CHECK(tulfasheq_join(first, 2, second, 2, 1, 0, 256, out, 3, &place, &kept), 8);
    CHECK(place, 1);
    CHECK(kept, 0);
    CHECK_ARRAY(out, 7, 7, 7);

    place = kept = 7;
    CHECK(tulfasheq_join(first, 2, second, 2, 1, 0, 1, out, 3, &place, &kept), 0);
    CHECK(place, 0);
    CHECK(kept, 2);
    CHECK_ARRAY(out, 1, 4, 7);
    place = kept = 7;
    CHECK(tulfasheq_join(first, 2, second, 2, 1, 0, 0, out, 3, &place, &kept), 0);
    CHECK(place, 0);
    CHECK(kept, 1);
    CHECK_ARRAY(out, 4, 4, 7);
}

int main(void) {
    answers();
    limits();
    join();
    return report();
}
