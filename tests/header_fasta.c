/* The header's reader of FASTA files: a file that is read to its end, and files that are refused. As in header.c, what a call sets
 * holds 7 before it. */
#include <string.h>

#include "check.h"
#include "tulfasheq.h"

/* ACGTA in two lines, CAGGT in a line that ends in 13 and 10, AT in one that the file's end ends; then no record is left. */
static void to_the_end(void) {
    static const char file[] = ">e1 x\nACG\nTA\n>e2\r\nCAGGT\r\n>e3\nAT";
    static const struct {
        uint64_t at, used, count, found, name_start, name_end;
    } after[4] = {{13, 5, 1, 1, 1, 3}, {25, 10, 2, 1, 14, 16}, {31, 12, 3, 1, 26, 28}, {31, 12, 3, 0, 0, 0}};
    uint8_t letters[14] = {7, 7, 7, 7, 7, 7, 7, 7, 7, 7, 7, 7, 7, 7};
    uint32_t lengths[4] = {7, 7, 7, 7};
    uint64_t at = 0, used = 0, count = 0;
    for (int i = 0; i < 4; i++) {
        uint64_t place = 7, found = 7, name_start = 7, name_end = 7;
        CHECK(tulfasheq_fasta((const uint8_t *)file, strlen(file), letters, 14, lengths, 4, &at, &used, &count, &place, &found,
                              &name_start, &name_end),
              0);
        CHECK(at, after[i].at);
        CHECK(used, after[i].used);
        CHECK(count, after[i].count);
        CHECK(place, 0);
        CHECK(found, after[i].found);
        CHECK(name_start, after[i].name_start);
        CHECK(name_end, after[i].name_end);
    }
    CHECK_ARRAY(letters, 'A', 'C', 'G', 'T', 'A', 'C', 'A', 'G', 'G', 'T', 'A', 'T', 7, 7);
    CHECK_ARRAY(lengths, 5, 5, 2, 7);
}

/* What is refused while the arrays hold a record ACG: text before the first record of another file; a second record of four letters
 * where there is room for three, and one of four bytes that are not all letters; one for which no row is left; one with a
 * lower-case letter. */
static void refused(void) {
    static const struct {
        const char *file;
        uint64_t at;
        size_t letters, lengths;
        uint64_t answer, place;
    } calls[5] = {
        {"\nAC\n>e1\nACG\n", 0, 8, 3, 19, 0},
        {">e1\nACG\n>e2\nTATT\n", 8, 6, 3, 20, 0},
        {">e1\nACG\n>e2\nT\nn-T\n", 8, 6, 3, 20, 0},
        {">e1\nACG\n>e2\nTAT\n", 8, 8, 1, 20, 0},
        {">e1\nACG\n>e2\nTA\nTt\n", 8, 8, 3, 4, 16},
    };
    uint8_t letters[8] = {'A', 'C', 'G', 7, 7, 7, 7, 7};
    uint32_t lengths[3] = {3, 7, 7};
    for (int i = 0; i < 5; i++) {
        uint64_t at = calls[i].at, used = 3, count = 1, place = 7, found = 7, name_start = 7, name_end = 7;
        CHECK(tulfasheq_fasta((const uint8_t *)calls[i].file, strlen(calls[i].file), letters, calls[i].letters, lengths,
                              calls[i].lengths, &at, &used, &count, &place, &found, &name_start, &name_end),
              calls[i].answer);
        CHECK(at, calls[i].at);
        CHECK(used, 3);
        CHECK(count, 1);
        CHECK(place, calls[i].place);
        CHECK(found, 0);
        CHECK(name_start, 0);
        CHECK(name_end, 0);
        CHECK_ARRAY(letters, 'A', 'C', 'G', 7, 7, 7, 7, 7);
        CHECK_ARRAY(lengths, 3, 7, 7);
    }
}

int main(void) {
    to_the_end();
    refused();
    return report();
}
