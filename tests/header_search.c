/* The functions of a search on the paper's set E, in both profiles, each answered and refused by the cases of a table; and what
 * each mixed letter stands for.
 *
 * What a call may write holds 7s before it, so that what it sets to 0 shows, and what it leaves. Each number of 64 bits that is
 * passed is once above 2^32, where its low half alone would have another answer. */
#include "check.h"
#include "tulfasheq.h"

/* The set ACGTA, CAGGT, AT as the calls take it. */
static const uint8_t letters[12] = {'A', 'C', 'G', 'T', 'A', 'C', 'A', 'G', 'G', 'T', 'A', 'T'};
static const uint32_t lengths[3] = {5, 5, 2};
#define E letters, 12, lengths, 3

/* The template N[0,1]N: exact, where allowances are not looked at, and with a mixed letter in its second component. Of the others a
 * gap is too wide, an allowance is above the length, or the profile is none. */
typedef struct {
    uint16_t profile, shape[6], allowances[2];
} Template;
#define PAIR {1, 0, 0, 1, 0, 1}
static const Template exact = {TULFASHEQ_EXACT, PAIR, {9, 65535}}, mixed = {TULFASHEQ_MIXED, PAIR, {0, 1}},
                      wide = {TULFASHEQ_EXACT, {1, 0, 0, 1, 0, 256}, {0, 0}}, above = {TULFASHEQ_MIXED, PAIR, {0, 2}},
                      third = {2, PAIR, {0, 2}}, last = {65535, PAIR, {0, 1}};
#define TEMPLATE(of) (of)->profile, 2, (of)->shape, 6, (of)->allowances, 2

/* A save of its search, quorum 2 in the exact profile (0) and 3 in the mixed one (1): the size record and the two components',
 * then the place record. */
#define SAVE(profile, count, number)                                           \
    1, 4, 2 + (profile), 0, 3, 0, 2, 0, 12, 0, 0, 0, profile, 0, 0, 0,         \
    2, 1, 1, 0, 0, 0, 0, 0, 0, 0, 0, 0, 0, 0, 0, 0,                            \
    2, 2, 1, profile, 0, 0, 1, 0, 0, 0, 0, 0, 0, 0, 0, 0,                      \
    3, count, 0, 0, 0, 0, 0, 0, number, 0, 0, 0, 0, 0, 0, 0

/* Room for it and two bytes more. */
#define ROOM 66
#define FOUR 7, 7, 7, 7
#define SEVENS FOUR, FOUR, FOUR, FOUR
#define UNTOUCHED SEVENS, SEVENS, SEVENS, SEVENS, 7, 7

/* The cases of a table one by one, and what one of them says. */
#define EACH(cases) (of_case = 0; of_case < (int)(sizeof(cases) / sizeof(cases)[0]); of_case++)
#define CASE cases[of_case]

static void begin(void) {
    static const struct {
        const Template *of;
        uint64_t quorum, answer, told[2]; /* place, size */
    } cases[] = {
        {&wide, 2, 8, {2, 0}},  {&exact, 4294967298, 9, {0, 0}}, {&above, 3, 24, {0, 0}}, {&third, 3, 21, {0, 0}},
        {&last, 3, 21, {0, 0}}, {&exact, 2, 0, {0, 64}},         {&mixed, 3, 0, {0, 64}},
    };
    for EACH (cases) {
        uint8_t saved[ROOM] = {UNTOUCHED};
        uint64_t told[2] = {7, 7};
        CHECK(tulfasheq_begin(E, TEMPLATE(CASE.of), CASE.quorum, saved, ROOM, &told[0], &told[1]), CASE.answer);
        CHECK_SAME(told, CASE.told);
        if (CASE.answer)
            CHECK_ARRAY(saved, UNTOUCHED);
        else
            CHECK_ARRAY(saved, SAVE(CASE.of->profile, 1, 0), 7, 7);
    }
}

/* From the search at a place to it at another, with tables of so many rows. */
static void leg(void) {
    static const struct {
        uint8_t profile, from[2], to[2], rooms[3];
        uint64_t budget, answer, told[4] /* place, stop, steps, rows */, motifs[4], supports[4], weights[4];
    } cases[] = {
        /* From a place of one letter whose number is 9; then the whole search. */
        {0, {1, 9}, {1, 9}, {4, 4, 4}, 99, 23, {3, 0, 0, 0}, {FOUR}, {FOUR}, {FOUR}},
        {0, {1, 0}, {0, 0}, {4, 4, 4}, 4294967296, 0, {0, 1, 20, 3}, {2, 6, 11, 7}, {2, 2, 2, 7}, {3, 2, 3, 7}},
        /* Four steps: A, AA, AC, and AG, which is a row. Then four more: AT, C, CA, CC, before CG, for which a table has no
         * room. */
        {0, {1, 0}, {2, 3}, {2, 2, 2}, 4, 0, {0, 2, 4, 1}, {2, 7, 7, 7}, {2, 7, 7, 7}, {3, 7, 7, 7}},
        {0, {2, 3}, {2, 6}, {2, 2, 0}, 99, 0, {0, 3, 4, 0}, {FOUR}, {FOUR}, {FOUR}},
        /* From a place of one letter that its component does not allow; eight steps, A, AA, AC, AG, AT, AR, AY, and AK, which
         * is a row; then the rest. */
        {1, {1, 6}, {1, 6}, {3, 3, 3}, 99, 23, {3, 0, 0, 0}, {FOUR}, {FOUR}, {FOUR}},
        {1, {1, 0}, {2, 7}, {3, 3, 3}, 8, 0, {0, 2, 8, 1}, {6, 7, 7, 7}, {3, 7, 7, 7}, {4, 7, 7, 7}},
        {1, {2, 7}, {0, 0}, {3, 3, 3}, 99, 0, {0, 1, 24, 2}, {10, 11, 7, 7}, {3, 3, 7, 7}, {5, 4, 7, 7}},
    };
    for EACH (cases) {
        uint8_t saved[64] = {SAVE(CASE.profile, CASE.from[0], CASE.from[1])};
        uint64_t motifs[4] = {FOUR}, weights[4] = {FOUR}, told[4] = {FOUR};
        uint32_t supports[4] = {FOUR};
        CHECK(tulfasheq_leg(E, saved, 64, CASE.budget, motifs, CASE.rooms[0], supports, CASE.rooms[1], weights, CASE.rooms[2],
                            &told[0], &told[1], &told[2], &told[3]),
              CASE.answer);
        CHECK_SAME(told, CASE.told);
        CHECK_SAME(motifs, CASE.motifs);
        CHECK_SAME(supports, CASE.supports);
        CHECK_SAME(weights, CASE.weights);
        CHECK_ARRAY(saved, SAVE(CASE.profile, CASE.to[0], CASE.to[1]));
    }
}

/* The saves after those four and those eight steps: the first 63 bytes, with an allowance above the length, and as they are. The
 * numbers of the shape and the allowances are told as far as there is room. */
static void restore(void) {
    static const struct {
        uint8_t profile, allowance, size, rooms[2];
        uint64_t answer, told[8]; /* place, profile, components, quorum, sequences, letters, letters and number of the place */
        uint16_t shape[20], allowances[8];
    } cases[] = {
        {0, 0, 63, {20, 8}, 10, {0}, {SEVENS, FOUR}, {FOUR, FOUR}},
        {0, 0, 64, {20, 8}, 0, {0, 0, 2, 2, 3, 12, 2, 3}, {1, 0, 0, 1, 0, 1, [18] = 7, 7}, {[6] = 7, 7}},
        {1, 2, 64, {6, 3}, 24, {0}, {SEVENS, FOUR}, {FOUR, FOUR}},
        {1, 0, 64, {6, 3}, 0, {0, 1, 2, 3, 3, 12, 2, 7}, {1, 0, 0, 1, 0, 1, 7, 7, FOUR, FOUR, FOUR}, {0, 1, 0, 7, FOUR}},
    };
    for EACH (cases) {
        uint8_t saved[64] = {SAVE(CASE.profile, 2, CASE.profile ? 7 : 3)}, next_letters = 7;
        uint64_t place = 7, quorum = 7, next_number = 7;
        uint32_t sequences = 7, total = 7;
        uint16_t profile = 7, components = 7, shape[20] = {SEVENS, FOUR}, allowances[8] = {FOUR, FOUR};
        saved[19] = CASE.allowance;
        CHECK(tulfasheq_restore(E, saved, CASE.size, &place, &profile, &components, shape, CASE.rooms[0], allowances,
                                CASE.rooms[1], &quorum, &sequences, &total, &next_letters, &next_number),
              CASE.answer);
        const uint64_t told[8] = {place, profile, components, quorum, sequences, total, next_letters, next_number};
        CHECK_SAME(told, CASE.told);
        CHECK_SAME(shape, CASE.shape);
        CHECK_SAME(allowances, CASE.allowances);
    }
}

/* At quorum 3 the exact search does not come to CA: C is not frequent then. A mixed place has a digit that is no letter's, and one
 * has a mixed letter too many. */
static void save(void) {
    static const struct {
        const Template *of;
        uint64_t quorum, number, answer, told[2]; /* place, size */
    } cases[] = {
        {&exact, 3, 4, 13, {0, 0}},  {&exact, 4294967298, 3, 9, {0, 0}}, {&exact, 2, 4294967299, 23, {3, 0}},
        {&third, 3, 7, 21, {0, 0}},  {&mixed, 3, 14, 23, {3, 0}},        {&mixed, 3, 71, 23, {3, 0}},
        {&above, 3, 7, 24, {0, 0}},  {&exact, 2, 3, 0, {0, 64}},         {&mixed, 3, 7, 0, {0, 64}},
    };
    for EACH (cases) {
        uint8_t out[ROOM] = {UNTOUCHED};
        uint64_t told[2] = {7, 7};
        CHECK(tulfasheq_save(E, TEMPLATE(CASE.of), CASE.quorum, 3, 12, 2, CASE.number, out, ROOM, &told[0], &told[1]), CASE.answer);
        CHECK_SAME(told, CASE.told);
        if (CASE.answer)
            CHECK_ARRAY(out, UNTOUCHED);
        else
            CHECK_ARRAY(out, SAVE(CASE.of->profile, 2, CASE.number), 7, 7);
    }
}

/* The occurrences of AG; those of AB, and a number that is no motif's of the mixed template: KA. */
static void recover(void) {
    static const struct {
        const Template *of;
        uint64_t motif, first, answer, told[3] /* place, rows, length */, out[16];
    } cases[] = {
        {&exact, 4294967298, 0, 14, {0, 0, 0}, {SEVENS}},
        {&exact, 2, 4294967296, 15, {0, 0, 0}, {SEVENS}},
        {&exact, 2, 0, 0, {0, 3, 3}, {1, 1, 3, 2, 2, 3, 2, 2, 4, 7, 7, 7, FOUR}},
        {&third, 10, 0, 21, {0, 0, 0}, {SEVENS}},
        {&above, 10, 0, 24, {0, 0, 0}, {SEVENS}},
        {&mixed, 96, 0, 14, {0, 0, 0}, {SEVENS}},
        {&mixed, 10, 0, 0, {0, 5, 5}, {1, 1, 2, 1, 1, 3, 2, 2, 3, 2, 2, 4, 3, 1, 2, 7}},
    };
    for EACH (cases) {
        uint32_t out[16] = {SEVENS};
        uint64_t told[3] = {7, 7, 7};
        CHECK(tulfasheq_recover(E, TEMPLATE(CASE.of), CASE.motif, CASE.first, out, 16, &told[0], &told[1], &told[2]), CASE.answer);
        CHECK_SAME(told, CASE.told);
        CHECK_SAME(out, CASE.out);
    }
}

/* A profile that is none, in each call that takes one: a byte that is no letter and a number of components come before it, and all
 * that is wrong besides with a component of length 0, a quorum of 0 and a motif 99 after it. */
static void none(void) {
    static const uint8_t other[12] = {'A', 'C', 'N', 'T', 'A', 'C', 'A', 'G', 'G', 'T', 'A', 'T'};
    static const uint16_t empty[3] = {0, 0, 0}, allowances[1] = {0};
    static const struct {
        const uint8_t *letters;
        uint16_t components;
        uint64_t answer, told[2]; /* place, size or rows */
    } cases[] = {
        {other, 0, 4, {2, 0}}, {other, 1, 4, {2, 0}}, {letters, 0, 5, {0, 0}}, {letters, 7, 5, {0, 0}}, {letters, 1, 21, {0, 0}},
    };
    for EACH (cases) {
        uint8_t out[ROOM] = {UNTOUCHED};
        uint32_t found[16] = {SEVENS};
        uint64_t begun[2] = {7, 7}, saved[2] = {7, 7}, listed[2] = {7, 7}, length = 7;
        CHECK(tulfasheq_begin(CASE.letters, 12, lengths, 3, 2, CASE.components, empty, 3, allowances, 1, 0, out, ROOM, &begun[0],
                              &begun[1]),
              CASE.answer);
        CHECK(tulfasheq_save(CASE.letters, 12, lengths, 3, 2, CASE.components, empty, 3, allowances, 1, 0, 3, 12, 2, 99, out, ROOM,
                             &saved[0], &saved[1]),
              CASE.answer);
        CHECK(tulfasheq_recover(CASE.letters, 12, lengths, 3, 2, CASE.components, empty, 3, allowances, 1, 99, 0, found, 16,
                                &listed[0], &listed[1], &length),
              CASE.answer);
        CHECK_SAME(begun, CASE.told);
        CHECK_SAME(saved, CASE.told);
        CHECK_SAME(listed, CASE.told);
        CHECK(length, 0);
        CHECK_ARRAY(out, UNTOUCHED);
        CHECK_ARRAY(found, SEVENS);
    }
}

/* What the letters A C G T R Y K M S W B D H V stand for: 1 for A, 2 for C, 4 for G and 8 for T. 14 and 15 are no letters. */
static void meaning(void) {
    static const uint32_t bases[16] = {1,     2,     4,     8,         1 + 4,     2 + 8,     4 + 8,
                                       1 + 2, 2 + 4, 1 + 8, 2 + 4 + 8, 1 + 4 + 8, 1 + 2 + 8, 1 + 2 + 4};
    static const uint8_t each[4] = {'A', 'C', 'G', 'T'};
    static const uint32_t ones[4] = {1, 1, 1, 1};
    static const uint16_t one[3] = {1, 0, 0}, allowed[1] = {1};
    for (uint64_t motif = 0; motif < 16; motif++) {
        of_case = (int)motif;
        uint32_t out[8] = {0}, found = 0;
        uint64_t place = 7, rows = 7, length = 7;
        CHECK(tulfasheq_recover(each, 4, ones, 4, TULFASHEQ_MIXED, 1, one, 3, allowed, 1, motif, 0, out, 8, &place, &rows, &length),
              motif < 14 ? 0 : 14);
        for (uint64_t i = 0; i < rows && i < 4; i++)
            found |= (uint32_t)1 << (out[2 * i] - 1);
        CHECK(found, bases[motif]);
    }
}

int main(void) {
    begin();
    leg();
    restore();
    save();
    recover();
    none();
    meaning();
    return report();
}
