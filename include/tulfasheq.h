/* Tulfasheq for C and C++: the search for structured motifs in DNA, as numbers and arrays.
 *
 * Link with libtulfasheq.a (rust/library.sh makes it for the machine at hand, at target/host/libtulfasheq.a). No call keeps
 * anything between calls, allocates, or reads or writes anything but what it is passed; a call uses less than 1.5 MiB of stack.
 *
 * Every array is passed as a pointer and the number of its elements. A pointer is never null, also where that number is 0, and is
 * aligned as its type asks. No array or number that a call writes may overlap another that it is passed.
 *
 * Sequences are one array of letters (the bytes A, C, G, T) and an array of their lengths, in order. tulfasheq_fasta fills both
 * from a FASTA file, a record at a time.
 *
 * A template is its profile, its number of components, its shape and its allowances. The shape is the length, the least and the
 * greatest gap before it, of each component in turn, so N[0,1]N is 2 and {1, 0, 0, 1, 0, 1}. The first component's gaps are 0 and
 * 0. What a shape does not reach is 0, and what goes past TULFASHEQ_SHAPE numbers is not read.
 *
 * The profile says which letters a motif has. In the exact one, TULFASHEQ_EXACT, these are A, C, G, T, and the allowances are not
 * looked at. In the mixed one, TULFASHEQ_MIXED, a motif also has letters that stand for several bases, as IUPAC names them, in this
 * order:
 *
 *     0 A   1 C   2 G   3 T   4 R: A G   5 Y: C T   6 K: G T   7 M: A C   8 S: C G   9 W: A T
 *     10 B: C G T   11 D: A G T   12 H: A C T   13 V: A C G
 *
 * Such a letter stands wherever one of its bases does; N is not used. The allowances are the most such letters of each component
 * in turn, each at most the component's length. An allowance that the array does not reach is 0, and what goes past
 * TULFASHEQ_COMPONENTS numbers is not read. A search lists every frequent motif that the allowances cover, those of A, C, G, T
 * alone among them. Sequences have the letters A, C, G, T in both profiles.
 *
 * A motif is a number: its letters as digits, the first letter the highest, of base 4 in the exact profile and of base 16 in the
 * mixed one, by the numbers above. So CG is 6 in the first and 18 in the second. A number with a digit of 14 or 15, or with more
 * letters for several bases in a component than it allows, is no motif's. A motif has at most TULFASHEQ_MOTIF letters in the exact
 * profile and TULFASHEQ_MIXED_MOTIF in the mixed one. Letter order is the order of the digits.
 *
 * A search is passed as its saved bytes: tulfasheq_begin writes them, and each tulfasheq_leg replaces them by those of the search
 * at its new place. They may be stored, copied and handed on: a copy goes on from where it was taken, over the same sequences.
 * They lie in ordinary memory, the caller's array. To store them, write a new file, and rename it over the last one once it is
 * whole. Bytes cut short are refused (10); a save written over an older one and cut in the middle is not covered: it can be as
 * long as it should be, partly new and partly old, and pass every check. A save is records of 16 bytes, counted from 0: the size
 * record, one for each component, which has the component's number, and last the place record. The size record's byte 12 is the
 * profile, and a component's byte 3 its allowance, 0 in the exact profile: saves made before there were profiles are read as they
 * were. Damaged bytes are refused with the number of the record that is bad (11, 21 to 23).
 *
 * Every call answers TULFASHEQ_OK, or a refusal. A refused call sets *place (0 where the refusal tells no place), sets every other
 * number that it answers to 0, and leaves every array as it was; numbers that a call moves on (*at, *used and *count of
 * tulfasheq_fasta) stay. A call that is not refused sets *place to 0. */
#ifndef TULFASHEQ_H
#define TULFASHEQ_H

#include <stddef.h>
#include <stdint.h>

#ifdef __cplusplus
extern "C" {
#endif

/* The limits. */
#define TULFASHEQ_SEQUENCES 1024   /* the most sequences */
#define TULFASHEQ_LETTERS 65536    /* the most letters of them all */
#define TULFASHEQ_COMPONENTS 6     /* the most components of a template */
#define TULFASHEQ_LENGTH 12        /* the most letters of a component */
#define TULFASHEQ_MOTIF 32         /* the most letters of a motif in the exact profile */
#define TULFASHEQ_MIXED_MOTIF 16   /* the most letters of a motif in the mixed profile */
#define TULFASHEQ_GAP 255          /* the longest gap */

/* How many elements to make room for: a shape, the save of a search whose template has k components, any save, and a row of a
 * recovery. */
#define TULFASHEQ_SHAPE (3 * TULFASHEQ_COMPONENTS)
#define TULFASHEQ_SAVED(k) (16 * ((size_t)(k) + 2))
#define TULFASHEQ_SAVED_MOST TULFASHEQ_SAVED(TULFASHEQ_COMPONENTS)
#define TULFASHEQ_ROW(k) ((size_t)(k) + 1)

/* Which letters a motif has. */
enum tulfasheq_profile {
    TULFASHEQ_EXACT = 0, /* A, C, G, T */
    TULFASHEQ_MIXED = 1  /* these, and letters that stand for several bases */
};

/* What a call answers. Where several refusals apply, it gives the one that its own list, below, names first. 18 is the printing
 * program's alone, for a line of its input that cannot be read. */
enum tulfasheq_answer {
    TULFASHEQ_OK = 0,
    TULFASHEQ_SEQUENCE_COUNT = 1,   /* no sequence, or more than TULFASHEQ_SEQUENCES */
    TULFASHEQ_LETTER_COUNT = 2,     /* more than TULFASHEQ_LETTERS letters */
    TULFASHEQ_LENGTH_SUM = 3,       /* the lengths do not add up to the letters */
    TULFASHEQ_NOT_A_LETTER = 4,     /* a byte other than A, C, G, T; place: the offset of the first, from 0, in the letters, or in
                                       the file where it is the FASTA file's */
    TULFASHEQ_COMPONENT_COUNT = 5,  /* no component, or more than TULFASHEQ_COMPONENTS */
    TULFASHEQ_COMPONENT_LENGTH = 6, /* a length of 0 or above TULFASHEQ_LENGTH; place: the first such component, from 1 */
    TULFASHEQ_MOTIF_LENGTH = 7,     /* more than TULFASHEQ_MOTIF letters in all components, in the mixed profile
                                       TULFASHEQ_MIXED_MOTIF */
    TULFASHEQ_GAP_RANGE = 8,        /* a gap range that falls or ends above TULFASHEQ_GAP, or a first one that is not 0, 0;
                                       place: the first such component, from 1 */
    TULFASHEQ_QUORUM = 9,           /* a quorum of 0 or above the number of sequences */
    TULFASHEQ_SAVED_SIZE = 10,      /* saved bytes that are not as long as the records that they count */
    TULFASHEQ_SAVED_KIND = 11,      /* a saved record of the wrong kind, or a component's with the wrong number; place: the first such
                                       record, from 0 */
    TULFASHEQ_OTHER_SET = 12,       /* saved over other sequences: the number of them or of their letters differs */
    TULFASHEQ_NOT_A_CANDIDATE = 13, /* a place that the search does not pass through */
    TULFASHEQ_MOTIF_NUMBER = 14,    /* a number that is no motif's of this template */
    TULFASHEQ_FIRST_ROW = 15,       /* a first row above the list's length */
    TULFASHEQ_JOIN_LIST = 16,       /* a list that does not rise strictly, or leaves 1 to TULFASHEQ_LETTERS */
    TULFASHEQ_ROOM = 17,            /* an array that is too short for what is to be written */
    TULFASHEQ_TEXT_BEFORE = 19,     /* a line of a FASTA file that is not empty and stands before the first record */
    TULFASHEQ_NO_ROOM = 20,         /* a record of a FASTA file whose letter lines have more bytes, whatever they are, than the
                                       letters array has room for behind those used, or than a number of the lengths holds; or no
                                       row left for it in the lengths */
    TULFASHEQ_SAVED_BLANK = 21,     /* a byte of a saved record that must be 0 and is not, an allowance in the exact profile too, or
                                       a profile that is neither TULFASHEQ_EXACT nor TULFASHEQ_MIXED; place: the first such
                                       record, from 0, and 0 for a profile that is passed */
    TULFASHEQ_SAVED_SUM = 22,       /* a saved number of letters of a motif that is not the sum of the components' lengths; place: 0,
                                       the record that holds it */
    TULFASHEQ_PLACE_RULE = 23,      /* a next candidate with more letters than a motif has, or a number that its letters do not spell,
                                       in the mixed profile also one with a digit of 14 or 15, or with more letters for several
                                       bases in a component than it allows; place: the number that the place record has, or would
                                       have in a save, components + 1 */
    TULFASHEQ_ALLOWANCE = 24        /* an allowance above the component's length, in the mixed profile */
};

/* Why a leg stopped; 0 in a refusal. */
enum tulfasheq_stop {
    TULFASHEQ_ENDED = 1, /* there is no candidate left */
    TULFASHEQ_SPENT = 2, /* the budget is used up */
    TULFASHEQ_FULL = 3   /* the next motif has no room in the tables */
};

/* Begins a search for the motifs of a template that at least `quorum` of the sequences hold, and saves it to the front of `saved`.
 * *size is the save's length: pass that many bytes to the calls below. Refuses, in this order: 1 to 5, 21 (the profile), 6, 7, 8,
 * 24, 9, 17. */
uint64_t tulfasheq_begin(
    const uint8_t *letters, size_t letters_len,
    const uint32_t *lengths, size_t lengths_len,
    uint16_t profile, uint16_t components,
    const uint16_t *shape, size_t shape_len,
    const uint16_t *allowances, size_t allowances_len,
    uint64_t quorum,
    uint8_t *saved, size_t saved_len,
    uint64_t *place, uint64_t *size);

/* Runs a leg of a saved search, and replaces the save by that of the search at its new place, which has the same length. It takes
 * at most `budget` steps, each of which examines one candidate, and lists at most as many motifs as the shortest of the three
 * tables has room for: row i, from 0 on, is a motif's number, its support (the sequences that hold it) and its weighted support (its
 * occurrences in all sequences). The weighted support is the *length that tulfasheq_recover tells of that motif, and below 2^57.
 * Earlier versions counted a start of the first component once, however many occurrences begin there. *stop says why it stopped,
 * *steps and *rows count; the rest of each table stays. Legs run one after another until one has ended list every frequent motif,
 * once, in letter order. Refuses, in this order: 1 to 4, 10, 5, 11, 21 to 23, 6, 7, 8, 24, 12, 9, 13. */
uint64_t tulfasheq_leg(
    const uint8_t *letters, size_t letters_len,
    const uint32_t *lengths, size_t lengths_len,
    uint8_t *saved, size_t saved_len,
    uint64_t budget,
    uint64_t *motifs, size_t motifs_len,
    uint32_t *supports, size_t supports_len,
    uint64_t *weights, size_t weights_len,
    uint64_t *place, uint64_t *stop, uint64_t *steps, uint64_t *rows);

/* Tells what a saved search is: its template, quorum, number of sequences and letters in all, and the letters and number of its next
 * candidate, which are 0 and 0 where it has ended. `shape` gets as many of the TULFASHEQ_SHAPE numbers as it has room for, and
 * `allowances` as many of the TULFASHEQ_COMPONENTS, which are 0 in the exact profile. Refuses, in this order: 1 to 4, 10, 5, 11, 21
 * to 23, 6, 7, 8, 24, 12, 9, 13. */
uint64_t tulfasheq_restore(
    const uint8_t *letters, size_t letters_len,
    const uint32_t *lengths, size_t lengths_len,
    const uint8_t *saved, size_t saved_len,
    uint64_t *place, uint16_t *profile, uint16_t *components,
    uint16_t *shape, size_t shape_len,
    uint16_t *allowances, size_t allowances_len,
    uint64_t *quorum, uint32_t *sequences, uint32_t *total,
    uint8_t *next_letters, uint64_t *next_number);

/* Saves a search given by what tulfasheq_restore tells to the front of `out`. *size is the save's length. Refuses, in this order:
 * 1 to 5, 21 (the profile), 23, 6, 7, 8, 24, 12, 9, 13, 17. */
uint64_t tulfasheq_save(
    const uint8_t *letters, size_t letters_len,
    const uint32_t *lengths, size_t lengths_len,
    uint16_t profile, uint16_t components,
    const uint16_t *shape, size_t shape_len,
    const uint16_t *allowances, size_t allowances_len,
    uint64_t quorum, uint32_t sequences, uint32_t total,
    uint8_t next_letters, uint64_t next_number,
    uint8_t *out, size_t out_len,
    uint64_t *place, uint64_t *size);

/* Lists the occurrences of a motif, from row `first` of their list on, counted from 0: rows of TULFASHEQ_ROW(components) numbers, a
 * sequence's number and the start of each component, both from 1, as many whole rows as `out` has room for. *rows is how many were
 * written, *length how many the list has; the rest of `out` stays. Refuses, in this order: 1 to 5, 21 (the profile), 6, 7, 8, 24,
 * 14, 15. */
uint64_t tulfasheq_recover(
    const uint8_t *letters, size_t letters_len,
    const uint32_t *lengths, size_t lengths_len,
    uint16_t profile, uint16_t components,
    const uint16_t *shape, size_t shape_len,
    const uint16_t *allowances, size_t allowances_len,
    uint64_t motif, uint64_t first,
    uint32_t *out, size_t out_len,
    uint64_t *place, uint64_t *rows, uint64_t *length);

/* Joins two rising lists of positions: writes those of `first` that have a partner in `second`, one that starts after a head of
 * `head` letters and a gap of `low` to `high`, to the front of `out`, which is as long as `first` at least. *kept is how many.
 * Refuses, in this order: 6 (the head) and 8 (the range), both with place 1, 16, 17. */
uint64_t tulfasheq_join(
    const uint32_t *first, size_t first_len,
    const uint32_t *second, size_t second_len,
    uint16_t head, uint16_t low, uint16_t high,
    uint32_t *out, size_t out_len,
    uint64_t *place, uint64_t *kept);

/* Hands out the next record of a FASTA file that lies in memory, from the offset *at on. Set *at, *used and *count to 0 before the
 * first call, and pass them on from call to call.
 *
 * A line ends in byte 10, or in 13 and 10, and the last one where the file ends; empty lines are skipped. A record begins with a
 * line whose first byte is >, and its letters are the lines up to the next such line, joined; it may have none. Its name is what
 * stands after the > up to the first space, tab or line end, and may be empty.
 *
 * The letters go to `letters` behind the *used that it holds, and their number to `lengths` behind its *count rows; the rest of both
 * stays. Then *at is the offset of the next record, or of the file's end, *used and *count have grown by what was written, *found is
 * 1, and the name is the part of the file from offset *name_start up to *name_end. Where no record is left, *found and both offsets
 * are 0, and all else stays: the first *used of `letters` and the first *count of `lengths` are now the file's sequences, in its
 * order. A file without a record gives none, and a search over no sequence is refused (1).
 *
 * Look at the answer first: in a refusal *found is 0 too. At the file's end the answer is TULFASHEQ_OK, so stop on *found.
 *
 * As many letters and as many lengths as the file has bytes are room for all of its records (of fewer than 2^32 letters each); a
 * search takes at most TULFASHEQ_LETTERS and TULFASHEQ_SEQUENCES of them.
 *
 * Refuses, in this order: 19, 20, 4 (lower case too, which is no letter here). After 20 the same call can be made again with larger
 * arrays, to which the first *used letters and the first *count lengths are copied. After 19 or 4 the same call answers the
 * same. */
uint64_t tulfasheq_fasta(
    const uint8_t *file, size_t file_len,
    uint8_t *letters, size_t letters_len,
    uint32_t *lengths, size_t lengths_len,
    uint64_t *at, uint64_t *used, uint64_t *count,
    uint64_t *place, uint64_t *found, uint64_t *name_start, uint64_t *name_end);

#ifdef __cplusplus
}
#endif

#endif
