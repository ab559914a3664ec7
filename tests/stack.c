/* How much stack a call uses: each function of the header, answered and refused, over what is as large as it may be, in both
 * profiles, on a thread whose stack has STACK bytes. stack.sh builds it over the library, runs it, and sees to it that each function
 * is in its table.
 *
 * The stack is memory of ours, so that it can be looked at from outside: it holds a pattern before a call, and is used down to the
 * lowest word that has changed since. What the thread itself takes counts too, and is the first row; a small call shows no more.
 * Below lies as much again that no one may touch, and not only a page: a call has tables of hundreds of KiB, and could step over
 * a page and write behind it. A call that goes there ends the program, and the last line, without its number, names it. */
#define _DEFAULT_SOURCE /* for MAP_ANONYMOUS */
#include <pthread.h>
#include <stdlib.h>
#include <sys/mman.h>

#include "check.h"
#include "tulfasheq.h"

/* The thread's stack, in bytes, as the header has it, and how much of it may be used: what is left is for a caller's own frames. */
#define STACK 1572864
#define LIMIT (STACK - 65536)

/* Not 0, with which tables are cleared, and no number of a call's: where it is written, it does not show. */
#define PATTERN UINT64_C(0xb5a7c3d1e9f58b6d)

/* 32 letters, and 16 in the mixed profile, in as many components as may be (a recovery goes down from each to the next), and more
 * rows than the search has. The last letter may be a mixed one. */
#define ROWS 65536
static const uint16_t shapes[2][TULFASHEQ_SHAPE] = {
    [TULFASHEQ_EXACT] = {12, 0, 0, 12, 0, 255, 5, 0, 255, 1, 0, 255, 1, 0, 255, 1, 0, 255},
    [TULFASHEQ_MIXED] = {6, 0, 0, 6, 0, 255, 1, 0, 255, 1, 0, 255, 1, 0, 255, 1, 0, 255},
};
static const uint16_t allowances[TULFASHEQ_COMPONENTS] = {0, 0, 0, 0, 0, 1};

/* What the calls are passed; `room` is how many elements of an array a call may write. */
static uint8_t file[TULFASHEQ_LETTERS + 3 * TULFASHEQ_SEQUENCES], letters[TULFASHEQ_LETTERS], saved[TULFASHEQ_SAVED_MOST];
static uint32_t lengths[TULFASHEQ_SEQUENCES], supports[ROWS], positions[TULFASHEQ_LETTERS], out[7 * ROWS], sequences, total;
static uint16_t profile, told_profile, components, told[TULFASHEQ_SHAPE], told_allowances[TULFASHEQ_COMPONENTS];
static uint8_t next_letters;
static uint64_t motifs[ROWS], weights[ROWS], at, used, count, quorum, budget, first, next_number;
static uint64_t place, size, stop, steps, rows, length, kept, found, name_start, name_end;
static size_t file_size, room;

/* ---- the calls, each as a function without arguments */

#define CALL(name, ...)                \
    static uint64_t run_##name(void) { \
        return name(__VA_ARGS__);      \
    }
#define SET letters, used, lengths, count
#define TEMPLATE profile, 6, shapes[profile], TULFASHEQ_SHAPE, allowances, TULFASHEQ_COMPONENTS
CALL(tulfasheq_begin, SET, TEMPLATE, quorum, saved, room, &place, &size)
CALL(tulfasheq_leg, SET, saved, size, budget, motifs, room, supports, room, weights, room, &place, &stop, &steps, &rows)
CALL(tulfasheq_restore, SET, saved, size, &place, &told_profile, &components, told, TULFASHEQ_SHAPE, told_allowances,
     TULFASHEQ_COMPONENTS, &quorum, &sequences, &total, &next_letters, &next_number)
CALL(tulfasheq_save, SET, told_profile, components, told, TULFASHEQ_SHAPE, told_allowances, TULFASHEQ_COMPONENTS, quorum, sequences,
     total, next_letters, next_number, saved, room, &place, &size)
CALL(tulfasheq_recover, SET, TEMPLATE, motifs[0], first, out, room, &place, &rows, &length)
CALL(tulfasheq_join, positions, TULFASHEQ_LETTERS, positions, TULFASHEQ_LETTERS, 12, 0, 255, out, room, &place, &kept)

/* The whole file: as many calls as it has records, and one more. */
static uint64_t run_tulfasheq_fasta(void) {
    uint64_t refusal;
    at = used = count = 0;
    do
        refusal = tulfasheq_fasta(file, file_size, letters, TULFASHEQ_LETTERS, lengths, TULFASHEQ_SEQUENCES, &at, &used, &count,
                                  &place, &found, &name_start, &name_end);
    while (refusal == TULFASHEQ_OK && found);
    return refusal;
}

static uint64_t run_nothing(void) {
    return TULFASHEQ_OK;
}

/* ---- the stack */

static uint64_t *stack, answer;
static uint64_t (*call)(void);
static pthread_attr_t attributes;

static void make_stack(void) {
    size_t told_size = 0;
    char *memory = mmap(NULL, 2 * (size_t)STACK, PROT_NONE, MAP_PRIVATE | MAP_ANONYMOUS, -1, 0);
    if (memory == MAP_FAILED || mprotect(memory + STACK, STACK, PROT_READ | PROT_WRITE) != 0) {
        puts("no memory for a stack");
        exit(2);
    }
    stack = (uint64_t *)(void *)(memory + STACK);
    CHECK(pthread_attr_init(&attributes), 0);
    CHECK(pthread_attr_setstack(&attributes, stack, STACK), 0);
    CHECK(pthread_attr_getstacksize(&attributes, &told_size), 0);
    CHECK(told_size, STACK);
}

static void *on_thread(void *nothing) {
    answer = call();
    return nothing;
}

/* Runs a call, prints its row of the table, and gives its answer. */
static uint64_t on_stack(const char *name, const char *what, uint64_t (*run)(void)) {
    pthread_t thread;
    size_t words = STACK / sizeof *stack, unused = 0;
    printf("%-18s %-34s", name, what);
    fflush(stdout);
    for (size_t i = 0; i < words; i++)
        stack[i] = PATTERN;
    call = run;
    if (pthread_create(&thread, &attributes, on_thread, NULL) != 0 || pthread_join(thread, NULL) != 0) {
        puts("no thread");
        exit(2);
    }
    while (unused < words && stack[unused] == PATTERN)
        unused++;
    printf("%8zu\n", STACK - unused * sizeof *stack);
    CHECK(unused < words, 1); /* or it ran on another stack */
    CHECK(STACK - unused * sizeof *stack <= LIMIT, 1);
    return answer;
}

#define RUN(name, what, should) CHECK(on_stack(#name, what, run_##name), should)

/* ---- what they are run on */

/* A file with as many letters as a search may have, ACAC.. in each record. */
static void write_file(size_t records) {
    file_size = 0;
    for (size_t i = 0; i < records; i++) {
        file[file_size++] = '>';
        file[file_size++] = '\n';
        for (size_t j = 0; j < TULFASHEQ_LETTERS / records; j++)
            file[file_size++] = "AC"[j % 2];
        file[file_size++] = '\n';
    }
}

static void read_file(size_t records) {
    printf("-- %zu x %zu letters\n", records, TULFASHEQ_LETTERS / records);
    write_file(records);
    file[file_size - 2] = 'c';
    RUN(tulfasheq_fasta, "refused, at the last letter", TULFASHEQ_NOT_A_LETTER);
    file[file_size - 2] = 'C';
    RUN(tulfasheq_fasta, "the whole file", TULFASHEQ_OK);
    CHECK(used, TULFASHEQ_LETTERS);
    CHECK(count, records);
}

/* Each component can begin with A or with C, so there are 2^6 rows. The mixed letters for A or C are all but K: with G and T left
 * out too, the last component has 11 in the mixed profile. A refused call fails the last of its checks alone. */
static void search(size_t records, uint16_t in_profile) {
    int mixed = in_profile == TULFASHEQ_MIXED;
    profile = in_profile;
    quorum = records;
    room = sizeof saved - 1;
    RUN(tulfasheq_begin, "refused, no room", TULFASHEQ_ROOM);
    room = sizeof saved;
    RUN(tulfasheq_begin, mixed ? "16 mixed letters, 6 components" : "32 letters, 6 components", TULFASHEQ_OK);

    /* The place is A, and for two calls as many As as a motif has letters, to which the search does not come. */
    saved[sizeof saved - 15] = mixed ? TULFASHEQ_MIXED_MOTIF : TULFASHEQ_MOTIF;
    RUN(tulfasheq_leg, "refused, not a candidate", TULFASHEQ_NOT_A_CANDIDATE);
    RUN(tulfasheq_restore, "refused, not a candidate", TULFASHEQ_NOT_A_CANDIDATE);
    saved[sizeof saved - 15] = 1;

    room = 1;
    budget = UINT64_MAX;
    RUN(tulfasheq_leg, "until a table of one row is full", TULFASHEQ_OK);
    CHECK(stop, TULFASHEQ_FULL);
    room = ROWS;
    budget = 400;
    RUN(tulfasheq_leg, "400 steps", TULFASHEQ_OK);
    CHECK(stop, TULFASHEQ_SPENT);
    uint64_t before = 1 + rows;

    RUN(tulfasheq_restore, "amid the search", TULFASHEQ_OK);
    CHECK(told_profile, profile);
    CHECK(told_allowances[5], mixed);
    room = sizeof saved - 1;
    RUN(tulfasheq_save, "refused, no room", TULFASHEQ_ROOM);
    saved[0] = 0;
    room = sizeof saved;
    RUN(tulfasheq_save, "amid the search", TULFASHEQ_OK);

    room = ROWS;
    budget = UINT64_MAX;
    RUN(tulfasheq_leg, "to the end", TULFASHEQ_OK);
    CHECK(stop, TULFASHEQ_ENDED);
    CHECK(before + rows, mixed ? 32 * 11 : 64);

    room = 7 * ROWS;
    first = 0;
    RUN(tulfasheq_recover, "65536 rows", TULFASHEQ_OK);
    CHECK(rows, ROWS);
    CHECK(length, weights[0]);
    first = length + 1;
    RUN(tulfasheq_recover, "refused, behind the list", TULFASHEQ_FIRST_ROW);
}

int main(void) {
    make_stack();
    RUN(nothing, "the thread alone", TULFASHEQ_OK);
    for (size_t records = 1; records <= TULFASHEQ_SEQUENCES; records *= TULFASHEQ_SEQUENCES) {
        read_file(records);
        search(records, TULFASHEQ_EXACT);
        search(records, TULFASHEQ_MIXED);
    }

    printf("-- lists of %d positions\n", TULFASHEQ_LETTERS);
    for (uint32_t i = 0; i < TULFASHEQ_LETTERS; i++)
        positions[i] = i + 1;
    room = TULFASHEQ_LETTERS - 1;
    RUN(tulfasheq_join, "refused, no room", TULFASHEQ_ROOM);
    room = TULFASHEQ_LETTERS;
    RUN(tulfasheq_join, "all but the last 12", TULFASHEQ_OK);
    CHECK(kept, TULFASHEQ_LETTERS - 12);
    return report();
}
