/* What header.c, header_search.c, header_fasta.c and stack.c share: numbers and arrays are compared with what they should be, and
 * what differs is printed, with its line, and in a table of cases with the case. */
#include <inttypes.h>
#include <stddef.h>
#include <stdio.h>

static int checks, wrong;

/* The case of a table that is being checked, from 0; -1 outside of tables. */
static int of_case = -1;

/* Compares a number, or an array's element where `element` is not negative. */
static void check(const char *file, int line, const char *what, int element, uint64_t is, uint64_t should) {
    checks++;
    if (is == should)
        return;
    wrong++;
    printf("%s:%d: ", file, line);
    if (of_case >= 0)
        printf("case %d, ", of_case);
    printf("%s", what);
    if (element >= 0)
        printf("[%d]", element);
    printf(" is %" PRIu64 ", and not %" PRIu64 "\n", is, should);
}

#define CHECK(is, should) check(__FILE__, __LINE__, #is, -1, is, should)

/* Compares a whole array with another of its length. */
#define CHECK_SAME(array, should)                                               \
    do {                                                                        \
        for (size_t i = 0; i < sizeof(array) / sizeof(array)[0]; i++)           \
            check(__FILE__, __LINE__, #array, (int)i, (array)[i], (should)[i]); \
    } while (0)

/* Compares a whole array. Numbers too many do not compile, and those that are left out are 0. */
#define CHECK_ARRAY(array, ...)                                                  \
    do {                                                                         \
        const uint64_t should[sizeof(array) / sizeof(array)[0]] = {__VA_ARGS__}; \
        for (size_t i = 0; i < sizeof(array) / sizeof(array)[0]; i++)            \
            check(__FILE__, __LINE__, #array, (int)i, (array)[i], should[i]);    \
    } while (0)

/* Says how many checks held, and answers the exit status. */
static int report(void) {
    if (wrong)
        printf("%d of %d checks do not hold\n", wrong, checks);
    else
        printf("%d checks hold\n", checks);
    return wrong != 0;
}
