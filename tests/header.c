/*
 * The header as a C program uses it: every function on the examples that documents 01 and 02 settle, and on a few more, with canaries
 * around the caller's memory. The expected values are written by hand from those documents. Prints a line for each check and ends with
 * 'N passed, M failed', and with status 0 only if M is 0.
 */
#include "geyserdish.h"

#include <inttypes.h>
#include <stdio.h>
#include <string.h>

/* 2^32; the largest modulus, 2^62; the largest origin, 2^52. */
#define WORD (UINT64_C(1) << 32)
#define LARGEST (UINT64_C(1) << 62)
#define TOP UINT64_C(4503599627370496)

/* ---- the caller's memory ---- */

enum { CANARIES = 64, ROOM = CANARIES + GEYSERDISH_ROWS * 8 + CANARIES };

/* Numbers of the caller, which a call may write, with bytes before and after them, which it may not. */
struct lent {
    const char *name;
    size_t width; /* bytes of a number; 0 for memory that is nowhere */
    size_t places;
    union {
        uint64_t aligned;
        unsigned char bytes[ROOM];
    } memory;
};

/* Memory as it is before a call. Every byte is 128 or more, so that it differs from every number that a call writes. */
static struct lent fresh(const char *name, size_t width, size_t places) {
    struct lent made = {name, width, places, {0}};
    for (size_t i = 0; i < ROOM; i++) {
        made.memory.bytes[i] = (unsigned char)(0x80 | 37 * i);
    }
    return made;
}

/* A list, or values, with 0 places and a null pointer. */
static struct lent nowhere(const char *name) {
    return fresh(name, 0, 0);
}

/* The part that a call may write. */
static void *lend(struct lent *lent) {
    return lent->width == 0 ? NULL : lent->memory.bytes + CANARIES;
}

/* Writes numbers from the first place on. */
static void set(struct lent *lent, const void *numbers, size_t places) {
    if (places > 0) {
        memcpy(lend(lent), numbers, places * lent->width);
    }
}

static uint64_t number_at(const struct lent *lent, size_t place) {
    uint64_t number = 0; /* x86-64 has the least byte first */
    memcpy(&number, lent->memory.bytes + CANARIES + place * lent->width, lent->width);
    return number;
}

/* The two columns of a list: its arguments, and the value of each at the same place. */
struct columns {
    struct lent list, values;
};

static struct columns columns(size_t list_places, size_t value_places) {
    struct columns made = {fresh("list", 8, list_places), fresh("values", 8, value_places)};
    return made;
}

/* Places for the columns, counted from as many as there are hard arguments: enough in both, or too few in one or in both. */
static const struct {
    int list, values;
} BESIDE[] = {{0, 0}, {3, 3}, {3, 0}, {0, 3}, {-1, -1}, {-1, 0}, {0, -1}, {-1, 3}, {3, -1}};

/* Places for what is refused by something else: in one column or in both they may be too few besides. */
static const struct {
    size_t list, values;
} REFUSED_PLACES[] = {{4, 4}, {0, 16}, {16, 0}};

/* Columns with null pointers: that of the list, that of the values, and both. */
enum { WITH_NULL = 3 };

static void set_with_null(struct columns made[WITH_NULL]) {
    for (size_t i = 0; i < WITH_NULL; i++) {
        made[i] = columns(4, 4);
    }
    made[0].list = made[2].list = nowhere("list");
    made[1].values = made[2].values = nowhere("values");
}

/* ---- the lines and counts of the checks ---- */

static int passed, failed;

struct text {
    char line[160];
};

/* What differs first between the memory and what it should be; empty where nothing does. */
static struct text difference(const struct lent *has, const struct lent *wanted) {
    struct text why = {""};
    for (size_t i = 0; i < has->places; i++) {
        uint64_t number = number_at(has, i), right = number_at(wanted, i);
        if (number != right) {
            snprintf(why.line, sizeof why.line, "%s[%zu] is %" PRIu64 ", not %" PRIu64, has->name, i, number, right);
            return why;
        }
    }
    if (memcmp(has->memory.bytes, wanted->memory.bytes, ROOM) != 0) {
        snprintf(why.line, sizeof why.line, "written outside %s", has->name);
    }
    return why;
}

/* Counts a check: what the call returned, and the memory that was lent to it, have to be as wanted. */
static void count_check(const char *call, const char *example, uint64_t returned, uint64_t right, const struct lent has[],
                        const struct lent wanted[], size_t lents) {
    struct text why = {""};
    if (returned != right) {
        snprintf(why.line, sizeof why.line, "returned %" PRIu64 ", not %" PRIu64, returned, right);
    }
    for (size_t i = 0; i < lents && why.line[0] == '\0'; i++) {
        why = difference(&has[i], &wanted[i]);
    }
    if (why.line[0] == '\0') {
        passed++;
        printf("ok: %s, %s (returned %" PRIu64 ")\n", call, example, returned);
    } else {
        failed++;
        printf("FAILED: %s, %s: %s\n", call, example, why.line);
    }
}

static const char *null_or_not(const struct lent *lent) {
    return lent->width == 0 ? " (null)" : "";
}

static struct text with_places(const char *example, const struct columns *lent) {
    struct text name;
    snprintf(name.line, sizeof name.line, "%s, places: %zu%s for arguments, %zu%s for values", example, lent->list.places,
             null_or_not(&lent->list), lent->values.places, null_or_not(&lent->values));
    return name;
}

/* ---- the expansion ---- */

struct rows {
    uint64_t remainders[GEYSERDISH_ROWS], denominators[GEYSERDISH_ROWS], quotients[GEYSERDISH_ROWS], last;
};

/* Here and below, nothing is expected to be written where the refusal is not 0. */
static void check_expand(const char *example, uint64_t modulus, uint64_t step, uint32_t refusal, const struct rows *rows) {
    struct lent has[4] = {fresh("remainders", 8, GEYSERDISH_ROWS), fresh("denominators", 8, GEYSERDISH_ROWS),
                          fresh("quotients", 8, GEYSERDISH_ROWS), fresh("last", 8, 1)};
    struct lent wanted[4] = {has[0], has[1], has[2], has[3]};
    if (refusal == 0) {
        set(&wanted[0], rows->remainders, GEYSERDISH_ROWS);
        set(&wanted[1], rows->denominators, GEYSERDISH_ROWS);
        set(&wanted[2], rows->quotients, GEYSERDISH_ROWS);
        set(&wanted[3], &rows->last, 1);
    }
    uint32_t number = geyserdish_expand(modulus, step, lend(&has[0]), lend(&has[1]), lend(&has[2]), lend(&has[3]));
    count_check("expand", example, number, refusal, has, wanted, 4);
}

/* F(0) = 0, F(1) = 1, and each later F the sum of the two before it. */
static void set_fibonacci(uint64_t fibonacci[91]) {
    fibonacci[0] = 0;
    fibonacci[1] = 1;
    for (size_t i = 2; i <= 90; i++) {
        fibonacci[i] = fibonacci[i - 1] + fibonacci[i - 2];
    }
}

/*
 * F(90) is the last one that is not above 2^62. The remainders of F(90) and F(89) are F(89), F(88), .., F(2), 0. All quotients are 1
 * but the last one: F(3) = 2 divided by F(2) = 1 is 2.
 */
static void check_expand_every_row(void) {
    uint64_t fibonacci[91];
    set_fibonacci(fibonacci);
    struct rows rows = {{0}, {0}, {0}, 88};
    for (size_t i = 0; i < 88; i++) {
        rows.remainders[i] = fibonacci[89 - i];
        rows.denominators[i] = fibonacci[i + 1];
        rows.quotients[i] = 1;
    }
    rows.quotients[87] = 2;
    rows.denominators[88] = fibonacci[90];
    check_expand("Fibonacci numbers that fill every row", fibonacci[90], fibonacci[89], 0, &rows);
}

static void check_expansions(void) {
    const struct rows p1 = {{14, 3, 2, 1, 0}, {1, 3, 13, 16, 45}, {3, 4, 1, 2, 0}, 4};
    const struct rows step_0 = {{0}, {1}, {0}, 0};
    const struct rows step_1 = {{1, 0}, {1, 2}, {2, 0}, 1};
    const struct rows largest = {{1, 0}, {1, LARGEST}, {LARGEST, 0}, 1};
    check_expand("P1", 45, 14, 0, &p1);
    check_expand("modulus 2, step 0", 2, 0, 0, &step_0);
    check_expand("modulus 2, step 1", 2, 1, 0, &step_1);
    check_expand("modulus 2^62, step 1", LARGEST, 1, 0, &largest);
    check_expand_every_row();

    check_expand("modulus 0", 0, 0, 1, NULL);
    check_expand("modulus 1", 1, 0, 1, NULL);
    check_expand("modulus 2^62 + 1", LARGEST + 1, 0, 1, NULL);
    check_expand("modulus 2^64 - 1", UINT64_MAX, 0, 1, NULL);
    check_expand("step M", 45, 45, 2, NULL);
    check_expand("step 2^64 - 1", 45, UINT64_MAX, 2, NULL);
    check_expand("modulus 1, step M", 1, 1, 1, NULL);
}

/* ---- digits, residues and divisions ---- */

static void check_digits(const char *example, uint64_t modulus, uint64_t step, uint64_t argument, uint32_t refusal,
                         const uint64_t digits[GEYSERDISH_DIGITS], uint64_t count) {
    struct lent has[2] = {fresh("digits", 8, GEYSERDISH_DIGITS), fresh("count", 8, 1)};
    struct lent wanted[2] = {has[0], has[1]};
    if (refusal == 0) {
        set(&wanted[0], digits, GEYSERDISH_DIGITS);
        set(&wanted[1], &count, 1);
    }
    uint32_t number = geyserdish_digits(modulus, step, argument, lend(&has[0]), lend(&has[1]));
    count_check("digits", example, number, refusal, has, wanted, 2);
}

/* A call that leaves one number. */
struct number_call {
    const char *name, *leaves;
    uint32_t (*call)(uint64_t modulus, uint64_t step, uint64_t given, uint64_t *number);
};

/* An argument or a target that is refused. */
struct refused_number {
    const char *example;
    uint64_t modulus, step, given;
    uint32_t refusal;
};

static const struct number_call RESIDUE = {"residue", "residue", geyserdish_residue};
static const struct number_call DIVIDE = {"divide", "argument", geyserdish_divide};

static void check_number(const struct number_call *call, const char *example, uint64_t modulus, uint64_t step, uint64_t given,
                         uint32_t refusal, uint64_t found) {
    struct lent has = fresh(call->leaves, 8, 1), wanted = has;
    if (refusal == 0) {
        set(&wanted, &found, 1);
    }
    uint32_t number = call->call(modulus, step, given, lend(&has));
    count_check(call->name, example, number, refusal, &has, &wanted, 1);
}

/*
 * The modulus F(90) and the step F(89), which have 88 quotients, 87 times 1 and then 2. The denominators are F(1), F(2), .., F(88) and
 * the period F(90). As F(90) = 2*F(88) + F(87), and F(2) + F(4) + .. + F(86) = F(87) - 1, the digits of F(90) - 1 are 2 in row 87, 1 in
 * the odd rows below, and 0 in the even ones. Its residue is that of -F(89), which is F(88).
 */
static void check_all_digits(void) {
    uint64_t fibonacci[91], digits[GEYSERDISH_DIGITS] = {0};
    set_fibonacci(fibonacci);
    for (size_t i = 1; i < 87; i += 2) {
        digits[i] = 1;
    }
    digits[87] = 2;
    uint64_t modulus = fibonacci[90], step = fibonacci[89];
    check_digits("Fibonacci numbers, the last argument", modulus, step, modulus - 1, 0, digits, 88);
    check_number(&RESIDUE, "Fibonacci numbers, the last argument", modulus, step, modulus - 1, 0, fibonacci[88]);
    check_number(&DIVIDE, "Fibonacci numbers", modulus, step, fibonacci[88], 0, modulus - 1);
    check_digits("Fibonacci numbers, the period", modulus, step, modulus, 9, NULL, 0);
}

/*
 * 45 and 14 have the denominators 1, 3, 13, 16 and the remainders 14, 3, 2, 1; 15 is 2 + 13, 44 is 4*3 + 2*16, and 2^62 and 1 have the
 * only digit x. 45 and 15 have the period 3, and 45 and 44 the denominators 1, 1.
 */
static void check_arguments(void) {
    static const struct {
        const char *example;
        uint64_t modulus, step, argument, count, residue;
        uint64_t digits[GEYSERDISH_DIGITS];
    } accepted[] = {
        {"45 and 14, 0", 45, 14, 0, 4, 0, {0}},
        {"45 and 14, 15", 45, 14, 15, 4, 30, {2, 0, 1, 0}},
        {"45 and 14, 16", 45, 14, 16, 4, 44, {0, 0, 0, 1}},
        {"45 and 14, 44", 45, 14, 44, 4, 31, {0, 4, 0, 2}},
        {"45 and 15, 2", 45, 15, 2, 1, 30, {2}},
        {"45 and 44, 44", 45, 44, 44, 2, 1, {0, 44}},
        {"45 and 0, 0", 45, 0, 0, 0, 0, {0}},
        {"2^62 and 1, 2^62 - 1", LARGEST, 1, LARGEST - 1, 1, LARGEST - 1, {LARGEST - 1}},
    };
    static const struct refused_number refused[] = {
        {"45 and 14, 45", 45, 14, 45, 9},
        {"45 and 14, 2^64 - 1", 45, 14, UINT64_MAX, 9},
        {"45 and 15, 3", 45, 15, 3, 9},
        {"45 and 0, 1", 45, 0, 1, 9},
        {"2^62 and 1, 2^62", LARGEST, 1, LARGEST, 9},
        {"modulus 0", 0, 0, 0, 1},
        {"modulus 1", 1, 0, 0, 1},
        {"modulus 2^62 + 1", LARGEST + 1, 1, 0, 1},
        {"modulus, step and argument not accepted", 1, 1, UINT64_MAX, 1},
        {"step M", 45, 45, 0, 2},
        {"step and argument not accepted", 45, 46, 45, 2},
    };
    for (size_t i = 0; i < sizeof accepted / sizeof accepted[0]; i++) {
        const char *example = accepted[i].example;
        uint64_t modulus = accepted[i].modulus, step = accepted[i].step, x = accepted[i].argument;
        check_digits(example, modulus, step, x, 0, accepted[i].digits, accepted[i].count);
        check_number(&RESIDUE, example, modulus, step, x, 0, accepted[i].residue);
        check_number(&DIVIDE, example, modulus, step, accepted[i].residue, 0, x);
    }
    for (size_t i = 0; i < sizeof refused / sizeof refused[0]; i++) {
        uint64_t modulus = refused[i].modulus, step = refused[i].step, x = refused[i].given;
        check_digits(refused[i].example, modulus, step, x, refused[i].refusal, NULL, 0);
        check_number(&RESIDUE, refused[i].example, modulus, step, x, refused[i].refusal, 0);
    }
}

static void check_targets(void) {
    static const struct refused_number refused[] = {
        {"45 and 14, target 45", 45, 14, 45, 10},
        {"45 and 14, target 2^64 - 1", 45, 14, UINT64_MAX, 10},
        {"45 and 15, target 31", 45, 15, 31, 10},
        {"45 and 15, target 45", 45, 15, 45, 10},
        {"45 and 0, target 1", 45, 0, 1, 10},
        {"2^62 and 2, target 1", LARGEST, 2, 1, 10},
        {"modulus 0", 0, 0, 0, 1},
        {"modulus, step and target not accepted", 1, 1, 1, 1},
        {"step and target not accepted", 45, 45, 45, 2},
    };
    for (size_t i = 0; i < sizeof refused / sizeof refused[0]; i++) {
        check_number(&DIVIDE, refused[i].example, refused[i].modulus, refused[i].step, refused[i].given, refused[i].refusal, 0);
    }
}

/* ---- the searches of a segment ---- */

struct segment {
    uint64_t modulus, step, start, count, window;
};

struct refused_segment {
    const char *example;
    struct segment segment;
    uint32_t refusal;
};

static const struct refused_segment REFUSED_SEGMENTS[] = {
    {"modulus 0", {0, 0, 0, 1, 0}, 1},
    {"modulus 1", {1, 0, 0, 1, 1}, 1},
    {"modulus 2^62 + 1", {LARGEST + 1, 14, 44, 16, 1}, 1},
    {"step M", {45, 45, 44, 16, 1}, 2},
    {"start M", {45, 14, 45, 16, 1}, 3},
    {"count 0", {45, 14, 44, 0, 1}, 4},
    {"count 1048577", {45, 14, 44, 1048577, 1}, 4},
    {"window 0", {45, 14, 44, 16, 0}, 5},
    {"window M + 1", {45, 14, 44, 16, 46}, 5},
    {"nothing accepted", {1, 1, 1, 0, 2}, 1},
    {"only the modulus accepted", {45, 45, 45, 0, 46}, 2},
    {"only modulus and step accepted", {45, 14, 45, 0, 46}, 3},
    {"only modulus, step and start accepted", {45, 14, 44, 0, 46}, 4},
    {"count 0 and window 0", {45, 14, 44, 0, 0}, 4},
};

enum { REFUSED_SEGMENT_COUNT = sizeof REFUSED_SEGMENTS / sizeof REFUSED_SEGMENTS[0] };

/* What a search of a segment shows, in as many words as it has. */
struct shown_segment {
    const char *example;
    struct segment segment;
    uint64_t shown[6];
};

struct search {
    const char *name;
    size_t words;
    uint32_t (*call)(uint64_t modulus, uint64_t step, uint64_t start, uint64_t count, uint64_t window, uint64_t *shown);
};

static const struct search REGULAR = {"regular search", 5, geyserdish_regular_search};
static const struct search FINE = {"fine search", 6, geyserdish_fine_search};

static void check_search(const struct search *search, const char *example, struct segment s, uint32_t refusal,
                         const uint64_t shown[]) {
    struct lent has = fresh("shown", 8, search->words), wanted = has;
    if (refusal == 0) {
        set(&wanted, shown, search->words);
    }
    uint32_t number = search->call(s.modulus, s.step, s.start, s.count, s.window, lend(&has));
    count_check(search->name, example, number, refusal, &has, &wanted, 1);
}

/* The segments that are accepted, and those that are not. */
static void check_search_of_all(const struct search *search, const struct shown_segment accepted[], size_t segments) {
    for (size_t i = 0; i < segments; i++) {
        check_search(search, accepted[i].example, accepted[i].segment, 0, accepted[i].shown);
    }
    for (size_t i = 0; i < REFUSED_SEGMENT_COUNT; i++) {
        const struct refused_segment *refused = &REFUSED_SEGMENTS[i];
        check_search(search, refused->example, refused->segment, refused->refusal, NULL);
    }
}

/*
 * What P1 to P8 leave open. The residues of modulus 45, step 14 and start 44 are 44, 30, 16, 2, 33, 19, 5, 36, 22, 8, 39, 25, 11, 42,
 * 28, 14, 0, .. So the least are 44 at 0 below 1, 30 at 1 below 2, 16 at 2 below 3, 2 at 3 below 4 to 16, and 0 at 16 below 17 to 45.
 * P7's residues are 0, 1, 2, .. Those of modulus 2^62 and step 1 are start, start - 1, ..; a regular search reaches 1, with index 0,
 * or 2^62, with index 1, and a fine one reaches count, with the label (0, count - 1).
 */
static void check_regular_searches(void) {
    static const struct shown_segment accepted[] = {
        /* count, index, distance, argument, verdict */
        {"P1, count 1", {45, 14, 44, 1, 1}, {1, 0, 44, 0, 1}},
        {"P1, count 2", {45, 14, 44, 2, 1}, {4, 1, 2, 3, 1}},
        {"P1, count 4", {45, 14, 44, 4, 1}, {4, 1, 2, 3, 1}},
        {"P1, count 5", {45, 14, 44, 5, 1}, {16, 2, 2, 3, 1}},
        {"P1, count 29", {45, 14, 44, 29, 1}, {29, 3, 0, 16, 0}},
        {"P1, count 30", {45, 14, 44, 30, 1}, {45, 4, 0, 16, 0}},
        {"P1, count 45", {45, 14, 44, 45, 1}, {45, 4, 0, 16, 0}},
        {"P1, count 46", {45, 14, 44, 46, 1}, {45, 4, 0, 16, 0}},
        {"P2", {45, 14, 44, 16, 1}, {16, 2, 2, 3, 1}},
        {"P3", {45, 14, 44, 17, 1}, {29, 3, 0, 16, 0}},
        {"P4", {45, 14, 8, 5, 1}, {16, 2, 0, 7, 0}},
        {"P5, window 9", {45, 0, 9, 1048576, 9}, {1, 0, 9, 0, 1}},
        {"P5, window 10", {45, 0, 9, 1048576, 10}, {1, 0, 9, 0, 0}},
        {"P7", {45, 44, 0, 3, 1}, {45, 2, 0, 0, 0}},
        {"P8, window 44", {45, 14, 44, 1, 44}, {1, 0, 44, 0, 1}},
        {"P8, window M", {45, 14, 44, 1, 45}, {1, 0, 44, 0, 0}},
        {"P2, window 2", {45, 14, 44, 16, 2}, {16, 2, 2, 3, 1}},
        {"P2, window 3", {45, 14, 44, 16, 3}, {16, 2, 2, 3, 0}},
        {"window M", {45, 14, 44, 16, 45}, {16, 2, 2, 3, 0}},
        {"modulus 2", {2, 0, 0, 1, 1}, {1, 0, 0, 0, 0}},
        {"modulus 2^62, window 2^62 - 1", {LARGEST, 1, LARGEST - 1, 1, LARGEST - 1}, {1, 0, LARGEST - 1, 0, 1}},
        {"modulus 2^62, window 2^62", {LARGEST, 1, LARGEST - 1, 1, LARGEST}, {1, 0, LARGEST - 1, 0, 0}},
        {"modulus 2^62, count 1048576", {LARGEST, 1, 1048576, 1048576, 1}, {LARGEST, 1, 0, 1048576, 0}},
    };
    check_search_of_all(&REGULAR, accepted, sizeof accepted / sizeof accepted[0]);
}

static void check_fine_searches(void) {
    static const struct shown_segment accepted[] = {
        /* count, index, part, distance, argument, verdict */
        {"P1, count 1", {45, 14, 44, 1, 1}, {1, 0, 0, 44, 0, 1}},
        {"P1, count 2", {45, 14, 44, 2, 1}, {2, 0, 1, 30, 1, 1}},
        {"P1, count 3", {45, 14, 44, 3, 1}, {3, 0, 2, 16, 2, 1}},
        {"P1, count 4", {45, 14, 44, 4, 1}, {4, 1, 0, 2, 3, 1}},
        {"P1, count 5", {45, 14, 44, 5, 1}, {7, 1, 1, 2, 3, 1}},
        {"P1, count 7", {45, 14, 44, 7, 1}, {7, 1, 1, 2, 3, 1}},
        {"P1, count 10", {45, 14, 44, 10, 1}, {10, 1, 2, 2, 3, 1}},
        {"P1, count 13", {45, 14, 44, 13, 1}, {13, 1, 3, 2, 3, 1}},
        {"P1, count 16", {45, 14, 44, 16, 1}, {16, 2, 0, 2, 3, 1}},
        {"P1, count 29", {45, 14, 44, 29, 1}, {29, 3, 0, 0, 16, 0}},
        {"P1, count 45", {45, 14, 44, 45, 1}, {45, 3, 1, 0, 16, 0}},
        {"P1, count 46", {45, 14, 44, 46, 1}, {45, 3, 1, 0, 16, 0}},
        {"P4", {45, 14, 8, 5, 1}, {7, 1, 1, 8, 0, 1}},
        {"P5, window 9", {45, 0, 9, 1048576, 9}, {1, 0, 0, 9, 0, 1}},
        {"P5, window 10", {45, 0, 9, 1048576, 10}, {1, 0, 0, 9, 0, 0}},
        {"P6, window 14", {45, 15, 44, 10, 14}, {3, 0, 2, 14, 2, 1}},
        {"P6, window 15", {45, 15, 44, 10, 15}, {3, 0, 2, 14, 2, 0}},
        {"P7", {45, 44, 0, 3, 1}, {3, 1, 1, 0, 0, 0}},
        {"P8, window 44", {45, 14, 44, 1, 44}, {1, 0, 0, 44, 0, 1}},
        {"P8, window M", {45, 14, 44, 1, 45}, {1, 0, 0, 44, 0, 0}},
        {"P2, window 2", {45, 14, 44, 16, 2}, {16, 2, 0, 2, 3, 1}},
        {"P2, window 3", {45, 14, 44, 16, 3}, {16, 2, 0, 2, 3, 0}},
        {"window M", {45, 14, 44, 16, 45}, {16, 2, 0, 2, 3, 0}},
        {"modulus 2", {2, 0, 0, 1, 1}, {1, 0, 0, 0, 0, 0}},
        {"modulus 2^62, window 2^62 - 1", {LARGEST, 1, LARGEST - 1, 1, LARGEST - 1}, {1, 0, 0, LARGEST - 1, 0, 1}},
        {"modulus 2^62, window 2^62", {LARGEST, 1, LARGEST - 1, 1, LARGEST}, {1, 0, 0, LARGEST - 1, 0, 0}},
        {"modulus 2^62, count 1048576", {LARGEST, 1, 1048576, 1048576, 1}, {1048576, 0, 1048575, 1, 1048575, 1}},
    };
    check_search_of_all(&FINE, accepted, sizeof accepted / sizeof accepted[0]);
}

/* ---- the scan of a segment ---- */

static void check_scan_into(struct columns lent, const char *example, struct segment s, uint32_t refusal,
                            const uint64_t hard[], const uint64_t residues[], uint64_t listed) {
    struct lent has[3] = {lent.list, lent.values, fresh("listed", 8, 1)};
    struct lent wanted[3] = {has[0], has[1], has[2]};
    if (refusal == 0) {
        set(&wanted[0], hard, listed);
        set(&wanted[1], residues, listed);
        set(&wanted[2], &listed, 1);
    }
    uint32_t number = geyserdish_scan_segment(s.modulus, s.step, s.start, s.count, s.window, lend(&has[0]), has[0].places,
                                              lend(&has[1]), has[1].places, lend(&has[2]));
    count_check("scan", with_places(example, &lent).line, number, refusal, has, wanted, 3);
}

/* In each column with as many places as there are hard arguments, with more, and with one too few. */
static void check_scan(const char *example, struct segment s, const uint64_t hard[], const uint64_t residues[],
                       uint64_t listed) {
    for (size_t i = 0; i < sizeof BESIDE / sizeof BESIDE[0]; i++) {
        int too_few = BESIDE[i].list < 0 || BESIDE[i].values < 0;
        if (listed > 0 || !too_few) {
            struct columns lent = columns(listed + BESIDE[i].list, listed + BESIDE[i].values);
            check_scan_into(lent, example, s, too_few ? 7 : 0, hard, residues, listed);
        }
    }
}

static void check_refused_scan(const char *example, struct segment s, uint32_t refusal) {
    for (size_t i = 0; i < sizeof REFUSED_PLACES / sizeof REFUSED_PLACES[0]; i++) {
        struct columns lent = columns(REFUSED_PLACES[i].list, REFUSED_PLACES[i].values);
        check_scan_into(lent, example, s, refusal, NULL, NULL, 0);
    }
}

static void check_scans_with_null(void) {
    struct columns lent[WITH_NULL];
    set_with_null(lent);
    for (size_t i = 0; i < WITH_NULL; i++) {
        check_scan_into(lent[i], "P9's segment, window 2", (struct segment){45, 14, 44, 16, 2}, 0, NULL, NULL, 0);
        check_scan_into(lent[i], "P9, window 0", (struct segment){45, 14, 44, 16, 0}, 5, NULL, NULL, 0);
        check_scan_into(lent[i], "P9, window 3", (struct segment){45, 14, 44, 16, 3}, 7, NULL, NULL, 0);
        check_scan_into(lent[i], "count 0", (struct segment){45, 14, 44, 0, 3}, 4, NULL, NULL, 0);
    }
}

/* The values are the residues, which are written above for 45 and 14, and of others worked out by hand. */
static void check_scans(void) {
    static const struct {
        const char *example;
        struct segment segment;
        uint64_t listed;
        uint64_t hard[16], residues[16];
    } accepted[] = {
        {"P9, window 6", {45, 14, 44, 16, 6}, 2, {3, 6}, {2, 5}},
        {"P9, window 3", {45, 14, 44, 16, 3}, 1, {3}, {2}},
        {"P9's segment, window 2", {45, 14, 44, 16, 2}, 0, {0}, {0}},
        {"window M", {45, 14, 44, 16, 45}, 16, {0, 1, 2, 3, 4, 5, 6, 7, 8, 9, 10, 11, 12, 13, 14, 15},
         {44, 30, 16, 2, 33, 19, 5, 36, 22, 8, 39, 25, 11, 42, 28, 14}},
        {"modulus 2", {2, 0, 0, 1, 1}, 1, {0}, {0}},
        {"modulus 2^62, window 2^62 - 1", {LARGEST, 1, LARGEST - 1, 1, LARGEST - 1}, 0, {0}, {0}},
        {"modulus 2^62, window 2^62", {LARGEST, 1, LARGEST - 1, 1, LARGEST}, 1, {0}, {LARGEST - 1}},
        {"modulus 2^62, window 2^62, count 3", {LARGEST, 1, 1, 3, LARGEST}, 3, {0, 1, 2}, {1, 0, LARGEST - 1}},
        {"modulus 2^62, count 1048576", {LARGEST, 1, 1048575, 1048576, 1}, 1, {1048575}, {0}},
        {"P5's segment, window 9", {45, 0, 9, 1048576, 9}, 0, {0}, {0}},
    };
    for (size_t i = 0; i < sizeof accepted / sizeof accepted[0]; i++) {
        check_scan(accepted[i].example, accepted[i].segment, accepted[i].hard, accepted[i].residues, accepted[i].listed);
    }
    struct segment too_many = {45, 0, 9, 1048576, 10};
    check_scan_into(columns(16, 16), "P5's segment, window 10", too_many, 7, NULL, NULL, 0);
    for (size_t i = 0; i < REFUSED_SEGMENT_COUNT; i++) {
        check_refused_scan(REFUSED_SEGMENTS[i].example, REFUSED_SEGMENTS[i].segment, REFUSED_SEGMENTS[i].refusal);
    }
    check_scans_with_null();
}

/* ---- the search of a domain ---- */

struct domain {
    uint64_t origin, modulus, value, slope;
    int64_t curve;
    uint64_t count, window;
};

struct answer {
    uint8_t marks[8];
    uint64_t searched[2]; /* 1 for cleared or 0 for possible, how many are hard */
    uint64_t hard[16]; /* as they are listed, origin + x */
    uint64_t values[16];
};

static void check_domain_into(struct columns lent, const char *example, struct domain d, uint32_t refusal,
                              const struct answer *answer) {
    struct lent has[4] = {lent.list, lent.values, fresh("marks", 1, 8), fresh("searched", 8, 2)};
    struct lent wanted[4] = {has[0], has[1], has[2], has[3]};
    if (refusal == 0) {
        set(&wanted[0], answer->hard, answer->searched[1]);
        set(&wanted[1], answer->values, answer->searched[1]);
        set(&wanted[2], answer->marks, 8);
        set(&wanted[3], answer->searched, 2);
    }
    uint32_t number =
        geyserdish_search_domain(d.origin, d.modulus, d.value, d.slope, d.curve, d.count, d.window, lend(&has[0]),
                                 has[0].places, lend(&has[1]), has[1].places, lend(&has[2]), lend(&has[3]));
    count_check("domain", with_places(example, &lent).line, number, refusal, has, wanted, 4);
}

/* In each column with as many places as there are hard arguments, with more, and with one too few. */
static void check_domain(const char *example, struct domain d, const struct answer *answer) {
    uint64_t listed = answer->searched[1];
    for (size_t i = 0; i < sizeof BESIDE / sizeof BESIDE[0]; i++) {
        int too_few = BESIDE[i].list < 0 || BESIDE[i].values < 0;
        if (listed > 0 || !too_few) {
            struct columns lent = columns(listed + BESIDE[i].list, listed + BESIDE[i].values);
            check_domain_into(lent, example, d, too_few ? 7 : 0, answer);
        }
    }
}

/*
 * What the documents' examples leave open. With curve 0 the covering segment has the domain's values, raised by w - 1, as its residues:
 * for J's numbers and window 1 it is P2's segment, and for window M it is possible, as it is for each of its parts. With value 1
 * and slope 0 the values are 1, 1, 2, 4, 7, .. for curve 1 and 1, 1, 0, 43, 40, .. for curve -1; with count 8 and window 1 the covering
 * segment has step 0, window 1 + 28, and start 1 + 28 for curve 1 but 1 for curve -1. With curve 1048576, which is 31 modulo 45, or with
 * -1048576 its window is M; with value 14 and slope 0 the values are 14, 14, 0, 17, 20, 9, 29, 35 or 14, 14, 28, 11, 8, 19, 44, 38.
 * The two curves with count 12 have the values 0, 40, 36, 33, 31, 30, 30, 31, 33, 36, 40, 0 and 0, 4, 7, 9, 10, 10, 9, 7, 4, 0, 40, 34:
 * only the parts with a 0 come near a multiple of 45. J's values are the residues of P2's segment, which are written above. The values of
 * 2.6 are 3, 5, 6, 6, 5, 3, 0, 41 with curve -1, 42, 40, 39, 39, 40, 42, 0, 4 with curve 1, and 2^62 - 1, 0, 1 with modulus 2^62. The
 * covering segments of the two curves have the window 9 + 28 and at argument 0 the residues 7 and 29, so that they are possible. In all
 * three each argument is a part of its own, and possible where it is hard. In 2.7 an origin moves the list and nothing else. The last
 * domain there has the values 2^62 - 1048575, .., 2^62 - 1, 0. The regular search goes on to the period, below which the value 0 comes,
 * so that it is possible; a fine search judges the arguments of its part alone, of which only the last of all has a value below 1.
 */
static void check_accepted_domains(void) {
    static const struct {
        const char *example;
        struct domain domain;
        struct answer answer;
    } accepted[] = {
        {"J", {0, 45, 44, 31, 0, 16, 3}, {{2, 2, 1, 1, 1, 1, 1, 1}, {0, 2}, {0, 3}, {44, 2}}},
        {"2.1, window 2", {0, 10, 3, 3, 0, 8, 2}, {{1, 1, 2, 1, 1, 1, 2, 1}, {0, 2}, {2, 6}, {9, 1}}},
        {"2.1, window 5 of 11", {0, 11, 5, 0, 0, 8, 5}, {{0, 0, 0, 0, 0, 0, 0, 0}, {1, 0}, {0}, {0}}},
        {"2.1, window 6 of 11",
         {0, 11, 5, 0, 0, 8, 6},
         {{2, 2, 2, 2, 2, 2, 2, 2}, {0, 8}, {0, 1, 2, 3, 4, 5, 6, 7}, {5, 5, 5, 5, 5, 5, 5, 5}}},
        {"P11, curve 1", {0, 45, 0, 0, 1, 8, 1}, {{2, 2, 1, 1, 1, 1, 1, 1}, {0, 2}, {0, 1}, {0, 0}}},
        {"P11, curve -1", {0, 45, 0, 0, -1, 8, 1}, {{2, 2, 1, 1, 1, 1, 1, 1}, {0, 2}, {0, 1}, {0, 0}}},
        {"value 1, curve 1", {0, 45, 1, 0, 1, 8, 1}, {{0, 0, 0, 0, 0, 0, 0, 0}, {1, 0}, {0}, {0}}},
        {"value 1, curve -1", {0, 45, 1, 0, -1, 8, 1}, {{1, 1, 2, 1, 1, 1, 1, 1}, {0, 1}, {2}, {0}}},
        {"J with window 1", {0, 45, 44, 31, 0, 16, 1}, {{0, 0, 0, 0, 0, 0, 0, 0}, {1, 0}, {0}, {0}}},
        {"J with window M",
         {0, 45, 44, 31, 0, 16, 45},
         {{2, 2, 2, 2, 2, 2, 2, 2}, {0, 16}, {0, 1, 2, 3, 4, 5, 6, 7, 8, 9, 10, 11, 12, 13, 14, 15},
          {44, 30, 16, 2, 33, 19, 5, 36, 22, 8, 39, 25, 11, 42, 28, 14}}},
        {"modulus 2",
         {0, 2, 0, 0, 0, 8, 1},
         {{2, 2, 2, 2, 2, 2, 2, 2}, {0, 8}, {0, 1, 2, 3, 4, 5, 6, 7}, {0, 0, 0, 0, 0, 0, 0, 0}}},
        {"modulus 2^62, window 2^61",
         {0, LARGEST, LARGEST / 2, 0, 0, 8, LARGEST / 2},
         {{0, 0, 0, 0, 0, 0, 0, 0}, {1, 0}, {0}, {0}}},
        {"modulus 2^62, window 2^61 + 1",
         {0, LARGEST, LARGEST / 2, 0, 0, 8, LARGEST / 2 + 1},
         {{2, 2, 2, 2, 2, 2, 2, 2}, {0, 8}, {0, 1, 2, 3, 4, 5, 6, 7},
          {LARGEST / 2, LARGEST / 2, LARGEST / 2, LARGEST / 2, LARGEST / 2, LARGEST / 2, LARGEST / 2, LARGEST / 2}}},
        {"modulus 2^62, window 2^62",
         {0, LARGEST, LARGEST - 1, 0, 0, 8, LARGEST},
         {{2, 2, 2, 2, 2, 2, 2, 2}, {0, 8}, {0, 1, 2, 3, 4, 5, 6, 7},
          {LARGEST - 1, LARGEST - 1, LARGEST - 1, LARGEST - 1, LARGEST - 1, LARGEST - 1, LARGEST - 1, LARGEST - 1}}},
        {"curve 1048576", {0, 45, 14, 0, 1048576, 8, 1}, {{1, 1, 2, 1, 1, 1, 1, 1}, {0, 1}, {2}, {0}}},
        {"curve -1048576", {0, 45, 14, 0, -1048576, 8, 1}, {{1, 1, 1, 1, 1, 1, 1, 1}, {0, 0}, {0}, {0}}},
        {"count 1048576", {0, 45, 9, 0, 0, 1048576, 9}, {{0, 0, 0, 0, 0, 0, 0, 0}, {1, 0}, {0}, {0}}},
        {"count 1048575", {0, 45, 9, 0, 0, 1048575, 9}, {{0, 0, 0, 0, 0, 0, 0, 0}, {1, 0}, {0}, {0}}},
        {"2.2, J with count 12", {0, 45, 44, 31, 0, 12, 3}, {{2, 2, 1, 1, 1, 1, 1, 1}, {0, 2}, {0, 3}, {44, 2}}},
        {"2.2, J with count 3", {0, 45, 44, 31, 0, 3, 3}, {{2, 1, 1, 3, 3, 3, 3, 3}, {0, 1}, {0}, {44}}},
        {"2.2, J with count 1", {0, 45, 44, 31, 0, 1, 3}, {{2, 3, 3, 3, 3, 3, 3, 3}, {0, 1}, {0}, {44}}},
        {"2.2, count 12, curve 1", {0, 45, 0, 40, 1, 12, 2}, {{2, 1, 1, 1, 1, 1, 1, 2}, {0, 2}, {0, 11}, {0, 0}}},
        {"2.2, count 12, curve -1", {0, 45, 0, 4, -1, 12, 2}, {{2, 1, 1, 1, 1, 2, 1, 1}, {0, 2}, {0, 9}, {0, 0}}},
        {"2.2, count 3 cleared", {0, 11, 5, 0, 0, 3, 5}, {{0, 0, 0, 0, 0, 0, 0, 0}, {1, 0}, {0}, {0}}},
        {"count 15, window M", {0, 45, 44, 31, 0, 15, 45},
         {{2, 2, 2, 2, 2, 2, 2, 2}, {0, 15}, {0, 1, 2, 3, 4, 5, 6, 7, 8, 9, 10, 11, 12, 13, 14},
          {44, 30, 16, 2, 33, 19, 5, 36, 22, 8, 39, 25, 11, 42, 28}}},
        {"2.6, curve -1", {0, 45, 3, 2, -1, 8, 5}, {{2, 1, 1, 1, 1, 2, 2, 2}, {0, 4}, {0, 5, 6, 7}, {3, 3, 0, 41}}},
        {"2.6, curve 1", {0, 45, 42, 43, 1, 8, 5}, {{2, 1, 1, 1, 1, 2, 2, 2}, {0, 4}, {0, 5, 6, 7}, {42, 42, 0, 4}}},
        {"2.6, modulus 2^62",
         {0, LARGEST, LARGEST - 1, 1, 0, 3, 2},
         {{2, 2, 2, 3, 3, 3, 3, 3}, {0, 3}, {0, 1, 2}, {LARGEST - 1, 0, 1}}},
        {"2.7, J with origin 1", {1, 45, 44, 31, 0, 16, 3}, {{2, 2, 1, 1, 1, 1, 1, 1}, {0, 2}, {1, 4}, {44, 2}}},
        {"2.7, J with origin 2^32 - 1",
         {UINT32_MAX, 45, 44, 31, 0, 16, 3},
         {{2, 2, 1, 1, 1, 1, 1, 1}, {0, 2}, {UINT64_C(4294967295), UINT64_C(4294967298)}, {44, 2}}},
        {"2.7, J with origin 2^52 - 1",
         {TOP - 1, 45, 44, 31, 0, 16, 3},
         {{2, 2, 1, 1, 1, 1, 1, 1}, {0, 2}, {UINT64_C(4503599627370495), UINT64_C(4503599627370498)}, {44, 2}}},
        {"2.7, J with origin 2^52",
         {TOP, 45, 44, 31, 0, 16, 3},
         {{2, 2, 1, 1, 1, 1, 1, 1}, {0, 2}, {UINT64_C(4503599627370496), UINT64_C(4503599627370499)}, {44, 2}}},
        {"2.7, origin 2^52, curve -1",
         {TOP, 45, 3, 2, -1, 8, 5},
         {{2, 1, 1, 1, 1, 2, 2, 2}, {0, 4}, {TOP, TOP + 5, TOP + 6, TOP + 7}, {3, 3, 0, 41}}},
        {"2.7, origin 2^52, modulus 2^62",
         {TOP, LARGEST, LARGEST - 1, 1, 0, 3, 2},
         {{2, 2, 2, 3, 3, 3, 3, 3}, {0, 3}, {TOP, TOP + 1, TOP + 2}, {LARGEST - 1, 0, 1}}},
        {"2.7, origin 2^52, cleared", {TOP, 45, 44, 31, 0, 16, 1}, {{0, 0, 0, 0, 0, 0, 0, 0}, {1, 0}, {0}, {0}}},
        {"2.7, the largest argument",
         {TOP, LARGEST, LARGEST - 1048575, 1, 0, 1048576, 1},
         {{1, 1, 1, 1, 1, 1, 1, 2}, {0, 1}, {UINT64_C(4503599628419071)}, {0}}},
    };
    for (size_t i = 0; i < sizeof accepted / sizeof accepted[0]; i++) {
        check_domain(accepted[i].example, accepted[i].domain, &accepted[i].answer);
    }
}

static void check_refused_domains(void) {
    static const struct {
        const char *example;
        struct domain domain;
        uint32_t refusal;
    } refused[] = {
        {"modulus 1", {0, 1, 0, 0, 0, 16, 1}, 1},
        {"modulus 2^62 + 1", {0, LARGEST + 1, 44, 31, 0, 16, 3}, 1},
        {"slope M", {0, 45, 44, 45, 0, 16, 3}, 2},
        {"value M", {0, 45, 45, 31, 0, 16, 3}, 3},
        {"count 0", {0, 45, 44, 31, 0, 0, 3}, 4},
        {"count 1048577", {0, 45, 44, 31, 0, 1048577, 3}, 4},
        {"count 1048584", {0, 45, 44, 31, 0, 1048584, 3}, 4},
        {"window 0", {0, 45, 44, 31, 0, 16, 0}, 5},
        {"window M + 1", {0, 45, 44, 31, 0, 16, 46}, 5},
        {"curve 1048577", {0, 45, 44, 31, 1048577, 16, 3}, 6},
        {"curve -1048577", {0, 45, 44, 31, -1048577, 16, 3}, 6},
        {"curve 2^63 - 1", {0, 45, 44, 31, INT64_MAX, 16, 3}, 6},
        {"curve -2^63", {0, 45, 44, 31, INT64_MIN, 16, 3}, 6},
        {"nothing accepted", {0, 1, 1, 1, 1048577, 0, 2}, 1},
        {"only the modulus accepted", {0, 45, 45, 45, 1048577, 0, 46}, 2},
        {"only modulus and slope accepted", {0, 45, 45, 31, 1048577, 0, 46}, 3},
        {"window, curve and count not accepted", {0, 45, 44, 31, 1048577, 0, 46}, 4},
        {"count 0 and window 0", {0, 45, 44, 31, 0, 0, 0}, 4},
        {"window and curve not accepted", {0, 45, 44, 31, 1048577, 16, 46}, 5},
        {"window 0 and curve not accepted", {0, 45, 44, 31, 1048577, 16, 0}, 5},
        {"curve and places not accepted", {0, 45, 44, 31, 1048577, 16, 45}, 6},
        {"count 1048576, window 10", {0, 45, 9, 0, 0, 1048576, 10}, 7},
        {"origin 2^52 + 1", {TOP + 1, 45, 44, 31, 0, 16, 3}, 11},
        {"origin 2^53", {2 * TOP, 45, 44, 31, 0, 16, 3}, 11},
        {"origin 2^63", {UINT64_C(1) << 63, 45, 44, 31, 0, 16, 3}, 11},
        {"origin 2^64 - 1", {UINT64_MAX, 45, 44, 31, 0, 16, 3}, 11},
        {"origin 2^64 - 1, cleared without it", {UINT64_MAX, 45, 44, 31, 0, 16, 1}, 11},
        {"origin and places not accepted", {TOP + 1, 45, 44, 31, 0, 16, 45}, 11},
        {"origin 2^52, places not accepted", {TOP, 45, 44, 31, 0, 16, 45}, 7},
        {"curve and origin not accepted", {TOP + 1, 45, 44, 31, 1048577, 16, 3}, 6},
        {"curve, origin and places not accepted", {UINT64_MAX, 45, 44, 31, -1048577, 16, 45}, 6},
        {"window and origin not accepted", {UINT64_MAX, 45, 44, 31, 0, 16, 0}, 5},
        {"count and origin not accepted", {UINT64_MAX, 45, 44, 31, 0, 0, 3}, 4},
        {"value and origin not accepted", {UINT64_MAX, 45, 45, 31, 0, 16, 3}, 3},
        {"slope and origin not accepted", {UINT64_MAX, 45, 44, 45, 0, 16, 3}, 2},
        {"modulus and origin not accepted", {UINT64_MAX, 1, 0, 0, 0, 16, 1}, 1},
    };
    for (size_t i = 0; i < sizeof refused / sizeof refused[0]; i++) {
        for (size_t j = 0; j < sizeof REFUSED_PLACES / sizeof REFUSED_PLACES[0]; j++) {
            struct columns lent = columns(REFUSED_PLACES[j].list, REFUSED_PLACES[j].values);
            check_domain_into(lent, refused[i].example, refused[i].domain, refused[i].refusal, NULL);
        }
    }
}

static void check_domains_with_null(void) {
    const struct answer cleared = {{0}, {1, 0}, {0}, {0}};
    struct columns lent[WITH_NULL];
    set_with_null(lent);
    for (size_t i = 0; i < WITH_NULL; i++) {
        check_domain_into(lent[i], "J with window 1", (struct domain){0, 45, 44, 31, 0, 16, 1}, 0, &cleared);
        check_domain_into(lent[i], "J with window 0", (struct domain){0, 45, 44, 31, 0, 16, 0}, 5, NULL);
        check_domain_into(lent[i], "J", (struct domain){0, 45, 44, 31, 0, 16, 3}, 7, NULL);
        check_domain_into(lent[i], "count 0", (struct domain){0, 45, 44, 31, 0, 0, 3}, 4, NULL);
        struct domain moved = {TOP, 45, 44, 31, 0, 16, 1};
        check_domain_into(lent[i], "J with origin 2^52 and window 1", moved, 0, &cleared);
        moved.window = 3;
        check_domain_into(lent[i], "J with origin 2^52", moved, 7, NULL);
        moved.origin++;
        check_domain_into(lent[i], "J with origin 2^52 + 1", moved, 11, NULL);
    }
}

/* ---- the range of a list ---- */

static void check_range(struct lent list, const char *example, uint64_t lo, uint64_t hi, uint64_t start, uint64_t count) {
    struct lent has[2] = {list, fresh("start", 8, 1)};
    struct lent wanted[2] = {has[0], has[1]};
    set(&wanted[1], &start, 1);
    uint64_t number = geyserdish_range(lend(&has[0]), list.places, lo, hi, lend(&has[1]));
    count_check("range", example, number, count, has, wanted, 2);
}

/* Those with 2^32 or more are such that 32 bits of an entry or of a bound do not tell. */
static void check_ranges(void) {
    static const struct {
        const char *example;
        size_t places;
        uint64_t entries[12];
        uint64_t lo, hi, start, count;
    } examples[] = {
        {"3 6 9 from 0 to 10", 3, {3, 6, 9}, 0, 10, 0, 3},
        {"3 6 9 from 0 to 2^32 - 1", 3, {3, 6, 9}, 0, UINT32_MAX, 0, 3},
        {"3 6 9 from 3 to 9", 3, {3, 6, 9}, 3, 9, 0, 2},
        {"3 6 9 from 4 to 9", 3, {3, 6, 9}, 4, 9, 1, 1},
        {"3 6 9 from 4 to 10", 3, {3, 6, 9}, 4, 10, 1, 2},
        {"3 6 9 from 7 to 8", 3, {3, 6, 9}, 7, 8, 2, 0},
        {"3 6 9 from 6 to 6", 3, {3, 6, 9}, 6, 6, 1, 0},
        {"3 6 9 from 0 to 3", 3, {3, 6, 9}, 0, 3, 0, 0},
        {"3 6 9 from 10 to 20", 3, {3, 6, 9}, 10, 20, 3, 0},
        {"3 6 9 from 9 to 4, lo above hi", 3, {3, 6, 9}, 9, 4, 0, 0},
        {"3 6 9 from 2^32 - 1 to 10, lo above hi", 3, {3, 6, 9}, UINT32_MAX, 10, 0, 0},
        {"3 6 6 9 from 6 to 10, equal neighbours", 4, {3, 6, 6, 9}, 6, 10, 0, 0},
        {"3 9 6 from 4 to 10, descends", 3, {3, 9, 6}, 4, 10, 0, 0},
        {"9 6 3 from 4 to 10, descends", 3, {9, 6, 3}, 4, 10, 0, 0},
        {"5 from 5 to 6", 1, {5}, 5, 6, 0, 1},
        {"0 and 2^32 - 1 from 0 to 2^32 - 1", 2, {0, UINT32_MAX}, 0, UINT32_MAX, 0, 1},
        {"0 and 2^32 - 1 from 1 to 2^32 - 1", 2, {0, UINT32_MAX}, 1, UINT32_MAX, 1, 0},
        {"10 to 120 by tens, from 35 to 95", 12, {10, 20, 30, 40, 50, 60, 70, 80, 90, 100, 110, 120}, 35, 95, 3, 6},
        {"10 to 110 by tens and 110, from 35 to 95", 12, {10, 20, 30, 40, 50, 60, 70, 80, 90, 100, 110, 110}, 35, 95, 0, 0},
        {"no entries", 0, {0}, 0, 10, 0, 0},
        {"3 6 9 from 4 to 2^32", 3, {3, 6, 9}, 4, WORD, 1, 2},
        {"3 6 9 from 2^32 to 2^32 + 10", 3, {3, 6, 9}, WORD, WORD + 10, 3, 0},
        {"3 6 9 from 2^32 to 10, lo above hi", 3, {3, 6, 9}, WORD, 10, 0, 0},
        {"3 6 9 from 0 to 2^64 - 1", 3, {3, 6, 9}, 0, UINT64_MAX, 0, 3},
        {"2^32 - 1 and 2^32 from 2^32 - 1 to 2^32", 2, {WORD - 1, WORD}, WORD - 1, WORD, 0, 1},
        {"2^32 - 1 and 2^32 from 2^32 to 2^32 + 1", 2, {WORD - 1, WORD}, WORD, WORD + 1, 1, 1},
        {"equal lower halves, from 2^32 to 2^33", 3, {5, WORD + 5, 2 * WORD + 5}, WORD, 2 * WORD, 1, 1},
        {"equal lower halves, from 6 to 2^33 + 6", 3, {5, WORD + 5, 2 * WORD + 5}, 6, 2 * WORD + 6, 1, 2},
        {"lower halves that descend, from 0 to 2^64 - 1", 3, {2, WORD + 1, 2 * WORD}, 0, UINT64_MAX, 0, 3},
        {"lower halves that descend, from 2^32 to 2^33", 3, {2, WORD + 1, 2 * WORD}, WORD, 2 * WORD, 1, 1},
        {"2^32 + 1, 2 and 3, descends", 3, {WORD + 1, 2, 3}, 0, UINT64_MAX, 0, 0},
        {"2^32 + 5 and 5, descends", 2, {WORD + 5, 5}, 0, UINT64_MAX, 0, 0},
        {"2.7, J's list from 2^52 to 2^52 + 3", 2, {TOP, TOP + 3}, TOP, TOP + 3, 0, 1},
        {"2.7, J's list from 2^52 + 1 to 2^52 + 4", 2, {TOP, TOP + 3}, TOP + 1, TOP + 4, 1, 1},
        {"2.7, J's list from 0 to 16", 2, {TOP, TOP + 3}, 0, 16, 0, 0},
        {"2.7, J's list from 2^52 + 4 to 2^64 - 1", 2, {TOP, TOP + 3}, TOP + 4, UINT64_MAX, 2, 0},
        {"0 and 2^64 - 1 from 0 to 2^64 - 1", 2, {0, UINT64_MAX}, 0, UINT64_MAX, 0, 1},
        {"0 and 2^64 - 1 from 1 to 2^64 - 1", 2, {0, UINT64_MAX}, 1, UINT64_MAX, 1, 0},
    };
    for (size_t i = 0; i < sizeof examples / sizeof examples[0]; i++) {
        struct lent list = fresh("list", 8, examples[i].places);
        set(&list, examples[i].entries, examples[i].places);
        check_range(list, examples[i].example, examples[i].lo, examples[i].hi, examples[i].start, examples[i].count);
    }
    check_range(nowhere("list"), "no entries, null", 0, 10, 0, 0);
}

int main(void) {
    check_expansions();
    check_all_digits();
    check_arguments();
    check_targets();
    check_regular_searches();
    check_fine_searches();
    check_scans();
    check_accepted_domains();
    check_refused_domains();
    check_domains_with_null();
    check_ranges();
    printf("%d passed, %d failed\n", passed, failed);
    return failed == 0 ? 0 : 1;
}
