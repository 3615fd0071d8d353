/* All calls on small inputs, one line for each, and a page. The Rust example prints the same lines. */
#include <inttypes.h>
#include <stdio.h>
#include <string.h>

#include "bijterne.h"

enum { MAX_DEPTH = 2047, BUFFER = 12 };

/* [a:tau] [x:a] <x> [y:a] y, and its file: the term, then a group with no steps. */
static const uint8_t term[] = {0xff, 0x00, 0xff, 0x01, 0xfe, 0x01, 0xff, 0x02, 0x01};
static const uint8_t file[] = {0x01, 0x00, 0x09, 0xff, 0x00, 0xff, 0x01, 0xfe, 0x01,
                               0xff, 0x02, 0x01, 0x02, 0x00, 0x00, 0x03, 0x00, 0x00};

/* [A:tau] [x:A] <A> [B:tau] <x> [y:B] y (E3 of the paper): an empty group, then a group with one right step. */
static const uint8_t e3[] = {0x01, 0x00, 0x0d, 0xff, 0x00, 0xff, 0x01, 0xfe, 0x02, 0xff, 0x00, 0xfe, 0x02, 0xff, 0x01, 0x01,
                             0x02, 0x00, 0x00, 0x03, 0x00, 0x00, 0x02, 0x00, 0x00, 0x03, 0x00, 0x03, 0x01, 0x00, 0x00};
static const uint8_t e4[] = {0x01, 0x00, 0x0d, 0xff, 0x00, 0xff, 0x01, 0xfe, 0x02, 0xff, 0x00, 0xfe, 0x02, 0xff, 0x01, 0x01,
                             0x02, 0x00, 0x00, 0x03, 0x00, 0x00, 0x02, 0x00, 0x00, 0x03, 0x00, 0x00};

/* [a:tau] [f:[x:a]tau] <f> [g:[x:tau]tau] tau, and a group with no steps: f is of another type than g. */
static const uint8_t unlike[] = {0x01, 0x00, 0x0d, 0xff, 0x00, 0xff, 0xff, 0x01, 0x00, 0xfe, 0x01,
                                 0xff, 0xff, 0x00, 0x00, 0x00, 0x02, 0x00, 0x00, 0x03, 0x00, 0x00};

/* <tau> <tau> tau. */
static const uint8_t two_wait[] = {0x01, 0x00, 0x05, 0xfe, 0x00, 0xfe, 0x00, 0x00};

/* [a:tau] [x:a] x (E1 of the paper), and tau alone. */
static const uint8_t e1[] = {0xff, 0x00, 0xff, 0x01, 0x01};
static const uint8_t tau[] = {0x00};

/* A field that promises 2 bytes and holds 1. */
static const uint8_t cut_short[] = {0x01, 0x00, 0x02, 0x00};

static void numbers(const char *what, const uint64_t *answer, int count)
{
    int i;
    printf("%s:", what);
    for (i = 0; i < count; i++)
        printf(" %" PRIu64, answer[i]);
}

static void hex(const uint8_t *s, size_t n)
{
    size_t i;
    for (i = 0; i < n; i++)
        printf(" %02x", s[i]);
}

static void bytes(const uint8_t *s, size_t n)
{
    printf(",");
    hex(s, n);
    printf("\n");
}

static void check(const char *what, const uint8_t *s, size_t n)
{
    uint64_t answer[4];
    bijterne_check(s, n, answer);
    numbers(what, answer, 4);
    printf("\n");
}

/* The check's answer, and what stopped it. */
static void explain(const char *what, const uint8_t *s, size_t n)
{
    uint8_t left[BIJTERNE_LONGEST_BODY], right[BIJTERNE_LONGEST_BODY];
    uint64_t answer[8];
    bijterne_explain(s, n, left, sizeof left, right, sizeof right, answer);
    numbers(what, answer, 4);
    switch (answer[0]) {
    case BIJTERNE_BODIES_DIFFER:
        printf(", left");
        hex(left, (size_t)answer[4]);
        printf(", right");
        hex(right, (size_t)answer[5]);
        printf(", difference at %" PRIu64, answer[6]);
        break;
    case BIJTERNE_STEP_NOT_POSSIBLE:
        printf(", %s step %" PRIu64, answer[4] == BIJTERNE_LEFT ? "left" : "right", answer[5]);
        printf(", condition %" PRIu64, answer[6]);
        break;
    case BIJTERNE_STILL_WAITING:
        printf(", waiting %" PRIu64, answer[4]);
        break;
    }
    printf("\n");
}

static void check_set(const char *what, const uint8_t *s, size_t n)
{
    uint64_t answer[5];
    bijterne_check_set(s, n, answer);
    numbers(what, answer, 5);
    printf("\n");
}

/* Adds a file to the set, which has room for it: the set's new length. */
static size_t pack(uint8_t *set, size_t length, const uint8_t *s, size_t n)
{
    set[length] = 0x05;
    set[length + 1] = (uint8_t)(n >> 8);
    set[length + 2] = (uint8_t)(n & 0xff);
    memcpy(set + length + 3, s, n);
    return length + 3 + n;
}

static void write_type(const char *what, const uint8_t *s, size_t n, size_t m)
{
    uint8_t out[BUFFER];
    uint64_t answer[3];
    memset(out, 0xaa, m);
    if (bijterne_write_type(s, n, out, m, answer) == 1)
        printf("%s: none", what);
    else
        numbers(what, answer, 3);
    bytes(out, m);
}

/* Into m bytes; then the page. */
static void print_term(const char *what, const uint8_t *s, size_t n, size_t m)
{
    uint8_t out[BIJTERNE_LONGEST_PAGE];
    uint64_t answer[3];
    bijterne_print_term(s, n, out, m, answer);
    numbers(what, answer, 3);
    printf("\n");
    fwrite(out, 1, (size_t)answer[2], stdout);
}

static void count_strings(const char *what, size_t length)
{
    uint64_t answer[4];
    bijterne_count_strings(length, answer);
    numbers(what, answer, 4);
    printf("\n");
}

/* The file of a term of abstractors, each inside the one before. */
static void check_deep(const char *what, size_t depth)
{
    static uint8_t s[3 + 2 * MAX_DEPTH + 1];
    size_t n = 2 * depth + 1;
    s[0] = 0x01;
    s[1] = (uint8_t)(n >> 8);
    s[2] = (uint8_t)(n & 0xff);
    memset(s + 3, 0xff, depth);
    memset(s + 3 + depth, 0x00, depth + 1);
    check(what, s, 3 + n);
}

int main(void)
{
    uint64_t answer[3];
    uint8_t local[BUFFER], removed[BUFFER], past[sizeof e3], set[BIJTERNE_LONGEST_SET];
    size_t length;

    bijterne_examine_term(term, sizeof term, answer);
    numbers("examine term", answer, 3);
    printf("\n");

    bijterne_examine_file(file, sizeof file, answer);
    numbers("examine file", answer, 2);
    bytes(file + 3, (size_t)answer[2]);

    check("check", file, sizeof file);

    /* y becomes x; then <x> [y:a] has no use and goes, which leaves E1. */
    memset(local, 0xaa, sizeof local);
    bijterne_apply_step(term, sizeof term, 1, 8, local, sizeof local, answer);
    numbers("local step at 8", answer, 3);
    bytes(local, sizeof local);
    length = (size_t)answer[2];
    memset(removed, 0xaa, sizeof removed);
    bijterne_apply_step(local, length, 2, 4, removed, sizeof removed, answer);
    numbers("then removal at 4", answer, 3);
    bytes(removed, sizeof removed);

    /* Both at once: the whole substitution. */
    memset(removed, 0xaa, sizeof removed);
    bijterne_apply_step(term, sizeof term, 3, 4, removed, sizeof removed, answer);
    numbers("whole substitution at 4", answer, 3);
    bytes(removed, sizeof removed);

    write_type("type of E1", e1, sizeof e1, 8);
    write_type("type of E1 into 4 bytes", e1, sizeof e1, 4);
    write_type("type of tau", tau, sizeof tau, 4);

    print_term("print", term, sizeof term, BIJTERNE_LONGEST_PAGE);
    print_term("print into 72 bytes", term, sizeof term, 72);

    count_strings("count strings of 3 bytes", 3);
    count_strings("count strings of 8 bytes", 8);

    bijterne_examine_file(cut_short, sizeof cut_short, answer);
    numbers("examine a file cut short", answer, 3);
    printf("\n");

    check("check without a group", file, sizeof file - 6);
    check("check E3", e3, sizeof e3);
    check("check E3 without its step", e4, sizeof e4);

    /* Two bodies that differ; a step at 1 of a body of one byte; two that wait; and nothing to explain. */
    explain("explain a K of another type", unlike, sizeof unlike);
    memcpy(past, e3, sizeof e3);
    past[sizeof e3 - 1] = 1;
    explain("explain E3 with its step at 1", past, sizeof past);
    explain("explain two that wait", two_wait, sizeof two_wait);
    explain("explain E3", e3, sizeof e3);

    /* Two files on a shelf; the same with a file that is refused after them; and cut short. */
    length = pack(set, 0, file, sizeof file);
    length = pack(set, length, e3, sizeof e3);
    check_set("check a set of two files", set, length);
    length = pack(set, length, e4, sizeof e4);
    check_set("check a set with a refused file", set, length);
    check_set("check a set cut short", set, length - 1);

    check_deep("check 126 deep", 126);
    check_deep("check 2047 deep", 2047);
    return 0;
}
