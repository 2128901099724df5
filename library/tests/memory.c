/*
 * Each allocation of a call fails in turn, alone and with all that follow it: the status is RP_NO_MEMORY with its line, or
 * the answer is what it is with memory. To be linked with -Wl,--wrap=malloc,--wrap=realloc and the static library. Ends with
 * 0, or with 1 and a line for each call that ends otherwise.
 */
#include <stdio.h>
#include <stdlib.h>
#include <string.h>
#include "rp.h"

/* Allocations before the one that fails, and whether those after it fail too. */
static long before = -1;
static int for_good;

void *__real_malloc(size_t);
void *__real_realloc(void *, size_t);
void *__wrap_malloc(size_t);
void *__wrap_realloc(void *, size_t);

static int fails(void) {
    if (before < 0 || (before == 0 && for_good)) return before == 0;
    return before-- == 0;
}

void *__wrap_malloc(size_t size) {
    return fails() ? NULL : __real_malloc(size);
}

void *__wrap_realloc(void *at, size_t size) {
    return fails() ? NULL : __real_realloc(at, size);
}

typedef int32_t Call(
    const uint8_t *, size_t, const uint8_t *, size_t, const uint64_t *, size_t, const uint8_t *, size_t,
    uint8_t *, size_t, uint8_t *, size_t, uint64_t *, uint64_t *);

static const char words[] = "analyse\0t.csv", names[] = "t.csv", panel_words[] = "t.csv\0--pump\0--wide";
static const char demand_words[] = "t.csv\0--demand\0n.csv", welfare_words[] = "t.csv\0--welfare\0n.csv", two_names[] = "t.csv\0n.csv";
static const char fit_words[] = "fit\0t.csv", check_words[] = "checkfit\0t.csv\0n.csv";
static const char table[] = "p_a,q_a,p_b,q_b\n1,1,2,2\n2,2,1,1\n";
/* One for which rp withholds a verdict, and rp-wide gives it. */
static const char held[] = "p_a,q_a,p_b,q_b\n4194304,2097151,1,4194304\n1,1747627,3145727,2796203\n1,4194304,4194304,2097151\n";
/* The same as those of one household, after one of another. */
static const char panel[] = "household,p_a,q_a,p_b,q_b\nB,1,1,2,2\nA,4194304,2097151,1,4194304\n"
    "A,1,1747627,3145727,2796203\nA,1,4194304,4194304,2097151\n";
/* Two households, of which one has bounds and the other violates the axiom. */
static const char pair[] = "household,p_a,q_a,p_b,q_b\nA,1,2,2,1\nB,1,1,2,2\nB,2,2,1,1\nA,2,1,1,2\n";

/* A call, the words, the names and the texts of the files that it is made with, and the line where memory is short. */
typedef struct {
    Call *call;
    const char *words;
    size_t words_length;
    const char *names;
    size_t names_length;
    const char *texts[2], *line;
} Kind;

static const Kind kinds[] = {
    {rp_answer, words, sizeof words, names, sizeof names, {table, NULL}, "rp: out of memory\n"},
    {rp_answer_wide, words, sizeof words, names, sizeof names, {held, NULL}, "rp: out of memory\n"},
    {rp_answer_wide, fit_words, sizeof fit_words, names, sizeof names, {table, NULL}, "rp: out of memory\n"},
    {rp_answer_wide, check_words, sizeof check_words, two_names, sizeof two_names, {table, "{\"items\":[],\"kind\":\"fit\",\"version\":1}"}, "rp: out of memory\n"},
    {rp_panel, panel_words, sizeof panel_words, names, sizeof names, {panel, NULL}, "rp-panel: out of memory\n"},
    {rp_panel, demand_words, sizeof demand_words, two_names, sizeof two_names, {pair, "p_a,p_b,m\n1,1,3\n"}, "rp-panel: out of memory\n"},
    {rp_panel, welfare_words, sizeof welfare_words, two_names, sizeof two_names, {pair, "p_a,p_b\n1,1\n"}, "rp-panel: out of memory\n"},
};

static int32_t call(const Kind *kind, uint8_t *output, size_t room, uint64_t *length, uint8_t *told, uint64_t *told_length) {
    char bytes[512] = "";
    uint64_t sizes[2];
    size_t files = 0;
    for (; files < 2 && kind->texts[files]; files++) {
        sizes[files] = strlen(kind->texts[files]);
        strcat(bytes, kind->texts[files]);
    }
    return kind->call(
        (const uint8_t *)kind->words, kind->words_length, (const uint8_t *)kind->names, kind->names_length, sizes, files,
        (const uint8_t *)bytes, strlen(bytes), output, room, told, 64, length, told_length);
}

typedef int32_t Naming(const uint8_t *, size_t, uint8_t *, size_t, uint64_t *);

/* The same of a call that names files, by words that name that one; how often it was refused, or -1. */
static long name_refused(Naming *naming, const char *of, size_t count) {
    long refused = 0;
    for (for_good = 0; for_good < 2; for_good++) {
        for (long place = 0;; place++) {
            uint8_t named[16];
            uint64_t length = 99;
            before = place;
            int32_t status = naming((const uint8_t *)of, count, named, sizeof named, &length);
            int was_reached = before < 0 || (for_good && before == 0);
            before = -1;
            int is_answered = status == RP_DONE && length == sizeof names && memcmp(named, names, sizeof names) == 0;
            if (!is_answered && (status != RP_NO_MEMORY || length != 0)) return -1;
            refused += !is_answered;
            if (!was_reached) break;
        }
    }
    return refused;
}

/* Each allocation of an answer fails in turn; whether an answer was wrong, or none was refused. */
static int is_wrong(const Kind *kind) {
    static uint8_t wanted[4096], output[4096], told[64];
    uint64_t wanted_length = 0, length = 0, told_length = 0;
    int wrong = call(kind, wanted, sizeof wanted, &wanted_length, told, &told_length) != RP_DONE;
    long place = 0, refused = 0;
    for (for_good = 0; for_good < 2; for_good++) {
        for (place = 0;; place++) {
            before = place;
            int32_t status = call(kind, output, sizeof output, &length, told, &told_length);
            int was_reached = before < 0 || (for_good && before == 0);
            before = -1;
            int is_refused = status == RP_NO_MEMORY && length == 0 && told_length == strlen(kind->line)
                && memcmp(told, kind->line, strlen(kind->line)) == 0;
            int is_answered = status == RP_DONE && length == wanted_length && told_length == 0
                && memcmp(output, wanted, length) == 0;
            if (!is_refused && !is_answered) wrong |= printf("allocation %ld: status %d\n", place, (int)status) > 0;
            refused += is_refused;
            if (!was_reached) break;
        }
    }
    printf("%ld allocations of a call; refused %ld of %ld times\n", place, refused, 2 * place);
    return wrong || refused == 0;
}

int main(void) {
    int wrong = 0;
    for (size_t it = 0; it < sizeof kinds / sizeof *kinds; it++) wrong |= is_wrong(&kinds[it]);
    long unnamed = name_refused(rp_files, words, sizeof words);
    long fit_unnamed = name_refused(rp_files, fit_words, sizeof fit_words);
    long long_unnamed = name_refused(rp_panel_files, panel_words, sizeof panel_words);
    printf("of the calls that name files refused %ld, %ld and %ld times\n", unnamed, fit_unnamed, long_unnamed);
    return wrong || unnamed <= 0 || fit_unnamed <= 0 || long_unnamed <= 0;
}
