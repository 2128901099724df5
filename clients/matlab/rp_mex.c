/*
 * The library for MATLAB and Octave, over rp.c.
 *
 *   [status, output, told] = rp_mex(words, names, files)         rp_answer of rp.h; each argument is a cell array of uint8 rows
 *   [status, output, told] = rp_mex(words, names, files, call)   another call of the same form: 'rp_answer_wide', 'rp_panel'
 *   texts = rp_mex(numbers)                                      doubles as decimals, each exactly as it is
 *   texts = rp_mex(numbers, places)                              rounded to so many places; -1: the shortest that give them back
 */
#include <math.h>
#include <stdio.h>
#include <stdlib.h>
#include <string.h>

#include "mex.h"
#include "rp.h"

/* The most characters of a double as a decimal: 309 before the point, 1,074 behind it. */
enum { LONGEST = 1400, FIRST_ROOM = 65536 };

/* Bytes one after another, of memory that is given back when the call of the language ends. */
struct bytes {
    uint8_t *at;
    size_t length;
};

static size_t length_of(const mxArray *cell, mwIndex at) {
    const mxArray *it = mxGetCell(cell, at);
    if (!it || !mxIsUint8(it)) mexErrMsgIdAndTxt("rp:BadData", "a call takes cell arrays of uint8 rows");
    return mxGetNumberOfElements(it);
}

/* Joins the rows of a cell array, with so many zero bytes behind each. */
static struct bytes joined(const mxArray *cell, size_t zeros) {
    size_t count = mxGetNumberOfElements(cell), all = 1;
    for (size_t at = 0; at < count; at++) all += length_of(cell, at) + zeros;
    struct bytes made = {(uint8_t *)mxCalloc(all, 1), 0};
    for (size_t at = 0; at < count; at++) {
        size_t length = length_of(cell, at);
        if (length) memcpy(made.at + made.length, mxGetData(mxGetCell(cell, at)), length);
        made.length += length + zeros;
    }
    return made;
}

static mxArray *row_of(const uint8_t *bytes, uint64_t length) {
    mxArray *row = mxCreateNumericMatrix(1, (mwSize)length, mxUINT8_CLASS, mxREAL);
    if (length) memcpy(mxGetData(row), bytes, (size_t)length);
    return row;
}

typedef int32_t Call(
    const uint8_t *, size_t, const uint8_t *, size_t, const uint64_t *, size_t, const uint8_t *, size_t,
    uint8_t *, size_t, uint8_t *, size_t, uint64_t *, uint64_t *);

static Call *call_of(const mxArray *name) {
    static const struct { const char *name; Call *call; } calls[] = {
        {"rp_answer", rp_answer}, {"rp_answer_wide", rp_answer_wide}, {"rp_panel", rp_panel},
    };
    char said[16] = "";
    if (mxIsChar(name)) mxGetString(name, said, sizeof said);
    for (size_t at = 0; at < sizeof calls / sizeof *calls; at++)
        if (strcmp(said, calls[at].name) == 0) return calls[at].call;
    mexErrMsgIdAndTxt("rp:BadData", "the calls are rp_answer, rp_answer_wide and rp_panel");
    return NULL;
}

static void call(int given, mxArray *answer[], const mxArray *words, const mxArray *names, const mxArray *files, Call *asked) {
    size_t count = mxGetNumberOfElements(files);
    if (mxGetNumberOfElements(names) != count) mexErrMsgIdAndTxt("rp:BadData", "there is not one name for each file");
    struct bytes said = joined(words, 1), named = joined(names, 1), content = joined(files, 0);
    uint64_t *sizes = (uint64_t *)mxCalloc(count + 1, sizeof *sizes), output_length = FIRST_ROOM, told_length = FIRST_ROOM;
    /* A row of a household is no longer than its records and its words: so of a long file few calls are made twice. */
    if (asked == rp_panel) output_length += content.length;
    for (size_t at = 0; at < count; at++) sizes[at] = length_of(files, at);
    size_t output_room, told_room;
    uint8_t *output, *told;
    int32_t status;
    do {
        output_room = (size_t)output_length;
        told_room = (size_t)told_length;
        output = (uint8_t *)mxCalloc(output_room + 1, 1);
        told = (uint8_t *)mxCalloc(told_room + 1, 1);
        output_length = told_length = 0;
        status = asked(
            said.at, said.length, named.at, named.length, sizes, count, content.at, content.length, output, output_room, told,
            told_room, &output_length, &told_length);
        if (status == RP_MALFORMED || status == RP_STOPPED) output_length = told_length = 0;
    } while (output_length > output_room || told_length > told_room);
    answer[0] = mxCreateDoubleScalar((double)status);
    if (given > 1) answer[1] = row_of(output, output_length);
    if (given > 2) answer[2] = row_of(told, told_length);
}

/* Takes away the zeros that end a number behind its point, the point, and the sign of a zero. */
static void plain(char *text) {
    size_t end = strlen(text);
    if (strchr(text, '.')) {
        while (end && text[end - 1] == '0') end--;
        if (end && text[end - 1] == '.') end--;
        text[end] = 0;
    }
    if (strcmp(text, "-0") == 0) strcpy(text, "0");
}

/* The shortest decimal that gives the double back, without an exponent. */
static void shortest(char *text, double number) {
    int digits = 1;
    char found[64];
    do
        snprintf(found, sizeof found, "%.*e", digits - 1, number);
    while (strtod(found, NULL) != number && ++digits <= 17);
    int places = digits - 1 - atoi(strchr(found, 'e') + 1);
    /* The digits as they were found, at the places of the double itself. */
    char *at = text;
    if (found[0] == '-') *at++ = '-';
    char all[32];
    int count = 0;
    for (const char *it = found; *it != 'e'; it++)
        if (*it >= '0' && *it <= '9') all[count++] = *it;
    int before = count - places;
    if (before <= 0) *at++ = '0';
    for (int it = 0; it < before; it++) *at++ = it < count ? all[it] : '0';
    if (places > 0) {
        *at++ = '.';
        for (int it = before; it < count; it++) *at++ = it < 0 ? '0' : all[it];
    }
    *at = 0;
}

/* As many decimal places as it takes to write the double exactly: its last bit is a power of two. */
static int places_of(double number) {
    int exponent;
    frexp(number, &exponent);
    return exponent >= 53 ? 0 : exponent > -1021 ? 53 - exponent : 1074;
}

/* Rounds a decimal to so many places, half to even. `text` has room for a digit more. */
static void rounded(char *text, int places) {
    char *point = strchr(text, '.'), *first = text + (*text == '-');
    if (!point || (int)strlen(point + 1) <= places) return;
    char *rest = point + 1 + places, *last = places ? rest - 1 : point - 1;
    int is_more = *rest > '5' || (*rest == '5' && strspn(rest + 1, "0") < strlen(rest + 1));
    int is_up = is_more || (*rest == '5' && (*last - '0') % 2);
    *(places ? rest : point) = 0;
    if (!is_up) return;
    char *at = last;
    while (at >= first && (*at == '9' || *at == '.')) {
        if (*at == '9') *at = '0';
        at--;
    }
    if (at >= first) {
        ++*at;
    } else {
        memmove(first + 1, first, strlen(first) + 1);
        *first = '1';
    }
}

/* Writes a double as a decimal: exactly as it is (places -2), the shortest (-1), or rounded, the shortest or the double itself. What is
   no number stays none. */
static void decimal(char *text, double number, int places, int of_shortest) {
    if (!isfinite(number)) {
        strcpy(text, isnan(number) ? "NaN" : number < 0 ? "-Inf" : "Inf");
        return;
    }
    if (places == -1 || of_shortest) {
        shortest(text, number);
        if (places >= 0) rounded(text, places);
    } else snprintf(text, LONGEST, "%.*f", places < 0 ? places_of(number) : places, number);
    plain(text);
}

static mxArray *decimals(const mxArray *numbers, int places, int of_shortest) {
    if (!mxIsDouble(numbers) || mxIsComplex(numbers) || mxIsSparse(numbers)) mexErrMsgIdAndTxt("rp:BadData", "numbers are real, full doubles");
    mxArray *texts = mxCreateCellMatrix(mxGetM(numbers), mxGetN(numbers));
    const double *at = mxGetPr(numbers);
    char text[LONGEST];
    for (size_t it = 0; it < mxGetNumberOfElements(numbers); it++) {
        decimal(text, at[it], places, of_shortest);
        mxSetCell(texts, it, mxCreateString(text));
    }
    return texts;
}

void mexFunction(int given, mxArray *answer[], int count, const mxArray *arguments[]) {
    if (count == 1) {
        answer[0] = decimals(arguments[0], -2, 0);
    } else if (count == 2 || (count == 3 && mxIsDouble(arguments[0]))) {
        double places = mxGetScalar(arguments[1]);
        if (!(places >= -1 && places <= 1000)) mexErrMsgIdAndTxt("rp:BadData", "places are from 0 on");
        answer[0] = decimals(arguments[0], (int)places, count == 3);
    } else if ((count == 3 || count == 4) && mxIsCell(arguments[0]) && mxIsCell(arguments[1]) && mxIsCell(arguments[2])) {
        call(given, answer, arguments[0], arguments[1], arguments[2], count == 4 ? call_of(arguments[3]) : rp_answer);
    } else {
        mexErrMsgIdAndTxt("rp:BadData", "rp_mex takes words, names and files, or numbers");
    }
}
