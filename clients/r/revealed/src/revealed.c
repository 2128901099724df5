/*
 * One call of the library `librp` (`rp.h`): words and files go in as they are, and the texts come back as bytes. The library is
 * found and loaded by R, or is inside the package; nothing is kept here between calls, and all memory is R's, given back when
 * the call ends.
 */
#include <stdint.h>
#include <string.h>

#include <R.h>
#include <R_ext/Rdynload.h>
#include <Rinternals.h>

#include "inside.h"

enum { ROOM = 65536, MALFORMED = 8, STOPPED = 70 };

/* Bytes one after another. */
struct bytes {
    uint8_t *at;
    size_t length;
};

static void add(struct bytes *to, const void *from, size_t length) {
    if (length) memcpy(to->at + to->length, from, length);
    to->length += length;
}

/* Returns how many bytes texts have, with one more at the end of each. */
static size_t length_of_texts(SEXP texts) {
    size_t length = 0;
    for (R_xlen_t at = 0; at < XLENGTH(texts); at++) length += (size_t)LENGTH(STRING_ELT(texts, at)) + 1;
    return length;
}

/* Adds texts as R has their bytes, each with a byte at its end. */
static void add_texts(struct bytes *to, SEXP texts, char end) {
    for (R_xlen_t at = 0; at < XLENGTH(texts); at++) {
        add(to, CHAR(STRING_ELT(texts, at)), (size_t)LENGTH(STRING_ELT(texts, at)));
        add(to, &end, 1);
    }
}

/* Returns room for so many bytes, until the call of R ends. No pointer of the library's is null, so there is one byte more. */
static struct bytes room_for(size_t length) {
    struct bytes room = {(uint8_t *)R_alloc(length + 1, 1), 0};
    return room;
}

static struct bytes words_of(SEXP texts) {
    struct bytes words = room_for(length_of_texts(texts));
    add_texts(&words, texts, '\0');
    return words;
}

/* Returns how many bytes a file has, which is given as its lines or as its bytes. */
static size_t size_of(SEXP file) {
    return TYPEOF(file) == RAWSXP ? (size_t)XLENGTH(file) : length_of_texts(file);
}

static void add_file(struct bytes *to, SEXP file) {
    if (TYPEOF(file) == RAWSXP) add(to, RAW(file), (size_t)XLENGTH(file));
    else add_texts(to, file, '\n');
}

static SEXP raw_of(const uint8_t *bytes, uint64_t length) {
    SEXP found = allocVector(RAWSXP, (R_xlen_t)length);
    if (length) memcpy(RAW(found), bytes, (size_t)length);
    return found;
}

/* Returns the status of a call, its output, and what it told. `files` are named by `names`. */
static SEXP revealed_answer(SEXP library, SEXP words, SEXP names, SEXP files) {
    rp_call *call = (rp_call *)R_ExternalPtrAddrFn(library);
    if (!call || TYPEOF(words) != STRSXP || TYPEOF(names) != STRSXP || TYPEOF(files) != VECSXP || XLENGTH(names) != XLENGTH(files))
        error("the library is called with other arguments than it has");
    size_t count = (size_t)XLENGTH(files), all = 0;
    uint64_t *sizes = (uint64_t *)R_alloc(count + 1, sizeof *sizes);
    for (size_t at = 0; at < count; at++) {
        SEXP file = VECTOR_ELT(files, (R_xlen_t)at);
        if (TYPEOF(file) != RAWSXP && TYPEOF(file) != STRSXP) error("a file is given as bytes or as lines");
        sizes[at] = size_of(file);
        all += (size_t)sizes[at];
    }
    struct bytes said = words_of(words), named = words_of(names), content = room_for(all);
    for (size_t at = 0; at < count; at++) add_file(&content, VECTOR_ELT(files, (R_xlen_t)at));
    size_t output_room = ROOM, told_room = ROOM;
    for (;;) {
        uint8_t *output = (uint8_t *)R_alloc(output_room, 1), *told = (uint8_t *)R_alloc(told_room, 1);
        uint64_t output_length = 0, told_length = 0;
        int32_t status = call(
            said.at, said.length, named.at, named.length, sizes, count, content.at, content.length, output, output_room, told, told_room,
            &output_length, &told_length);
        if (status == MALFORMED || status == STOPPED) output_length = told_length = 0;
        if (output_length <= output_room && told_length <= told_room) {
            SEXP found = PROTECT(allocVector(VECSXP, 3));
            SET_VECTOR_ELT(found, 0, ScalarInteger(status));
            SET_VECTOR_ELT(found, 1, raw_of(output, output_length));
            SET_VECTOR_ELT(found, 2, raw_of(told, told_length));
            UNPROTECT(1);
            return found;
        }
        if (output_length > output_room) output_room = (size_t)output_length;
        if (told_length > told_room) told_room = (size_t)told_length;
    }
}

/* Returns the call of the library that is inside the package, or its wider one, or that of panels, or NULL. */
static SEXP revealed_own(SEXP which) {
    rp_call *call = revealed_inside(asInteger(which));
    return call ? R_MakeExternalPtrFn((DL_FUNC)call, R_NilValue, R_NilValue) : R_NilValue;
}

/* Returns the version of a library, whose call of rp.h this is, or of the one inside the package; NULL where that is not there. */
static SEXP revealed_version(SEXP library) {
    rp_version_call *call = library == R_NilValue ? revealed_inside_version() : (rp_version_call *)R_ExternalPtrAddrFn(library);
    return call ? mkString(call()) : R_NilValue;
}

static const R_CallMethodDef CALLS[] = {
    {"revealed_answer", (DL_FUNC)&revealed_answer, 4},
    {"revealed_own", (DL_FUNC)&revealed_own, 1},
    {"revealed_version", (DL_FUNC)&revealed_version, 1},
    {NULL, NULL, 0}};

void R_init_revealed(DllInfo *info) {
    R_registerRoutines(info, NULL, CALLS, NULL, NULL);
    R_useDynamicSymbols(info, FALSE);
    R_forceSymbols(info, TRUE);
}
