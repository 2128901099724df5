/*
 * The command `rp` by way of the library: asks which files the words name, reads them, calls, and writes what it gets. It is
 * for the sessions of the documents, which have to come out as with the program. A file that cannot be read is passed over,
 * so that the library tells that it is missing.
 */
#include <stdio.h>
#include <stdlib.h>
#include <string.h>
#include "rp.h"

struct bytes {
    uint8_t *at;
    size_t length, room;
};

static void add(struct bytes *to, const void *from, size_t length) {
    if (to->room - to->length < length) {
        to->room = 2 * (to->length + length);
        to->at = (uint8_t *)realloc(to->at, to->room);
        if (!to->at) exit(6);
    }
    if (length) memcpy(to->at + to->length, from, length);
    to->length += length;
}

static void add_file(struct bytes *to, FILE *file) {
    uint8_t part[4096];
    size_t count;
    while ((count = fread(part, 1, sizeof part, file)) > 0) add(to, part, count);
}

/* The most files that a command has. */
enum { FILES = 3 };

/* The names of the files that the words name, each ended by a zero byte; one byte of room at first, and then enough. */
static void ask_names(const struct bytes *words, struct bytes *names) {
    uint64_t length = 1;
    do {
        names->room = length;
        names->at = (uint8_t *)realloc(names->at, names->room + 1);
        if (!names->at || rp_files(words->at, words->length, names->at, names->room, &length) == RP_NO_MEMORY) exit(6);
    } while (length > names->room);
    names->length = length;
}

/* Whether a name is among these. */
static int has_name(const struct bytes *names, const char *name) {
    for (size_t at = 0; at < names->length; at += strlen((char *)names->at + at) + 1)
        if (strcmp((char *)names->at + at, name) == 0) return 1;
    return 0;
}

static void write_all(FILE *to, const struct bytes *text, uint64_t length) {
    fwrite(text->at, 1, length, to);
}

int main(int count, char **arguments) {
    struct bytes words = {NULL, 0, 0}, names = {NULL, 0, 0}, content = {NULL, 0, 0};
    struct bytes output = {NULL, 0, 0}, told = {NULL, 0, 0}, wanted = {NULL, 0, 0};
    uint64_t sizes[FILES] = {0}, output_length = 1, told_length = 1;
    size_t files = 0;
    int32_t status;
    add(&words, "", 1);
    add(&names, "", 1);
    add(&content, "", 1);
    words.length = names.length = content.length = 0;
    for (int place = 1; place < count; place++) add(&words, arguments[place], strlen(arguments[place]) + 1);
    ask_names(&words, &wanted);
    for (size_t at = 0; at < wanted.length; at += strlen((char *)wanted.at + at) + 1) {
        const char *name = (const char *)wanted.at + at;
        FILE *file = files < FILES && !has_name(&names, name) ? fopen(name, "rb") : NULL;
        if (file) {
            size_t before = content.length;
            add_file(&content, file);
            fclose(file);
            add(&names, name, strlen(name) + 1);
            sizes[files++] = content.length - before;
        }
    }
    /* One byte of room at first, and then as much as the call asked for. */
    do {
        output.room = output_length;
        told.room = told_length;
        output.at = (uint8_t *)realloc(output.at, output.room + 1);
        told.at = (uint8_t *)realloc(told.at, told.room + 1);
        if (!output.at || !told.at) return 6;
        status = rp_answer(
            words.at, words.length, names.at, names.length, sizes, files, content.at, content.length,
            output.at, output.room, told.at, told.room, &output_length, &told_length);
    } while (output_length > output.room || told_length > told.room);
    write_all(stdout, &output, output_length);
    write_all(stderr, &told, told_length);
    free(words.at);
    free(wanted.at);
    free(names.at);
    free(content.at);
    free(output.at);
    free(told.at);
    return status;
}
