/* The commands `rp`, `rp-wide` and `rp-panel` where they are not built by Rattle's own tools: by the name under which this
   program is called it is one of them, else `rp`. It hands the words and the files to that command's call of the library,
   and writes what the call answers.

   The library tells which files the words name, and they are read in that order. A command refuses a file before it reads
   the next; so where one cannot be read, an earlier one may have to be refused all the same: that is so where the answer is
   the same whatever stands in the files from there on, of which two contents are tried that no file may have. */
#include "system.h"

#include <stdbool.h>
#include <stdint.h>
#include <stdlib.h>
#include <string.h>

typedef int32_t Call(const uint8_t *words, size_t words_length, const uint8_t *names, size_t names_length,
                     const uint64_t *sizes, size_t files, const uint8_t *bytes, size_t bytes_length, uint8_t *output,
                     size_t output_room, uint8_t *told, size_t told_room, uint64_t *output_length, uint64_t *told_length);
Call rp_answer, rp_answer_wide, rp_panel;
typedef int32_t Naming(const uint8_t *words, size_t words_length, uint8_t *names, size_t names_room, uint64_t *names_length);
Naming rp_files, rp_panel_files;

enum { REFUSED = 4, WRITE_FAULT = 5, NO_MEMORY = 6 };
/* No command takes more files. */
enum { MOST_FILES = 8 };

/* A command: the name under which this program is it, the one in its own lines, the calls that answer its words and tell
   which files they name, and one more than the most bytes that a file may have. */
typedef struct {
    const char *name, *told_as;
    Call *call;
    Naming *naming;
    size_t most_read;
} Command;

static const Command COMMANDS[] = {
    {"rp", "rp", rp_answer, rp_files, 16777217},
    {"rp-wide", "rp", rp_answer_wide, rp_files, 16777217},
    {"rp-panel", "rp-panel", rp_panel, rp_panel_files, 67108865},
};

/* Bytes that grow. */
typedef struct {
    uint8_t *at;
    size_t length, room;
} Bytes;

/* What is asked: of which command, the words, and the files that are given. */
typedef struct {
    const Command *command;
    Bytes words, names, bytes;
    uint64_t sizes[MOST_FILES];
    size_t files;
} Question;

/* What is answered. */
typedef struct {
    Bytes output, told;
    int32_t status;
} Answer;

/* Gives the bytes room for this many more. */
static bool reserve(Bytes *it, size_t more) {
    if (it->at && it->room - it->length >= more)
        return true;
    size_t wanted = it->length + more + it->length / 2 + 64;
    uint8_t *grown = realloc(it->at, wanted);
    if (!grown)
        return false;
    it->at = grown;
    it->room = wanted;
    return true;
}

static bool append(Bytes *it, const void *from, size_t count) {
    if (!reserve(it, count))
        return false;
    memcpy(it->at + it->length, from, count);
    it->length += count;
    return true;
}

/* Tells a text on standard error, whose failures change no status. */
static void tell(const char *text) {
    write_told((const uint8_t *)text, strlen(text));
}

/* Tells a line of the command's own. */
static void tell_line(const Command *command, const char *line) {
    tell(command->told_as);
    tell(line);
}

/* Asks the library once. The lengths are set to the whole ones, whatever the room is. */
static void ask(const Question *asked, Answer *given) {
    uint64_t output_length = 0, told_length = 0;
    given->status = asked->command->call(asked->words.at, asked->words.length, asked->names.at, asked->names.length,
                                         asked->sizes, asked->files, asked->bytes.at, asked->bytes.length, given->output.at,
                                         given->output.room, given->told.at, given->told.room, &output_length, &told_length);
    given->output.length = (size_t)output_length;
    given->told.length = (size_t)told_length;
}

/* Gives the bytes room for their length. */
static bool fit(Bytes *it) {
    if (it->length <= it->room)
        return true;
    size_t wanted = it->length;
    it->length = 0;
    bool fits = reserve(it, wanted);
    it->length = wanted;
    return fits;
}

/* Asks, and once more where there was not enough room. */
static bool ask_whole(const Question *asked, Answer *given) {
    ask(asked, given);
    if (given->output.length <= given->output.room && given->told.length <= given->told.room)
        return true;
    if (!fit(&given->output) || !fit(&given->told))
        return false;
    ask(asked, given);
    return true;
}

/* Asks which files the words name, and once more where there was not enough room. Of words that are no line there are none. */
static bool ask_names(const Question *asked, Bytes *wanted) {
    for (;;) {
        uint64_t length = 0;
        int32_t status = asked->command->naming(asked->words.at, asked->words.length, wanted->at, wanted->room, &length);
        wanted->length = (size_t)length;
        if (status == NO_MEMORY)
            return false;
        if (wanted->length <= wanted->room)
            return true;
        if (!fit(wanted))
            return false;
    }
}

/* Whether a file of this name is given already. */
static bool is_known(const Question *asked, const char *name) {
    const char *at = (const char *)asked->names.at, *end = at + asked->names.length;
    for (; at < end; at += strlen(at) + 1)
        if (strcmp(at, name) == 0)
            return true;
    return false;
}

/* Reads a file whole, or as much of it as shows that it is too long. */
static FileRead read_into(Question *asked, const char *name) {
    File file;
    FileRead opened = open_file(&file, name);
    if (opened != FILE_READ)
        return opened;
    size_t before = asked->bytes.length, most = before + asked->command->most_read;
    FileRead ended = FILE_READ;
    while (asked->bytes.length < most) {
        size_t count = 0, want = most - asked->bytes.length < 65536 ? most - asked->bytes.length : 65536;
        if (!reserve(&asked->bytes, want)) {
            ended = FILE_NO_MEMORY;
            break;
        }
        if (!read_some(&file, asked->bytes.at + asked->bytes.length, want, &count)) {
            ended = FILE_FAILED;
            break;
        }
        if (count == 0)
            break;
        asked->bytes.length += count;
    }
    close_file(&file);
    if (ended != FILE_READ) {
        asked->bytes.length = before;
        return ended;
    }
    if (!append(&asked->names, name, strlen(name) + 1)) {
        asked->bytes.length = before;
        return FILE_NO_MEMORY;
    }
    asked->sizes[asked->files++] = asked->bytes.length - before;
    return FILE_READ;
}

/* Gives each file from this name on the same content, whatever it holds. */
static bool fill_from(Question *asked, const Bytes *wanted, const char *name, const char *content) {
    for (const char *end = (const char *)wanted->at + wanted->length; name < end; name += strlen(name) + 1) {
        if (is_known(asked, name))
            continue;
        if (!append(&asked->names, name, strlen(name) + 1) || !append(&asked->bytes, content, strlen(content)))
            return false;
        asked->sizes[asked->files++] = strlen(content);
    }
    return true;
}

/* What is answered where each file from this name on has that content, and the question is as it was then. */
static bool ask_filled(Question *asked, const Bytes *wanted, const char *name, const char *content, Answer *given) {
    size_t names = asked->names.length, bytes = asked->bytes.length, files = asked->files;
    bool is_answered = fill_from(asked, wanted, name, content) && ask_whole(asked, given);
    asked->names.length = names;
    asked->bytes.length = bytes;
    asked->files = files;
    return is_answered;
}

static bool is_refused_alike(const Answer *one, const Answer *other) {
    return one->status == REFUSED && other->status == REFUSED && one->told.length == other->told.length
           && memcmp(one->told.at, other->told.at, one->told.length) == 0;
}

/* The answer where the file of this name cannot be read: that an earlier one is refused, or else that this one failed. */
static bool answer_unread(Question *asked, const Bytes *wanted, const char *name, Answer *given) {
    Answer other = {0};
    bool fits = reserve(&other.output, 1) && reserve(&other.told, 4096);
    /* Each kind of file is refused for one reason where it is empty, and for another where it is "{}". */
    fits = fits && ask_filled(asked, wanted, name, "", given) && ask_filled(asked, wanted, name, "{}", &other);
    free(other.output.at);
    bool is_earlier = fits && is_refused_alike(given, &other);
    free(other.told.at);
    return fits && (is_earlier || ask_whole(asked, given));
}

/* Reads the files that the words name, and answers. */
static bool answer(Question *asked, Answer *given) {
    Bytes wanted = {0};
    if (!reserve(&wanted, 1) || !ask_names(asked, &wanted))
        return false;
    const char *name = (const char *)wanted.at, *end = name + wanted.length;
    for (; name < end && asked->files < MOST_FILES; name += strlen(name) + 1) {
        FileRead ended = is_known(asked, name) ? FILE_READ : read_into(asked, name);
        if (ended == FILE_NO_MEMORY)
            return false;
        if (ended == FILE_FAILED)
            return answer_unread(asked, &wanted, name, given);
    }
    /* A table is rarely longer than its file, and without that room it would be made twice. */
    (void)reserve(&given->output, asked->bytes.length);
    return ask_whole(asked, given);
}

/* Writes an answer. What is told beside an output stands before it. */
static int finish(const Command *command, const Answer *given) {
    if (given->told.length)
        write_told(given->told.at, given->told.length);
    if (given->output.length && !write_output(given->output.at, given->output.length)) {
        tell_line(command, ": write failed\n");
        return WRITE_FAULT;
    }
    return given->status;
}

/* What follows this beginning of a text, in letters of either size, or nothing where the text begins otherwise. */
static const char *after(const char *text, const char *beginning) {
    for (; *beginning; text++, beginning++)
        if ((*text | ('A' <= *text && *text <= 'Z' ? 32 : 0)) != *beginning)
            return NULL;
    return text;
}

/* Whether a file's name, without folders, is that of a command, or the same with `.exe`. */
static bool is_named(const char *file, const char *command) {
    const char *rest = after(file, command), *end = rest ? after(rest, ".exe") : NULL;
    return rest && (!*rest || (end && !*end));
}

/* The command that a program's name is, with folders before it or without. */
static const Command *command_of(const char *name) {
    for (const char *it = name; *it; it++)
        if (*it == '/' || *it == '\\')
            name = it + 1;
    for (size_t at = 0; at < sizeof COMMANDS / sizeof *COMMANDS; at++)
        if (is_named(name, COMMANDS[at].name))
            return &COMMANDS[at];
    return COMMANDS;
}

int without_memory(const char *name) {
    tell_line(command_of(name), ": out of memory\n");
    return NO_MEMORY;
}

/* Answers the words, each in UTF-8, of which the first is the program's name. */
int program(int count, char **words) {
    const char *name = count > 0 ? words[0] : "";
    Question asked = {.command = command_of(name)};
    Answer given = {0};
    bool fits = reserve(&asked.words, 1) && reserve(&asked.names, 1) && reserve(&asked.bytes, 1)
                && reserve(&given.output, 65536) && reserve(&given.told, 4096);
    for (int at = 1; fits && at < count; at++)
        fits = append(&asked.words, words[at], strlen(words[at]) + 1);
    if (!fits || !answer(&asked, &given))
        return without_memory(name);
    return finish(asked.command, &given);
}
