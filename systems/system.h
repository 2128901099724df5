/* What the program needs of a system: files that are read as bytes, under names in UTF-8, and the two streams. */
#ifndef RP_SYSTEM_H
#define RP_SYSTEM_H

#include <stdbool.h>
#include <stddef.h>
#include <stdint.h>

typedef enum { FILE_READ, FILE_FAILED, FILE_NO_MEMORY } FileRead;
typedef struct {
    void *handle;
    intptr_t number;
} File;

FileRead open_file(File *file, const char *name);
/* Reads some bytes, none only at the end of the file; false where the system fails. */
bool read_some(File *file, uint8_t *into, size_t room, size_t *count);
void close_file(File *file);

/* Writes all of it to standard output; false where the system fails. */
bool write_output(const uint8_t *text, size_t length);
/* Writes to standard error as much as the system takes. */
void write_told(const uint8_t *text, size_t length);

/* The status of the command, for its words in UTF-8. The first, where there is one, is the program's name. */
int program(int count, char **words);
/* Tells that memory ran out, as the command does by which this program's name is, and returns the status for that. */
int without_memory(const char *name);

#endif
