/* The program's system where there is POSIX. */
#include "system.h"

#include <errno.h>
#include <fcntl.h>
#include <unistd.h>

FileRead open_file(File *file, const char *name) {
    int number = open(name, O_RDONLY | O_CLOEXEC);
    if (number < 0)
        return errno == ENOMEM ? FILE_NO_MEMORY : FILE_FAILED;
    file->number = number;
    return FILE_READ;
}

bool read_some(File *file, uint8_t *into, size_t room, size_t *count) {
    ssize_t got;
    do
        got = read((int)file->number, into, room);
    while (got < 0 && errno == EINTR);
    *count = got > 0 ? (size_t)got : 0;
    return got >= 0;
}

void close_file(File *file) {
    close((int)file->number);
}

static bool write_all(int stream, const uint8_t *text, size_t length) {
    while (length) {
        ssize_t done = write(stream, text, length);
        if (done < 0 && errno == EINTR)
            continue;
        if (done <= 0)
            return false;
        text += done;
        length -= (size_t)done;
    }
    return true;
}

bool write_output(const uint8_t *text, size_t length) {
    return write_all(STDOUT_FILENO, text, length);
}

void write_told(const uint8_t *text, size_t length) {
    write_all(STDERR_FILENO, text, length);
}

int main(int count, char **words) {
    return program(count, words);
}
