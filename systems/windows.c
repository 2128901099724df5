/* The program's system on Windows: words and names as Unicode, files as bytes, lines ended as the command ends them. */
#define WIN32_LEAN_AND_MEAN
#define UNICODE
#include "system.h"

#include <stdlib.h>
#include <string.h>
#include <wchar.h>
#include <windows.h>
/* After windows.h. */
#include <shellapi.h>

enum { NO_MEMORY = 6, NO_TEXT = 7 };
/* A file whose path from the root on has as many characters as this, or more, is named by that path with a prefix,
   behind which Windows takes 32,767 of them; without it 259. */
enum { LONG_PATH = 240 };

/* Returns a text in UTF-8 as Windows has it, or nothing where there is no memory for it. */
static wchar_t *wide(const char *text) {
    int count = MultiByteToWideChar(CP_UTF8, MB_ERR_INVALID_CHARS, text, -1, NULL, 0);
    wchar_t *it = count > 0 ? malloc((size_t)count * sizeof *it) : NULL;
    if (it)
        MultiByteToWideChar(CP_UTF8, MB_ERR_INVALID_CHARS, text, -1, it, count);
    return it;
}

/* Whether a path is one of Windows' own kind, which is taken as it stands. */
static bool is_own(const wchar_t *path) {
    return wcsncmp(path, L"\\\\?\\", 4) == 0 || wcsncmp(path, L"\\\\.\\", 4) == 0;
}

/* Returns the name by which a file is opened, in the place of the one that is given: the same, or where its path from
   the root on is long, that path with the prefix; nothing where there is no memory. */
static wchar_t *opened_by(wchar_t *name) {
    enum { ROOM = 8 };
    DWORD count = GetFullPathNameW(name, 0, NULL, NULL);
    if (count < LONG_PATH || is_own(name))
        return name;
    wchar_t *it = malloc((ROOM + count) * sizeof *it), *whole = it ? it + ROOM : NULL;
    if (it && (GetFullPathNameW(name, count, whole, NULL) >= count || is_own(whole))) {
        free(it);
        return name;
    }
    if (it) {
        bool is_share = wcsncmp(whole, L"\\\\", 2) == 0;
        const wchar_t *prefix = is_share ? L"\\\\?\\UNC" : L"\\\\?\\";
        wmemmove(it + wcslen(prefix), whole + is_share, wcslen(whole + is_share) + 1);
        wmemcpy(it, prefix, wcslen(prefix));
    }
    free(name);
    return it;
}

FileRead open_file(File *file, const char *name) {
    wchar_t *named = wide(name);
    named = named ? opened_by(named) : NULL;
    if (!named)
        return FILE_NO_MEMORY;
    DWORD shared = FILE_SHARE_READ | FILE_SHARE_WRITE | FILE_SHARE_DELETE;
    HANDLE it = CreateFileW(named, GENERIC_READ, shared, NULL, OPEN_EXISTING, FILE_ATTRIBUTE_NORMAL, NULL);
    free(named);
    if (it == INVALID_HANDLE_VALUE)
        return GetLastError() == ERROR_NOT_ENOUGH_MEMORY ? FILE_NO_MEMORY : FILE_FAILED;
    file->handle = it;
    return FILE_READ;
}

bool read_some(File *file, uint8_t *into, size_t room, size_t *count) {
    DWORD got = 0;
    BOOL done = ReadFile(file->handle, into, (DWORD)room, &got, NULL);
    *count = done ? got : 0;
    return done || GetLastError() == ERROR_BROKEN_PIPE;
}

void close_file(File *file) {
    CloseHandle(file->handle);
}

static bool write_all(DWORD stream, const uint8_t *text, size_t length) {
    HANDLE to = GetStdHandle(stream);
    while (length) {
        DWORD done = 0, piece = length < 32768 ? (DWORD)length : 32768;
        if (!to || to == INVALID_HANDLE_VALUE || !WriteFile(to, text, piece, &done, NULL) || !done)
            return false;
        text += done;
        length -= done;
    }
    return true;
}

bool write_output(const uint8_t *text, size_t length) {
    return write_all(STD_OUTPUT_HANDLE, text, length);
}

void write_told(const uint8_t *text, size_t length) {
    write_all(STD_ERROR_HANDLE, text, length);
}

/* Sets a word in UTF-8; the status where it is no text, or there is no memory. */
static int narrow(const wchar_t *word, char **set) {
    int count = WideCharToMultiByte(CP_UTF8, WC_ERR_INVALID_CHARS, word, -1, NULL, 0, NULL, NULL);
    if (count <= 0)
        return NO_TEXT;
    *set = malloc((size_t)count);
    if (!*set)
        return NO_MEMORY;
    WideCharToMultiByte(CP_UTF8, WC_ERR_INVALID_CHARS, word, -1, *set, count, NULL, NULL);
    return 0;
}

int main(void) {
    int count = 0;
    wchar_t **wide_words = CommandLineToArgvW(GetCommandLineW(), &count);
    char **words = calloc((size_t)count + 1, sizeof *words);
    if (!wide_words || !words)
        return without_memory("");
    for (int at = 0; at < count; at++) {
        int status = narrow(wide_words[at], &words[at]);
        if (status)
            return status == NO_MEMORY ? without_memory(at ? words[0] : "") : status;
    }
    return program(count, words);
}
