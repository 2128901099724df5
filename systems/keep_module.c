/* Stands in for the tools of a toolchain folder, under the name of each. Where it is to compile an LLVM module, it keeps a
   copy of that, and leaves an empty file in place of the object, which nobody needs; else it runs the real tool. REAL is
   the folder of the real ones, KEPT the file of the copy. */
#include <stdio.h>
#include <string.h>
#include <unistd.h>

/* Copies a file; without one to copy from the copy is empty. */
static int copies(const char *from, const char *to) {
    char piece[65536];
    FILE *source = from ? fopen(from, "rb") : NULL, *copy = fopen(to, "wb");
    if ((from && !source) || !copy)
        return 0;
    size_t count;
    while (source && (count = fread(piece, 1, sizeof piece, source)) > 0)
        if (fwrite(piece, 1, count, copy) != count)
            return 0;
    int is_whole = !source || !ferror(source);
    if (source)
        fclose(source);
    return fclose(copy) == 0 && is_whole;
}

static int ends_with(const char *word, const char *end) {
    size_t length = strlen(word), own = strlen(end);
    return length > own && strcmp(word + length - own, end) == 0;
}

int main(int count, char **words) {
    static char real[4096];
    const char *slash = strrchr(words[0], '/'), *module = NULL, *object = NULL;
    for (int at = 1; at < count; at++) {
        if (ends_with(words[at], ".bc"))
            module = words[at];
        if (at + 1 < count && strcmp(words[at], "-o") == 0)
            object = words[at + 1];
    }
    if (module && object)
        return copies(module, KEPT) && copies(NULL, object) ? 0 : 1;
    snprintf(real, sizeof real, "%s/%s", REAL, slash ? slash + 1 : words[0]);
    words[0] = real;
    execv(real, words);
    return 1;
}
