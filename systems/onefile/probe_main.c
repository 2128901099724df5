/* Asks the probe each of its questions, with one room that is too short, and prints what it gives. */
#include <stdio.h>
#include <string.h>

#include "rp.h"

static void ask(const char *words, size_t room) {
    static uint8_t bytes[700], output[4096], told[8];
    static const char names[] = "a.csv\0b.csv";
    const uint64_t sizes[2] = {300, 400};
    uint64_t output_length = 7, told_length = 7;
    for (size_t at = 0; at < sizeof bytes; at++) bytes[at] = (uint8_t)(at * at * 31 + at * 7 + 3);
    memset(output, '.', sizeof output);
    memset(told, '.', sizeof told);
    int32_t status = rp_answer(
        (const uint8_t *)words, strlen(words) + 1, (const uint8_t *)names, sizeof names, sizes, 2, bytes, sizeof bytes, output, room,
        told, sizeof told, &output_length, &told_length);
    printf("%d %d %d %.*s|%.*s\n", (int)status, (int)output_length, (int)told_length, (int)room + 1, (char *)output, 8, (char *)told);
}

int main(void) {
    static const char *const words[] = {"w", "m", "d", "D", "o", "s"};
    for (size_t at = 0; at < sizeof words / sizeof *words; at++) ask(words[at], 900);
    ask("w", 10);
    return 0;
}
