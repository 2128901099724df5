/*
 * A small module with the name of the library's call, by which `tools/check/one-file` tries on each system what the
 * translated functions stand on: loads, stores and shifts of every width, whole numbers of 128 bits, doubles, memory that
 * grows, deep calls, an access outside of the memory, and an end in the middle. The first letter of the words says which.
 */
typedef unsigned long u64;
typedef unsigned char u8;
typedef unsigned __int128 u128;

void *malloc(u64 size);
void free(void *at);
int rp_answer(const u8 *words, u64 words_length, const u8 *names, u64 names_length, const u64 *sizes, u64 files, const u8 *bytes,
              u64 bytes_length, u8 *output, u64 output_room, u8 *told, u64 told_room, u64 *output_length, u64 *told_length);

static u8 *text;
static u64 room, length;

static void put(u8 byte) {
    if (length < room)
        text[length] = byte;
    length++;
}

static void number(u128 value) {
    u8 digits[40];
    int count = 0;
    do
        digits[count++] = (u8)('0' + (int)(value % 10));
    while (value /= 10);
    while (count)
        put(digits[--count]);
    put(' ');
}

static int deep(volatile int *of, int left) {
    volatile int own = *of + 1;
    return left ? deep(&own, left - 1) + 1 : *of;
}

/* Numbers of each width, signed and not, at every place of a few bytes, and what shifts and counts of bits make of them. */
static u64 of_widths(const u8 *bytes, u64 count) {
    u64 sum = 0;
    for (u64 at = 0; at + 8 <= count; at++) {
        u64 word;
        unsigned half;
        unsigned short quarter;
        __builtin_memcpy(&word, bytes + at, 8);
        __builtin_memcpy(&half, bytes + at, 4);
        __builtin_memcpy(&quarter, bytes + at, 2);
        sum = (sum << 7 | sum >> 57) ^ word;
        sum += (u64)(long)(int)half * 3 + (u64)(long)(short)quarter * 5 + (u64)(long)(signed char)bytes[at] * 7;
        sum ^= (u64)__builtin_clzl(word | 1) << 1 ^ (u64)__builtin_ctzl(word | 1ul << 63) << 9 ^ (u64)__builtin_popcountl(word) << 17;
        sum += (u64)((long)word >> (at & 63)) + (half << (at & 31) | half >> (32 - (at & 31) - !(at & 31)));
        if (quarter)
            sum += word / quarter + word % quarter + (u64)((long)word / (short)(quarter | 1)) + (u64)((int)half % (short)(quarter | 1));
    }
    return sum;
}

/* Products, quotients and sums of doubles, of which each is rounded by itself. */
static u64 of_doubles(u64 seed) {
    double sum = 0.1, by = (double)seed;
    for (int at = 1; at < 200; at++) {
        sum = sum * 1.0000001 + by / (double)at;
        by = by * 0.999 - sum / 3;
        if (sum < by)
            sum += 4294967296.0;
    }
    u64 bits;
    __builtin_memcpy(&bits, &sum, 8);
    return bits;
}

static u64 of_memory(u64 size) {
    u8 *block = malloc(size);
    if (!block)
        return 0;
    u64 sum = 0;
    for (u64 at = 0; at < size; at += 4099)
        sum += block[at];
    __builtin_memset(block, 171, 5000);
    __builtin_memcpy(block + size - 3000, block + 100, 3000);
    sum += (u64)block[0] + block[size - 1] * 1000ul;
    free(block);
    return sum;
}

int rp_answer(const u8 *words, u64 words_length, const u8 *names, u64 names_length, const u64 *sizes, u64 files, const u8 *bytes,
              u64 bytes_length, u8 *output, u64 output_room, u8 *told, u64 told_room, u64 *output_length, u64 *told_length) {
    static const char line[] = "rp: probed\n";
    text = output, room = output_room, length = 0;
    u64 sum = of_widths(bytes, bytes_length);
    for (u64 at = 0; at < files; at++)
        number(sizes[at]);
    for (u64 at = 0; at < names_length; at++)
        put(names[at] ? names[at] : '/');
    number(sum), number((u128)sum * sum), number(((u128)sum << 64 | words_length) / (sum | 1)), number(of_doubles(sum));
    int start = 5;
    switch (words_length ? words[0] : 0) {
    case 'm':
        number(of_memory(64ul << 20));
        break;
    case 'd':
        number((u64)deep(&start, 400));
        break;
    case 'D':
        number((u64)deep(&start, 1000000));
        break;
    case 'o':
        number(*(volatile u8 *)0xffff0000ul);
        break;
    case 's':
        __builtin_trap();
    }
    for (u64 at = 0; at < sizeof line - 1 && at < told_room; at++)
        told[at] = (u8)line[at];
    *output_length = length, *told_length = sizeof line - 1;
    return 4;
}
