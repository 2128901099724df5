/* Whole numbers of 128 bits as this compiler has them: a digest over many pairs, to be compared between systems. */
typedef unsigned __int128 Wide;
typedef __int128 Signed;
typedef unsigned long long Word;

static Word state = 88172645463325252ull, digest = 14695981039346656037ull;

static Word next(void) {
    state ^= state << 13;
    state ^= state >> 7;
    state ^= state << 17;
    return state;
}

static void take(Wide value) {
    digest = (digest ^ (Word)value) * 1099511628211ull;
    digest = (digest ^ (Word)(value >> 64)) * 1099511628211ull;
}

/* The numbers at which carries and signs turn: 0, 1, 2, 2^32, 2^63, 2^64 - 1, 2^64, 2^64 + 1, 2^127 - 1, 2^127, 2^128 - 1. */
static Wide edge(Word at) {
    static const Word words[11][2] = {{0, 0}, {0, 1}, {0, 2}, {0, 1ull << 32}, {0, 1ull << 63}, {0, ~0ull}, {1, 0}, {1, 1},
                                      {~0ull >> 1, ~0ull}, {1ull << 63, 0}, {~0ull, ~0ull}};
    return (Wide)words[at % 11][0] << 64 | words[at % 11][1];
}

/* A number of any length. */
static Wide drawn(void) {
    Wide value = (Wide)next() << 64 | next();
    return value >> (next() % 128);
}

static void all(Wide a, Wide b) {
    Signed x = (Signed)a, y = (Signed)b;
    int is_least = a == (Wide)1 << 127 && b == ~(Wide)0;
    take(a * b);
    if (b) {
        take(a / b);
        take(a % b);
        if (!is_least) {
            take((Wide)(x / y));
            take((Wide)(x % y));
        }
    }
    unsigned by = (unsigned)b % 128;
    take(a << by);
    take(a >> by);
    take((Wide)(x >> by));
    take(a < b);
    take(x < y);
}

Word wide_digest(Word pairs);

Word wide_digest(Word pairs) {
    for (Word at = 0; at < 121; at++)
        all(edge(at / 11), edge(at % 11));
    for (Word at = 0; at < pairs; at++) {
        Wide a = at % 8 ? drawn() : edge(next()), b = at % 5 ? drawn() : edge(next());
        all(a, b);
    }
    return digest;
}
