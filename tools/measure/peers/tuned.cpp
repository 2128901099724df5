// The five items of `rp analyse` as a careful C++ programmer writes them for speed: it prints what plain.cpp prints.
//
// Rows of bits for relations; costs by rows that the compiler makes wide; the ratios sorted once, by floating point and
// exactly only where that cannot tell; a search for a cycle in place of a closure at each ratio; products and quotients
// that cannot improve anything passed over. Built by g++ -O3 -march=native -static.
#include <algorithm>
#include <cmath>
#include <cstdint>
#include <cstdio>
#include <cstdlib>
#include <string>
#include <utility>
#include <vector>

using u32 = uint32_t;
using u64 = uint64_t;
using i64 = int64_t;
using i128 = __int128;
using u128 = unsigned __int128;

// ---- what is read and written

static std::string written;

static void put(u128 number) {
    char digits[40];
    int at = 40;
    for (; number >> 64; number /= 10) digits[--at] = char('0' + int(number % 10));
    u64 small = u64(number);
    do digits[--at] = char('0' + small % 10);
    while (small /= 10);
    written.append(digits + at, size_t(40 - at));
}

static void put(const char *text) { written += text; }

static void put_signed(i128 number) {
    if (number < 0) put("-");
    put(number < 0 ? -u128(number) : u128(number));
}

struct Table {
    int count = 0, goods = 0;
    std::vector<u32> prices, quantities;
    std::vector<u64> costs, own;
    const u64 *row(int s) const { return &costs[size_t(s) * count]; }
};

static Table read(const char *name) {
    FILE *file = fopen(name, "rb");
    if (!file) exit(3);
    fseek(file, 0, SEEK_END);
    std::vector<char> text(size_t(ftell(file)) + 1);
    rewind(file);
    size_t size = fread(text.data(), 1, text.size() - 1, file);
    fclose(file);
    text[size] = 0;
    Table table;
    const char *at = text.data();
    int columns = 1;
    for (; *at && *at != '\n'; at++) columns += *at == ',';
    table.goods = columns / 2;
    for (bool is_price = true; *at;) {
        while (*at && (*at < '0' || *at > '9')) at++;
        if (!*at) break;
        u32 number = 0;
        for (; *at >= '0' && *at <= '9'; at++) number = 10 * number + u32(*at - '0');
        (is_price ? table.prices : table.quantities).push_back(number);
        is_price = !is_price;
    }
    table.count = int(table.prices.size()) / table.goods;
    return table;
}

static void make_costs(Table &table) {
    size_t count = size_t(table.count), goods = size_t(table.goods);
    std::vector<u32> by_good(goods * count);
    for (size_t t = 0; t < count; t++)
        for (size_t k = 0; k < goods; k++) by_good[k * count + t] = table.quantities[t * goods + k];
    table.costs.assign(count * count, 0);
    for (size_t s = 0; s < count; s++) {
        u64 *row = &table.costs[s * count];
        for (size_t k = 0; k < goods; k++) {
            u64 price = table.prices[s * goods + k];
            const u32 *bought = &by_good[k * count];
            for (size_t t = 0; t < count; t++) row[t] += price * bought[t];
        }
        table.own.push_back(row[s]);
    }
}

// ---- relations

struct Relation {
    int count, words;
    std::vector<u64> rows;
    explicit Relation(int n) : count(n), words((n + 63) / 64), rows(size_t(n) * size_t(words)) {}
    u64 *row(int s) { return &rows[size_t(s) * words]; }
    const u64 *row(int s) const { return &rows[size_t(s) * words]; }
    bool has(int s, int t) const { return row(s)[t >> 6] >> (t & 63) & 1; }
    void set(int s, int t) { row(s)[t >> 6] |= u64(1) << (t & 63); }
    void close() {
        for (int by = 0; by < count; by++) {
            const u64 *more = row(by);
            for (int s = 0; s < count; s++) {
                if (!has(s, by) || s == by) continue;
                u64 *into = row(s);
                for (int word = 0; word < words; word++) into[word] |= more[word];
            }
        }
    }
    int rank(int s) const {
        int found = !has(s, s);
        for (int word = 0; word < words; word++) found += __builtin_popcountll(row(s)[word]);
        return found;
    }
    bool is_cyclic() const;
};

// By depth first: a cycle is a step to an observation that is still open. Rows of bits tell what is new at once.
bool Relation::is_cyclic() const {
    std::vector<u64> fresh(words, ~u64(0)), open(words, 0);
    std::vector<int> path;
    for (int first = 0; first < count; first++) {
        if (!(fresh[first >> 6] >> (first & 63) & 1)) continue;
        path.assign(1, first);
        fresh[first >> 6] &= ~(u64(1) << (first & 63)), open[first >> 6] |= u64(1) << (first & 63);
        while (!path.empty()) {
            const u64 *steps = row(path.back());
            int next = -1;
            for (int word = 0; word < words; word++) {
                if (steps[word] & open[word]) return true;
                u64 found = steps[word] & fresh[word];
                if (found && next < 0) next = 64 * word + __builtin_ctzll(found);
            }
            int it = next < 0 ? path.back() : next;
            open[it >> 6] ^= u64(1) << (it & 63);
            if (next < 0) {
                path.pop_back();
            } else {
                fresh[it >> 6] &= ~(u64(1) << (it & 63));
                path.push_back(next);
            }
        }
    }
    return false;
}

static Relation weak_at_one(const Table &table) {
    Relation found(table.count);
    for (int s = 0; s < table.count; s++) {
        const u64 *row = table.row(s);
        u64 own = table.own[s], *into = found.row(s);
        for (int t = 0; t < table.count; t++) into[t >> 6] |= u64(row[t] <= own) << (t & 63);
    }
    return found;
}

// Whether some walk of weak steps at the level is closed by a strict one.
static bool is_violated(const Table &table, const Relation &reached, u64 num, u64 den) {
    for (int s = 0; s < table.count; s++)
        for (int word = 0; word < reached.words; word++)
            for (u64 left = reached.row(s)[word]; left; left &= left - 1) {
                int t = 64 * word + __builtin_ctzll(left);
                if (u128(den) * table.row(t)[s] < u128(num) * table.own[t]) return true;
            }
    return false;
}

static void put_ranks(const char *name, const Relation &reached) {
    put(name);
    for (int s = 0; s < reached.count; s++) put(" "), put(u128(reached.rank(s)));
    put("\n");
}

// ---- Afriat's numbers

static void afriat(const Table &table, const Relation &reached) {
    int count = table.count;
    std::vector<int> rank(count), order(count);
    for (int s = 0; s < count; s++) rank[s] = reached.rank(s), order[s] = s;
    std::stable_sort(order.begin(), order.end(), [&](int s, int t) { return rank[s] > rank[t]; });
    const i128 most = i128(1) << 120;
    const i64 steepest = i64(1) << 60;
    std::vector<i128> utility(count, 0);
    std::vector<i64> slope(count, 1);
    for (int first = 0, last; first < count; first = last) {
        for (last = first; last < count && rank[order[last]] == rank[order[first]];) last++;
        if (first == 0) continue;
        i128 least = most + 1;
        for (int i = 0; i < first; i++) {
            int s = order[i];
            const u64 *row = table.row(s);
            u64 cheapest = row[order[first]];
            for (int j = first + 1; j < last; j++) cheapest = std::min(cheapest, row[order[j]]);
            least = std::min(least, utility[s] + i128(slope[s]) * (i64(cheapest) - i64(table.own[s])));
        }
        if (least > most || least < -most) return put("afriat withheld at "), put(u128(order[first] + 1)), put("\n");
        for (int j = first; j < last; j++) {
            int t = order[j];
            const u64 *row = table.row(t);
            i128 steep = 1;
            for (int i = 0; i < first; i++) {
                i128 above = utility[order[i]] - least;
                i64 dearer = i64(row[order[i]]) - i64(table.own[t]);
                if (above > steep * dearer) steep = (above + dearer - 1) / dearer;
            }
            utility[t] = least;
            if (steep > steepest) return put("afriat withheld at "), put(u128(t + 1)), put("\n");
            slope[t] = i64(steep);
        }
    }
    put("afriat model\nutility");
    for (i128 it : utility) put(" "), put_signed(it);
    put("\nlambda");
    for (i64 it : slope) put(" "), put(u128(it));
    put("\n");
}

// ---- the efficiency index

struct Step {
    double ratio;
    u32 from, to;
};

static void put_index(const Table &table, u64 num, u64 den, const Relation &below, const Relation &at) {
    u64 common = num, rest = den;
    while (rest) common = std::exchange(rest, common % rest);
    bool is_attained = !is_violated(table, at, num, den);
    put("efficiency "), put(u128(num / common));
    if (den != common) put("/"), put(u128(den / common));
    put(is_attained ? " attained yes\n" : " attained no\n");
    put_ranks("below", below);
    if (is_attained) put_ranks("at ranks", at);
}

static void efficiency(const Table &table, const Relation &reached, bool is_consistent) {
    int count = table.count;
    if (is_consistent) {
        Relation below(count);
        for (int s = 0; s < count; s++)
            for (int t = 0; t < count; t++) below.row(s)[t >> 6] |= u64(table.row(s)[t] < table.own[s]) << (t & 63);
        below.close();
        return put_index(table, 1, 1, below, reached);
    }
    std::vector<Step> steps;
    for (int s = 0; s < count; s++)
        for (int t = 0; t < count; t++)
            if (table.row(s)[t] <= table.own[s]) steps.push_back({double(table.row(s)[t]) / double(table.own[s]), u32(s), u32(t)});
    // Costs are below 2^53, so a quotient is off by less than 2^-53.
    auto is_before = [&](const Step &one, const Step &other) {
        if (std::fabs(one.ratio - other.ratio) > 1e-15) return one.ratio < other.ratio;
        return u128(table.row(one.from)[one.to]) * table.own[other.from] < u128(table.row(other.from)[other.to]) * table.own[one.from];
    };
    std::sort(steps.begin(), steps.end(), is_before);
    // The first of the steps of each ratio, and behind them all.
    std::vector<size_t> begins;
    for (size_t it = 0; it < steps.size(); it++)
        if (it == 0 || is_before(steps[it - 1], steps[it])) begins.push_back(it);
    begins.push_back(steps.size());
    auto up_to = [&](size_t end) {
        Relation found(count);
        for (size_t it = 0; it < end; it++) found.set(int(steps[it].from), int(steps[it].to));
        return found;
    };
    size_t low = 0, high = begins.size() - 2;
    while (low < high) {
        size_t middle = (low + high) / 2;
        if (up_to(begins[middle + 1]).is_cyclic()) high = middle;
        else low = middle + 1;
    }
    const Step &it = steps[begins[low]];
    Relation below = up_to(begins[low]), at = up_to(begins[low + 1]);
    below.close(), at.close();
    put_index(table, table.row(int(it.from))[it.to], table.own[it.from], below, at);
}

// ---- least products over walks

struct Fraction {
    u128 num, den;
};

static int bits(u128 number) { return number >> 64 ? 128 - __builtin_clzll(u64(number >> 64)) : number ? 64 - __builtin_clzll(u64(number)) : 0; }

static u64 gcd(u64 one, u64 other) {
    if (!one || !other) return one | other;
    int twos = __builtin_ctzll(one | other);
    one >>= __builtin_ctzll(one);
    while (other) {
        other >>= __builtin_ctzll(other);
        if (one > other) std::swap(one, other);
        other -= one;
    }
    return one << twos;
}

static u64 gcd(u128 wide, u64 small) { return small ? gcd(small, u64(wide % small)) : 1; }

static bool is_less(Fraction one, Fraction other) {
    if (!(one.num >> 64 | one.den >> 64 | other.num >> 64 | other.den >> 64)) return one.num * other.den < other.num * one.den;
    for (bool turned = false;; turned = !turned) {
        u128 first = one.num / one.den, second = other.num / other.den;
        if (first != second) return (first < second) != turned;
        u128 left = one.num - first * one.den, right = other.num - second * other.den;
        if (!left || !right) return left != right && (left == 0) != turned;
        one = {one.den, left}, other = {other.den, right};
    }
}

static bool times(Fraction one, u64 num, u64 den, Fraction &product) {
    const u128 most = (u128(1) << 127) - 1;
    u64 common = gcd(num, den);
    num /= common, den /= common;
    u64 left = gcd(one.num, den), right = gcd(one.den, num);
    bool passes = __builtin_mul_overflow(one.num / left, num / right, &product.num);
    passes |= __builtin_mul_overflow(one.den / right, den / left, &product.den);
    return !passes && product.num <= most && product.den <= most;
}

// Whether some two observations break a test already: most tables that break it have two.
template <class Falls> static bool has_pair(const Table &table, Falls falls) {
    for (int s = 0; s < table.count; s++)
        for (int t = s + 1; t < table.count; t++)
            if (falls(table.row(s)[t], table.row(t)[s], table.own[s], table.own[t])) return true;
    return false;
}

static void homothetic(const Table &table) {
    int count = table.count;
    if (has_pair(table, [](u64 there, u64 back, u64 one, u64 other) { return u128(there) * back < u128(one) * other; }))
        return put("homothetic violated\n");
    std::vector<Fraction> least(count, Fraction{1, 1}), next;
    std::vector<double> near(count, 1), nearest, quotients(size_t(count) * count);
    std::vector<int> widest(count);
    for (int s = 0; s < count; s++) {
        for (int t = 0; t < count; t++) quotients[size_t(s) * count + t] = double(table.row(s)[t]) / double(table.own[s]);
        widest[s] = bits(*std::max_element(table.row(s), table.row(s) + count));
    }
    std::vector<char> changed(count, 1), changes;
    bool is_settled = false;
    for (int steps = 0; steps < count && !is_settled; steps++) {
        next = least, nearest = near;
        changes.assign(count, 0);
        for (int s = 0; s < count; s++) {
            if (!changed[s]) continue;
            // No product of the row passes 127 bits, so one that improves nothing need not be made.
            bool is_narrow = bits(least[s].num) + widest[s] < 128 && bits(least[s].den) + bits(table.own[s]) < 128;
            const double *quotient = &quotients[size_t(s) * count];
            for (int t = 0; t < count; t++) {
                if (is_narrow && near[s] * quotient[t] > nearest[t] * (1 + 1e-14)) continue;
                Fraction product;
                if (!times(least[s], table.row(s)[t], table.own[s], product)) {
                    put("homothetic withheld steps "), put(u128(steps)), put(" from "), put(u128(s + 1));
                    return put(" to "), put(u128(t + 1)), put("\n");
                }
                if (is_less(product, next[t])) next[t] = product, nearest[t] = double(product.num) / double(product.den), changes[t] = 1;
            }
        }
        least.swap(next), near.swap(nearest), changed.swap(changes);
        is_settled = std::count(changed.begin(), changed.end(), 1) == 0;
    }
    put(is_settled ? "homothetic holds\nvalues" : "homothetic violated\n");
    if (!is_settled) return;
    for (const Fraction &it : least) {
        put(" "), put(it.num);
        if (it.den != 1) put("/"), put(it.den);
    }
    put("\n");
}

// ---- least sums over walks: 512 steps of costs below 2^51 stay within 64 bits

static void quasilinear(const Table &table) {
    if (has_pair(table, [](u64 there, u64 back, u64 one, u64 other) { return there + back < one + other; }))
        return put("quasilinear violated\n");
    int count = table.count;
    std::vector<i64> least(count, 0), next;
    std::vector<char> changed(count, 1);
    bool is_settled = false;
    for (int steps = 0; steps <= count && !is_settled; steps++) {
        next = least;
        for (int s = 0; s < count; s++) {
            if (!changed[s]) continue;
            i64 base = least[s] - i64(table.own[s]), *into = next.data();
            const u64 *row = table.row(s);
            for (int t = 0; t < count; t++) into[t] = std::min(into[t], base + i64(row[t]));
        }
        is_settled = next == least;
        for (int t = 0; t < count; t++) changed[t] = next[t] != least[t];
        least.swap(next);
    }
    put(is_settled ? "quasilinear holds\nvalues" : "quasilinear violated\n");
    if (!is_settled) return;
    for (i64 it : least) put(" "), put_signed(it);
    put("\n");
}

int main(int, char **words) {
    Table table = read(words[1]);
    make_costs(table);
    put("observations "), put(u128(table.count)), put(" goods "), put(u128(table.goods)), put(" places 0 0\n");
    Relation reached = weak_at_one(table);
    reached.close();
    bool is_consistent = !is_violated(table, reached, 1, 1);
    if (is_consistent) {
        put("garp holds\n"), put_ranks("ranks", reached);
        afriat(table, reached);
    } else {
        put("garp violated\nafriat none\n");
    }
    efficiency(table, reached, is_consistent);
    homothetic(table);
    quasilinear(table);
    fwrite(written.data(), 1, written.size(), stdout);
}
