// The five items of `rp analyse` as a plain C++ program: what the speed of the program is measured against.
//
// It takes a table of whole numbers whose columns are p_NAME,q_NAME by turns, and prints what rp prints, but for cycles: a
// violation is told without them. Costs are 64 bits wide, fractions 128. Built by g++ -O2.
#include <algorithm>
#include <cstdint>
#include <cstdio>
#include <cstdlib>
#include <string>
#include <utility>
#include <vector>

using u64 = uint64_t;
using i128 = __int128;
using u128 = unsigned __int128;

// ---- the table

struct Costs {
    int count = 0, goods = 0;
    std::vector<u64> all;
    u64 at(int observation, int bundle) const { return all[size_t(observation) * count + bundle]; }
    u64 own(int observation) const { return at(observation, observation); }
};

static std::string contents(const char *name) {
    FILE *file = fopen(name, "rb");
    if (!file) exit(3);
    std::string text;
    char block[65536];
    for (size_t got; (got = fread(block, 1, sizeof block, file)) > 0;) text.append(block, got);
    fclose(file);
    return text;
}

static Costs costs_of(const std::string &text) {
    size_t header = text.find('\n');
    size_t columns = std::count(text.begin(), text.begin() + header, ',') + 1;
    std::vector<u64> numbers;
    for (const char *at = text.c_str() + header + 1; *at;) {
        char *end;
        u64 number = strtoull(at, &end, 10);
        if (end == at) break;
        numbers.push_back(number);
        for (at = end; *at == ',' || *at == '\n' || *at == '\r';) at++;
    }
    Costs costs;
    costs.goods = int(columns / 2);
    costs.count = int(numbers.size() / columns);
    for (int s = 0; s < costs.count; s++)
        for (int t = 0; t < costs.count; t++) {
            u64 sum = 0;
            for (size_t k = 0; k < columns; k += 2) sum += numbers[s * columns + k] * numbers[t * columns + k + 1];
            costs.all.push_back(sum);
        }
    return costs;
}

// ---- numbers

static void print(u128 number) {
    char digits[40];
    int at = 40;
    do digits[--at] = char('0' + int(number % 10));
    while (number /= 10);
    fwrite(digits + at, 1, size_t(40 - at), stdout);
}

static void print_signed(i128 number) {
    if (number < 0) putchar('-');
    print(number < 0 ? -u128(number) : u128(number));
}

static u128 gcd(u128 one, u128 other) {
    while (other && (one >> 64 || other >> 64)) one = std::exchange(other, one % other);
    u64 small = u64(one), rest = u64(other);
    if (!other) return one;
    while (rest) small = std::exchange(rest, small % rest);
    return small;
}

struct Fraction {
    u128 num, den;
};

// By continued fractions, since cross products would pass 128 bits.
static bool is_less(Fraction one, Fraction other) {
    for (bool turned = false;; turned = !turned) {
        u128 first = one.num / one.den, second = other.num / other.den;
        if (first != second) return (first < second) != turned;
        u128 left = one.num % one.den, right = other.num % other.den;
        if (!left || !right) return left != right && (left == 0) != turned;
        one = {one.den, left}, other = {other.den, right};
    }
}

// Whether the product in lowest terms is within 127 bits; then it is in `product`.
static bool times(Fraction one, u64 num, u64 den, Fraction &product) {
    const u128 most = (u128(1) << 127) - 1;
    u64 common = u64(gcd(num, den));
    num /= common, den /= common;
    u128 left = gcd(one.num, den), right = gcd(num, one.den);
    bool passes = __builtin_mul_overflow(one.num / left, num / right, &product.num);
    passes |= __builtin_mul_overflow(one.den / right, den / left, &product.den);
    return !passes && product.num <= most && product.den <= most;
}

// ---- the axiom at a level

struct Relation {
    int count, words;
    std::vector<u64> rows;
    bool has(int s, int t) const { return rows[size_t(s) * words + t / 64] >> (t % 64) & 1; }
    int rank(int s) const {
        int found = !has(s, s);
        for (int word = 0; word < words; word++) found += __builtin_popcountll(rows[size_t(s) * words + word]);
        return found;
    }
};

static Relation closure(const Costs &costs, u64 num, u64 den, bool is_strict) {
    int count = costs.count, words = (count + 63) / 64;
    Relation found{count, words, std::vector<u64>(size_t(count) * words)};
    for (int s = 0; s < count; s++)
        for (int t = 0; t < count; t++) {
            u128 spent = u128(num) * costs.own(s), other = u128(den) * costs.at(s, t);
            if (is_strict ? other < spent : other <= spent) found.rows[size_t(s) * words + t / 64] |= u64(1) << (t % 64);
        }
    for (int by = 0; by < count; by++)
        for (int s = 0; s < count; s++)
            if (found.has(s, by))
                for (int word = 0; word < words; word++) found.rows[size_t(s) * words + word] |= found.rows[size_t(by) * words + word];
    return found;
}

// Whether some walk of weak steps at the level is closed by a strict one.
static bool is_violated(const Costs &costs, const Relation &reached, u64 num, u64 den) {
    for (int s = 0; s < costs.count; s++)
        for (int t = 0; t < costs.count; t++)
            if (reached.has(s, t) && u128(den) * costs.at(t, s) < u128(num) * costs.own(t)) return true;
    return false;
}

static void print_ranks(const char *name, const Relation &reached) {
    fputs(name, stdout);
    for (int s = 0; s < reached.count; s++) printf(" %d", reached.rank(s));
    putchar('\n');
}

// ---- Afriat's numbers

static void afriat(const Costs &costs, const Relation &reached) {
    int count = costs.count;
    std::vector<int> rank, order;
    for (int s = 0; s < count; s++) rank.push_back(reached.rank(s)), order.push_back(s);
    std::stable_sort(order.begin(), order.end(), [&](int s, int t) { return rank[s] > rank[t]; });
    const i128 most = i128(1) << 120, steepest = i128(1) << 60;
    std::vector<i128> utility(count, 0), slope(count, 1);
    for (int first = 0, last; first < count; first = last) {
        for (last = first; last < count && rank[order[last]] == rank[order[first]];) last++;
        if (first == 0) continue;
        i128 least = most + 1;
        bool is_any = false;
        for (int i = 0; i < first; i++)
            for (int j = first; j < last; j++) {
                int s = order[i], t = order[j];
                i128 bound = utility[s] + slope[s] * (i128(costs.at(s, t)) - i128(costs.own(s)));
                if (!is_any || bound < least) least = bound, is_any = true;
            }
        if (least > most || least < -most) {
            printf("afriat withheld at %d\n", order[first] + 1);
            return;
        }
        for (int j = first; j < last; j++) {
            int t = order[j];
            utility[t] = least;
            for (int i = 0; i < first; i++) {
                int s = order[i];
                i128 above = utility[s] - least, dearer = i128(costs.at(t, s)) - i128(costs.own(t));
                if (above > 0) slope[t] = std::max(slope[t], (above + dearer - 1) / dearer);
            }
            if (slope[t] > steepest) {
                printf("afriat withheld at %d\n", t + 1);
                return;
            }
        }
    }
    fputs("afriat model\nutility", stdout);
    for (i128 it : utility) putchar(' '), print_signed(it);
    fputs("\nlambda", stdout);
    for (i128 it : slope) putchar(' '), print_signed(it);
    putchar('\n');
}

// ---- the efficiency index: the least ratio at which weak steps make a cycle, by bisection

static void efficiency(const Costs &costs) {
    using Ratio = std::pair<u64, u64>;
    std::vector<Ratio> ratios;
    for (int s = 0; s < costs.count; s++)
        for (int t = 0; t < costs.count; t++)
            if (costs.at(s, t) <= costs.own(s)) {
                u64 common = u64(gcd(costs.at(s, t), costs.own(s)));
                ratios.push_back({costs.at(s, t) / common, costs.own(s) / common});
            }
    auto is_before = [](const Ratio &one, const Ratio &other) { return u128(one.first) * other.second < u128(other.first) * one.second; };
    std::sort(ratios.begin(), ratios.end(), is_before);
    ratios.erase(std::unique(ratios.begin(), ratios.end()), ratios.end());
    size_t low = 0, high = ratios.size();
    while (low < high) {
        size_t middle = (low + high) / 2;
        Relation reached = closure(costs, ratios[middle].first, ratios[middle].second, false);
        bool is_cyclic = false;
        for (int s = 0; s < costs.count; s++) is_cyclic |= reached.has(s, s);
        is_cyclic ? high = middle : low = middle + 1;
    }
    auto [num, den] = ratios[low];
    Relation at = closure(costs, num, den, false);
    bool is_attained = !is_violated(costs, at, num, den);
    fputs("efficiency ", stdout), print(num);
    if (den != 1) putchar('/'), print(den);
    printf(" attained %s\n", is_attained ? "yes" : "no");
    print_ranks("below", closure(costs, num, den, true));
    if (is_attained) print_ranks("at ranks", at);
}

// ---- least products and least sums over walks

static bool has_pair_that_falls(const Costs &costs) {
    for (int s = 0; s < costs.count; s++)
        for (int t = s + 1; t < costs.count; t++)
            if (u128(costs.at(s, t)) * costs.at(t, s) < u128(costs.own(s)) * costs.own(t)) return true;
    return false;
}

static void homothetic(const Costs &costs) {
    int count = costs.count;
    std::vector<Fraction> least(count, Fraction{1, 1});
    std::vector<char> changed(count, 1);
    bool is_settled = false;
    for (int steps = 0; steps < count && !is_settled && !(steps == 0 && has_pair_that_falls(costs)); steps++) {
        std::vector<Fraction> next = least;
        std::vector<char> changes(count, 0);
        for (int s = 0; s < count; s++)
            for (int t = 0; changed[s] && t < count; t++) {
                Fraction product;
                if (!times(least[s], costs.at(s, t), costs.own(s), product)) {
                    printf("homothetic withheld steps %d from %d to %d\n", steps, s + 1, t + 1);
                    return;
                }
                if (is_less(product, next[t])) next[t] = product, changes[t] = 1;
            }
        least = next, changed = changes;
        is_settled = std::count(changed.begin(), changed.end(), 1) == 0;
    }
    puts(is_settled ? "homothetic holds" : "homothetic violated");
    if (!is_settled) return;
    fputs("values", stdout);
    for (const Fraction &it : least) {
        putchar(' '), print(it.num);
        if (it.den != 1) putchar('/'), print(it.den);
    }
    putchar('\n');
}

static void quasilinear(const Costs &costs) {
    int count = costs.count;
    std::vector<i128> least(count, 0);
    bool is_settled = false;
    for (int steps = 0; steps <= count && !is_settled; steps++) {
        std::vector<i128> next = least;
        for (int s = 0; s < count; s++)
            for (int t = 0; t < count; t++) next[t] = std::min(next[t], least[s] + i128(costs.at(s, t)) - i128(costs.own(s)));
        is_settled = next == least;
        least = next;
    }
    puts(is_settled ? "quasilinear holds" : "quasilinear violated");
    if (!is_settled) return;
    fputs("values", stdout);
    for (i128 it : least) putchar(' '), print_signed(it);
    putchar('\n');
}

int main(int, char **words) {
    Costs costs = costs_of(contents(words[1]));
    printf("observations %d goods %d places 0 0\n", costs.count, costs.goods);
    Relation reached = closure(costs, 1, 1, false);
    if (is_violated(costs, reached, 1, 1)) {
        puts("garp violated\nafriat none");
    } else {
        puts("garp holds");
        print_ranks("ranks", reached);
        afriat(costs, reached);
    }
    efficiency(costs);
    homothetic(costs);
    quasilinear(costs);
}
