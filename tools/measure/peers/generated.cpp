// Random utility by types that are generated, by the rules of crates/rp_generated and of `Grown` in crates/rp_whole_tableau,
// in plain C++: it tells what the proved program does not print, how many pivots and steps there were and which types.
//
// Reads the number of budgets, and for each patch its budget, its units and its signs. Prints the greatest share as two
// numbers, the pivots, the steps of all searches, and each type by the numbers of its patches; nothing where it gives up.
// Entries below 2^127 are taken for granted: the share is compared with that of the program.
#include <algorithm>
#include <bitset>
#include <cstdint>
#include <cstdio>
#include <utility>
#include <vector>

using u64 = uint64_t;
using i128 = __int128;
using u128 = unsigned __int128;
using Set = std::bitset<256>;

// ---- patches

struct Patch {
    int budget;
    u64 units;
    std::vector<int> signs;
};

static int budgets;
static std::vector<Patch> patches;
static std::vector<Set> together;

static bool go_together(const Patch &a, const Patch &b) {
    int own = a.signs[b.budget], other = b.signs[a.budget];
    return own > 0 || other > 0 || (own == 0 && other == 0);
}

static bool read() {
    if (scanf("%d", &budgets) != 1) return false;
    Patch next;
    while (scanf("%d %lu", &next.budget, &next.units) == 2) {
        next.signs.assign(budgets, 0);
        for (int &sign : next.signs)
            if (scanf("%d", &sign) != 1) return false;
        patches.push_back(next);
    }
    together.resize(patches.size());
    for (size_t i = 0; i < patches.size(); i++)
        for (size_t j = 0; j < patches.size(); j++) together[i][j] = go_together(patches[i], patches[j]);
    return !patches.empty() && patches.size() <= 256;
}

// A patch of each of the first budgets, and which budgets walks of weak steps lead to from each.
struct Partial {
    std::vector<int> taken;
    std::vector<u64> reached;

    bool take(int i) {
        int d = taken.size();
        u64 from = u64(1) << d, into = 0;
        for (int k = 0; k < d; k++) {
            if (patches[taken[k]].signs[d] <= 0) from |= reached[k];
            if (patches[i].signs[k] <= 0) into |= u64(1) << k;
        }
        for (u64 &it : reached)
            if (it & into) it |= from;
        taken.push_back(i);
        reached.push_back(from);
        for (int j = 0; j <= d; j++)
            for (int k = 0; k <= d; k++)
                if (reached[j] >> k & 1 && patches[taken[j]].signs[k] < 0) return false;
        return true;
    }
};

// ---- the tableau of the slacks, over the last pivot

static std::vector<std::vector<i128>> rows;
static std::vector<size_t> basis;
static std::vector<std::vector<int>> columns;
static i128 den = 1;
static u64 pivots;

static void make() {
    size_t n = patches.size();
    for (size_t i = 0; i <= n; i++) {
        rows.emplace_back(n + 1, 0);
        if (i == n) break;
        rows[i][0] = patches[i].units;
        rows[i][1 + i] = 1;
        basis.push_back(1 + i);
    }
}

static i128 entry_of(size_t i, const std::vector<int> &column) {
    i128 entry = i == basis.size() ? -den : 0;
    for (int row : column) entry += rows[i][1 + row];
    return entry;
}

static size_t entering() {
    size_t found = 0, width = basis.size() + 1;
    i128 least = 0;
    for (size_t j = 1; j < width + columns.size(); j++) {
        i128 entry = j < width ? rows.back()[j] : entry_of(basis.size(), columns[j - width]);
        if (entry < least) least = entry, found = j;
    }
    return found;
}

// The product of two numbers of which the first is positive: its sign, and its size in two parts.
struct Product {
    int sign;
    u128 high, low;

    Product(i128 a, i128 b) {
        u128 x = a, y = b < 0 ? -u128(b) : u128(b), word = ~u64(0);
        u128 low_low = (x & word) * (y & word), low_high = (x & word) * (y >> 64), high_low = (x >> 64) * (y & word);
        u128 middle = (low_low >> 64) + (low_high & word) + (high_low & word);
        sign = b < 0 ? -1 : b > 0;
        low = middle << 64 | (low_low & word);
        high = (x >> 64) * (y >> 64) + (low_high >> 64) + (high_low >> 64) + (middle >> 64);
    }

    int compared(const Product &other) const {
        if (sign != other.sign) return sign < other.sign ? -1 : 1;
        auto own = std::make_pair(high, low), its = std::make_pair(other.high, other.low);
        return own == its ? 0 : (own < its) == (sign > 0) ? -1 : 1;
    }
};

static bool is_lesser(size_t first, size_t second) {
    for (size_t j = 0; j <= basis.size(); j++) {
        int order = Product(rows[second].back(), rows[first][j]).compared(Product(rows[first].back(), rows[second][j]));
        if (order != 0) return order < 0;
    }
    return false;
}

// Pivots in the last entries of the rows. An exact quotient is a product with the inverse of the odd part of the divisor.
static bool pivot_on_last(size_t column) {
    size_t row = basis.size();
    for (size_t i = 0; i < basis.size(); i++)
        if (rows[i].back() > 0 && (row == basis.size() || is_lesser(i, row))) row = i;
    if (row == basis.size()) return false;
    int zeros = 0;
    while (!(den >> zeros & 1)) zeros++;
    u128 odd = den >> zeros, inverse = odd;
    for (int step = 0; step < 6; step++) inverse *= 2 - odd * inverse;
    const std::vector<i128> own = rows[row];
    i128 pivot = own.back();
    for (size_t i = 0; i < rows.size(); i++) {
        i128 factor = rows[i].back();
        if (i == row || (factor == 0 && pivot == den)) continue;
        for (size_t j = 0; j < own.size(); j++) {
            i128 entry = rows[i][j], across = own[j];
            if (entry == 0 && (factor == 0 || across == 0)) continue;
            u128 difference = u128(entry) * u128(pivot) - u128(factor) * u128(across);
            rows[i][j] = i128(u128(i128(difference) >> zeros) * inverse);
        }
    }
    den = pivot;
    basis[row] = column;
    pivots++;
    return true;
}

static bool has(u64 much) {
    i128 value = rows.back()[0];
    return value > 0 && value / i128(much) >= den;
}

static bool solve(u64 total) {
    for (int made = 0; made < 8192; made++) {
        size_t column = has(total) ? 0 : entering();
        if (column == 0) return true;
        std::vector<i128> entries;
        for (size_t i = 0; i < rows.size(); i++)
            entries.push_back(column <= basis.size() ? rows[i][column] : entry_of(i, columns[column - basis.size() - 1]));
        for (size_t i = 0; i < rows.size(); i++) rows[i].push_back(entries[i]);
        if (!pivot_on_last(column)) return false;
        for (auto &row : rows) row.pop_back();
    }
    return false;
}

// ---- the search for light types

static u64 steps;
static std::vector<std::vector<int>> on;
static std::vector<std::vector<int>> light;
static i128 below;

static i128 price(int i) { return rows.back()[1 + i]; }

// What the lightest patches in a set of the budgets from one on weigh together; -1 where there is none on one of them.
static i128 least_from(int budget, const Set &set) {
    i128 least = 0;
    for (; budget < budgets; budget++) {
        auto it = std::find_if(on[budget].begin(), on[budget].end(), [&](int i) { return set[i]; });
        if (it == on[budget].end()) return -1;
        least += price(*it);
    }
    return least;
}

static void seek(const Partial &begun, i128 weight, const Set &fit) {
    int budget = begun.taken.size();
    if (budget == budgets) {
        light.push_back(begun.taken);
        below = weight;
        return;
    }
    i128 to_come = least_from(budget + 1, fit);
    if (to_come < 0) return;
    for (int i : on[budget]) {
        if (weight + price(i) + to_come >= below) return;
        steps++;
        Set left = fit & together[i];
        i128 least = fit[i] ? least_from(budget + 1, left) : -1;
        if (least < 0 || weight + price(i) + least >= below) continue;
        Partial longer = begun;
        if (longer.take(i)) seek(longer, weight + price(i), left);
    }
}

static void search() {
    on.assign(budgets, {});
    light.clear();
    for (size_t i = 0; i < patches.size(); i++) on[patches[i].budget].push_back(i);
    for (auto &own : on) std::stable_sort(own.begin(), own.end(), [](int a, int b) { return price(a) < price(b); });
    below = den;
    seek(Partial(), 0, Set().set());
}

static void put(u128 number) {
    if (number > 9) put(number / 10);
    putchar('0' + int(number % 10));
}

int main() {
    if (!read()) return 1;
    u64 total = 0;
    for (const Patch &it : patches) total += it.budget == 0 ? it.units : 0;
    make();
    for (;;) {
        if (!solve(total)) return 0;
        if (has(total)) break;
        search();
        if (light.empty()) break;
        columns.insert(columns.end(), light.begin(), light.end());
    }
    put(rows.back()[0]);
    putchar(' ');
    put(u128(den) * total);
    printf(" %lu %lu\n", pivots, steps);
    for (const auto &column : columns)
        for (size_t place = 0; place < column.size(); place++) printf("%d%c", column[place], place + 1 < column.size() ? ' ' : '\n');
}
