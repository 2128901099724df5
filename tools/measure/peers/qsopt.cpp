// Solves linear programs in whole numbers by QSopt_ex, an exact solver: what the program's own simplex is measured beside.
//
// A file has programs one after another, the greatest c.x with A x <= b and x >= 0: how many rows and columns, b, and then
// for each column its c and its entries. Of each the value is printed, or a dash; at the end the seconds of a processor inside the solver.
// Built by g++ -O2 with -lqsopt_ex -lgmp (Debian: libqsopt-ex-dev).
#include <cstdio>
#include <ctime>
#include <fstream>
#include <vector>

#include <gmp.h>
extern "C" {
#include <qsopt_ex/QSopt_ex.h>
}

struct Program {
    int rows, columns;
    std::vector<long> bounds, objective, entries;
    long entry(int row, int column) const { return entries[size_t(column) * rows + row]; }
};

static bool read(std::ifstream &file, Program &program) {
    if (!(file >> program.rows >> program.columns)) return false;
    program.bounds.resize(program.rows);
    program.objective.resize(program.columns);
    program.entries.resize(size_t(program.rows) * program.columns);
    for (long &it : program.bounds) file >> it;
    for (int column = 0; column < program.columns; column++) {
        file >> program.objective[column];
        for (int row = 0; row < program.rows; row++) file >> program.entries[size_t(column) * program.rows + row];
    }
    return true;
}

static mpq_QSdata *made(const Program &program) {
    mpq_QSdata *it = mpq_QScreate_prob("program", QS_MAX);
    std::vector<int> rows(program.rows);
    std::vector<__mpq_struct> values(program.rows);
    for (__mpq_struct &value : values) mpq_init(&value);
    mpq_t number, none, unbounded;
    mpq_init(number), mpq_init(none), mpq_init(unbounded);
    mpq_set(unbounded, mpq_ILL_MAXDOUBLE);
    for (long bound : program.bounds) mpq_set_si(number, bound, 1), mpq_QSnew_row(it, number, 'L', nullptr);
    for (int column = 0; column < program.columns; column++) {
        int count = 0;
        for (int row = 0; row < program.rows; row++)
            if (program.entry(row, column)) mpq_set_si(&values[count], program.entry(row, column), 1), rows[count++] = row;
        mpq_set_si(number, program.objective[column], 1);
        mpq_QSadd_col(it, count, rows.data(), reinterpret_cast<mpq_t *>(values.data()), number, none, unbounded, nullptr);
    }
    mpq_clear(number), mpq_clear(none), mpq_clear(unbounded);
    for (__mpq_struct &value : values) mpq_clear(&value);
    return it;
}

int main(int, char **words) {
    std::ifstream file(words[1]);
    Program program;
    double seconds = 0;
    QSexactStart();
    while (read(file, program)) {
        clock_t began = clock();
        mpq_QSdata *it = made(program);
        int status = 0;
        bool is_solved = !QSexact_solver(it, nullptr, nullptr, nullptr, PRIMAL_SIMPLEX, &status) && status == QS_LP_OPTIMAL;
        mpq_t value;
        mpq_init(value);
        if (is_solved) mpq_QSget_objval(it, &value);
        seconds += double(clock() - began) / CLOCKS_PER_SEC;
        is_solved ? gmp_printf("%Qd\n", value) : puts("-");
        mpq_clear(value);
        mpq_QSfree_prob(it);
    }
    printf("%.6f\n", seconds);
    QSexactClear();
}
