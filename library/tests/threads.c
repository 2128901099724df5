/*
 * Sixteen threads call at once, each over a table of its own, again and again; every text has to be the one that a call
 * alone gave. Ends with 0, or with 1 and a line for each text that differs.
 */
#include <pthread.h>
#include <stdio.h>
#include <stdlib.h>
#include <string.h>
#include "rp.h"

enum { THREADS = 16, ROOM = 65536, ROUNDS = 12 };

struct task {
    char table[4096];
    size_t size;
    uint8_t wanted[ROOM];
    uint64_t wanted_length;
    int32_t wanted_status;
    int wrong;
};

static struct task tasks[THREADS];

/* How often each thread calls: 50 times, or as the first word says. */
static int calls = 50;

static int32_t call(const struct task *task, uint8_t *output, uint64_t *length) {
    static const char words[] = "analyse\0t.csv", names[] = "t.csv";
    uint8_t told[256];
    uint64_t size = task->size, told_length = 0;
    return rp_answer(
        (const uint8_t *)words, sizeof words, (const uint8_t *)names, sizeof names, &size, 1,
        (const uint8_t *)task->table, task->size, output, ROOM, told, sizeof told, length, &told_length);
}

static void *work(void *at) {
    struct task *task = (struct task *)at;
    uint8_t output[ROOM];
    for (int turn = 0; turn < calls; turn++) {
        uint64_t length = 0;
        int32_t status = call(task, output, &length);
        if (status != task->wanted_status || length != task->wanted_length || memcmp(output, task->wanted, length) != 0)
            task->wrong++;
    }
    return NULL;
}

/* A table of twelve rounds, another one for each number. */
static void make(struct task *task, unsigned number) {
    unsigned state = 12345 + 977 * number;
    int at = snprintf(task->table, sizeof task->table, "p_a,q_a,p_b,q_b\n");
    for (int round = 0; round < ROUNDS; round++) {
        unsigned cell[4];
        for (int k = 0; k < 4; k++) {
            state = state * 1103515245u + 12345u;
            cell[k] = 1 + (state >> 16) % 9;
        }
        at += snprintf(task->table + at, sizeof task->table - (size_t)at, "%u,%u,%u,%u\n", cell[0], cell[1], cell[2], cell[3]);
    }
    task->size = (size_t)at;
    task->wanted_status = call(task, task->wanted, &task->wanted_length);
}

int main(int count, char **words) {
    pthread_t threads[THREADS];
    int wrong = 0;
    if (count > 1) calls = atoi(words[1]);
    for (unsigned k = 0; k < THREADS; k++) make(&tasks[k], k);
    for (int k = 0; k < THREADS; k++)
        if (pthread_create(&threads[k], NULL, work, &tasks[k]) != 0) return 70;
    for (int k = 0; k < THREADS; k++) pthread_join(threads[k], NULL);
    for (int k = 0; k < THREADS; k++) {
        if (tasks[k].wanted_status != RP_DONE || tasks[k].wrong) printf("table %d: %d texts differ\n", k, tasks[k].wrong);
        wrong |= tasks[k].wanted_status != RP_DONE || tasks[k].wrong;
    }
    for (int k = 1; k < THREADS; k++)
        if (strcmp(tasks[0].table, tasks[k].table) == 0) wrong = 1;
    return wrong;
}
