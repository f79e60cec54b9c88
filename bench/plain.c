/*
 * A plain interpreter that goes forward and back through `while 1 { i = i + 1; }`, for scale: expressions as trees, statements as
 * nodes, one undo record for each step, nothing proved. It prints what a step and its undo take, as mpd_bench does: the mean of ten
 * million, in nanoseconds.
 *
 *     gcc -O2 -o /tmp/plain bench/plain.c && /tmp/plain
 */
#include <stdint.h>
#include <stdio.h>
#include <stdlib.h>
#include <time.h>

enum { NUMBER, VARIABLE, BINARY };
enum { ADD, SUB, LESS };
enum { ASSIGN, LOOP };
enum { MOVED, ASSIGNED, TRAPPED };
enum { STEPS_MAX = 1000000 };

struct expr {
    int kind, op;
    int64_t value;
    int cell;
    const struct expr *left, *right;
};

struct node {
    int kind;
    const struct expr *expr;
    int cell, next, body;
};

struct rank {
    int node, trapped;
    int64_t *vars;
    int count;
};

struct record {
    int rank, from, kind, cell;
    int64_t was;
};

static struct node nodes[2];
static struct rank ranks[16];
static struct record *records;
static size_t depth, room;

static int eval(const struct expr *expr, const struct rank *rank, int64_t *value) {
    int64_t a, b;
    switch (expr->kind) {
    case NUMBER:
        *value = expr->value;
        return 0;
    case VARIABLE:
        if (expr->cell >= rank->count) return 1;
        *value = rank->vars[expr->cell];
        return 0;
    default:
        if (eval(expr->left, rank, &a) || eval(expr->right, rank, &b)) return 1;
        if (expr->op == ADD) return __builtin_add_overflow(a, b, value);
        if (expr->op == SUB) return __builtin_sub_overflow(a, b, value);
        *value = a < b;
        return 0;
    }
}

__attribute__((noinline)) static int step(int number) {
    struct rank *rank = &ranks[number];
    if (rank->trapped || rank->node < 0) return 1;
    if (depth >= STEPS_MAX) return 2;
    if (depth == room) {
        room = room ? room * 2 : 64;
        records = realloc(records, room * sizeof *records);
        if (!records) abort();
    }
    const struct node *node = &nodes[rank->node];
    struct record *record = &records[depth];
    *record = (struct record){.rank = number, .from = rank->node, .kind = MOVED};
    int64_t value;
    if (eval(node->expr, rank, &value)) {
        record->kind = TRAPPED;
        rank->trapped = 1;
    } else if (node->kind == ASSIGN) {
        record->kind = ASSIGNED;
        record->cell = node->cell;
        record->was = rank->vars[node->cell];
        rank->vars[node->cell] = value;
        rank->node = node->next;
    } else {
        rank->node = value ? node->body : node->next;
    }
    depth++;
    return 0;
}

__attribute__((noinline)) static int undo(void) {
    if (!depth) return 1;
    const struct record *record = &records[--depth];
    struct rank *rank = &ranks[record->rank];
    rank->node = record->from;
    rank->trapped = 0;
    if (record->kind == ASSIGNED) rank->vars[record->cell] = record->was;
    return 0;
}

static int there_and_back(int count) {
    for (int i = 0; i < count; i++)
        if (step(0)) return 1;
    for (int i = 0; i < count; i++)
        if (undo()) return 1;
    return 0;
}

static double now(void) {
    struct timespec time;
    clock_gettime(CLOCK_MONOTONIC, &time);
    return time.tv_sec + time.tv_nsec * 1e-9;
}

int main(void) {
    int64_t vars[1] = {0};
    struct expr one = {.kind = NUMBER, .value = 1}, variable = {.kind = VARIABLE};
    struct expr sum = {.kind = BINARY, .op = ADD, .left = &variable, .right = &one};
    ranks[0] = (struct rank){.vars = vars, .count = 1};
    nodes[0] = (struct node){.kind = LOOP, .expr = &one, .next = -1, .body = 1};
    nodes[1] = (struct node){.kind = ASSIGN, .expr = &sum, .cell = 0, .next = 0};
    for (int count = 1000; count <= 100000; count *= 10) {
        if (there_and_back(count)) return 1; /* once before it is measured, so that room is kept */
        double began = now();
        for (int turn = 0; turn < 10000000 / count; turn++)
            if (there_and_back(count)) return 1;
        printf("%d local steps: %.1f ns a step and its undo\n", count, (now() - began) * 1e9 / 10000000);
    }
    return vars[0] != 0;
}
