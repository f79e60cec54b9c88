/*
 * A plain explorer of scripts, for scale: it goes forward along decisions and back by undo records, as `mpdbg check` does, and
 * writes the same report. Nothing is proved. bench/check.py compiles it, runs it beside the program and compares the two.
 *
 * What a decision asks is kept as sets of ranks, a bit for each: which ranks can step, which can be woken, which receivers have a
 * receive of any source and which one of a named source, who has a message pending for whom. Each step and each undo keeps them,
 * so that a decision tests two or three numbers, and no rank is asked that has no part in it.
 *
 *     cc -O2 -o plain_explorer bench/plain_explorer.c && ./plain_explorer FILE [RUNS [FUEL]]
 *
 * On standard error it tells how many steps led to the leaves that it lists, and how many it took back. It runs in the mode
 * rendezvous and knows what the measured scripts have: no arrays, no barriers, no synchronous sends, no asserts, no prints. A trap
 * ends it with status 3, as does a script that it can't read. The status is 1 where it lists a deadlock, as the program's.
 */
#include <stdint.h>
#include <stdio.h>
#include <stdlib.h>
#include <string.h>

enum { RANKS_MAX = 16, NAMES_MAX = 64, NODES_MAX = 4096, EXPRS_MAX = 16384, NAME_SIZE = 65 };
enum { ANY = -1, NONE = -1 };

typedef enum { NUMBER, VARIABLE, RANK, SIZE, NEGATE, NOT, BINARY } expr_kind;
typedef enum { ADD, SUB, MUL, DIV, MOD, EQ, NE, LT, LE, GT, GE, AND, OR } operator;

struct expr {
    expr_kind kind;
    operator op;
    int64_t value;
    int cell;
    const struct expr *left, *right;
};

/* What a statement does. `other` is the destination or the source (none: any), `body` and `otherwise` are blocks. */
typedef enum { ASSIGN, IF, WHILE, SEND, RECV, WAIT } node_kind;

struct node {
    node_kind kind;
    int blocks, cell, handle, next, body, otherwise, source_cell, tag_cell;
    const struct expr *value, *other, *tag;
};

/* A call: its partner is in a pair with it, before and after are its neighbours in the list that it waits in. */
struct call {
    uint8_t kind;
    int8_t other, cell, source_cell, tag_cell, handle, partner_rank;
    int tag, target, partner, before, after;
    int64_t value;
};

struct list {
    int first, last;
};

/* A set of ranks: the bit of each of its own is 1. */
typedef uint16_t rank_set;

/* Ranks that have a local step, that are blocked on a complete call, and that are blocked at all. */
struct able {
    rank_set step, wake, blocked;
};

struct rank {
    int node;
    int64_t vars[NAMES_MAX];
    int handles[NAMES_MAX];
    struct call *calls;
    int count, room;
};

typedef enum { LOCAL, MATCH, WAKE } step_kind;

struct step {
    uint8_t kind, rank, other_rank;
    int index, other_index;
};

/* What takes a step back: who could go on, where the rank was, and what was overwritten. */
struct record {
    struct step step;
    struct able able;
    int8_t cell, handle, issued;
    int from, held;
    int64_t was, was_source, was_tag;
};

/* A choice that is open: the depth where it is, its candidates in the pool, and the one that is taken. */
struct open {
    int depth, first, count, index;
};

static struct expr exprs[EXPRS_MAX];
static struct node nodes[NODES_MAX];
static int expr_count, node_count, rank_count, var_count, req_count;
static char vars[NAMES_MAX][NAME_SIZE], reqs[NAMES_MAX][NAME_SIZE];

static struct rank ranks[RANKS_MAX];
static struct list pending[RANKS_MAX][RANKS_MAX], posted[RANKS_MAX];

/* Who can go on; of each receiver who has a message pending for it, and how many free receives it has, of a named source and of any;
 * the receivers for whom a message is pending, and those that have such a receive. */
static struct able able;
static rank_set senders[RANKS_MAX], awaited, receivers[2];
static int posted_count[2][RANKS_MAX];

static struct record *records;
static struct open *opens;
static struct step *pool;
static int depth, record_room, open_count, open_room, pool_count, pool_room;

static void fail(const char *why) {
    fprintf(stderr, "plain_explorer: %s\n", why);
    exit(3);
}

/* Room for one more of a growing array. */
static void *grown(void *items, int *room, size_t size) {
    *room = *room ? *room * 2 : 64;
    items = realloc(items, *room * size);
    if (!items) fail("memory");
    return items;
}

/* Reading. */

static const char *at;

static void skip(void) {
    for (;;) {
        while (*at && strchr(" \t\r\n", *at)) at++;
        if (*at != '#') return;
        while (*at && *at != '\n') at++;
    }
}

static int is_letter(char byte) {
    return byte == '_' || (byte >= 'a' && byte <= 'z') || (byte >= 'A' && byte <= 'Z');
}

static int is_digit(char byte) {
    return byte >= '0' && byte <= '9';
}

/* Takes a word or a sign where it is next. */
static int take(const char *text) {
    size_t size = strlen(text);
    skip();
    if (strncmp(at, text, size) != 0) return 0;
    if (is_letter(*text) && (is_letter(at[size]) || is_digit(at[size]))) return 0;
    at += size;
    return 1;
}

static void want(const char *text) {
    if (!take(text)) fail(text);
}

static void name(char *to) {
    int size = 0;
    skip();
    while ((is_letter(*at) || (size && is_digit(*at))) && size < NAME_SIZE - 1) to[size++] = *at++;
    to[size] = 0;
    if (!size) fail("a name is missing");
}

static int64_t number(void) {
    char *end;
    skip();
    int64_t value = strtoll(at, &end, 10);
    if (end == at) fail("a number is missing");
    at = end;
    return value;
}

/* The place of a name among those declared. */
static int found(char names[][NAME_SIZE], int count) {
    char own[NAME_SIZE];
    name(own);
    for (int i = 0; i < count; i++)
        if (strcmp(names[i], own) == 0) return i;
    fail("a name is not declared");
    return NONE;
}

static struct expr *expr_of(struct expr from) {
    if (expr_count == EXPRS_MAX) fail("too many expressions");
    exprs[expr_count] = from;
    return &exprs[expr_count++];
}

static const struct {
    const char *sign;
    operator op;
    int level;
} operators[] = {{"||", OR, 0}, {"&&", AND, 1}, {"==", EQ, 2}, {"!=", NE, 2}, {"<=", LE, 2}, {">=", GE, 2}, {"<", LT, 2},
                 {">", GT, 2},  {"+", ADD, 3},  {"-", SUB, 3}, {"*", MUL, 4}, {"/", DIV, 4}, {"%", MOD, 4}};

/* Takes an operator of a level where one is next. */
static int take_operator(int level, operator *op) {
    for (size_t i = 0; i < sizeof operators / sizeof *operators; i++)
        if (operators[i].level == level && take(operators[i].sign)) {
            *op = operators[i].op;
            return 1;
        }
    return 0;
}

static const struct expr *expr_at(int level);

static const struct expr *unary(void) {
    skip();
    if (take("-")) return expr_of((struct expr){.kind = NEGATE, .left = unary()});
    if (take("!")) return expr_of((struct expr){.kind = NOT, .left = unary()});
    if (is_digit(*at)) return expr_of((struct expr){.kind = NUMBER, .value = number()});
    if (take("rank")) return expr_of((struct expr){.kind = RANK});
    if (take("size")) return expr_of((struct expr){.kind = SIZE});
    if (take("(")) {
        const struct expr *inside = expr_at(0);
        want(")");
        return inside;
    }
    return expr_of((struct expr){.kind = VARIABLE, .cell = found(vars, var_count)});
}

static const struct expr *expr_at(int level) {
    operator op;
    if (level > 4) return unary();
    const struct expr *left = expr_at(level + 1);
    while (take_operator(level, &op)) {
        const struct expr *right = expr_at(level + 1);
        left = expr_of((struct expr){.kind = BINARY, .op = op, .left = left, .right = right});
    }
    return left;
}

static const struct expr *expr(void) {
    return expr_at(0);
}

/* An expression, or none where it is `any`. */
static const struct expr *expr_or_any(void) {
    return take("any") ? NULL : expr();
}

static struct node send_of(int blocks) {
    struct node node = {.kind = SEND, .blocks = blocks, .handle = blocks ? NONE : found(reqs, req_count)};
    node.value = expr();
    want("to");
    node.other = expr();
    want("tag");
    node.tag = expr();
    want(";");
    return node;
}

static struct node recv_of(int blocks) {
    struct node node = {.kind = RECV, .blocks = blocks, .handle = blocks ? NONE : found(reqs, req_count)};
    node.cell = found(vars, var_count);
    want("from");
    node.other = expr_or_any();
    want("tag");
    node.tag = expr_or_any();
    node.source_cell = node.tag_cell = NONE;
    if (take("status")) {
        node.source_cell = found(vars, var_count);
        node.tag_cell = found(vars, var_count);
    }
    want(";");
    return node;
}

static int statements(void);

static int block(void) {
    want("{");
    int first = statements();
    want("}");
    return first;
}

static struct node statement(void) {
    struct node node = {.kind = ASSIGN, .body = NONE, .otherwise = NONE};
    if (take("send")) return send_of(1);
    if (take("isend")) return send_of(0);
    if (take("recv")) return recv_of(1);
    if (take("irecv")) return recv_of(0);
    if (take("if") || take("while")) {
        node.kind = at[-1] == 'f' ? IF : WHILE;
        node.value = expr();
        node.body = block();
        if (node.kind == IF && take("else")) node.otherwise = block();
        return node;
    }
    if (take("wait")) {
        node.kind = WAIT;
        node.blocks = 1;
        node.handle = found(reqs, req_count);
    } else {
        node.cell = found(vars, var_count);
        want("=");
        node.value = expr();
    }
    want(";");
    return node;
}

/* Reads the statements of a block, each linked to the next of the same block, and answers the first. */
static int statements(void) {
    int first = NONE, last = NONE;
    for (skip(); *at && *at != '}'; skip()) {
        if (node_count == NODES_MAX) fail("too many statements");
        int own = node_count++;
        nodes[own] = statement();
        nodes[own].next = NONE;
        if (last == NONE) first = own;
        else nodes[last].next = own;
        last = own;
    }
    return first;
}

/* Links the statements of a block to what comes behind it, and answers where it begins. */
static int linked(int first, int behind) {
    for (int own = first, next; own != NONE; own = next) {
        struct node *node = &nodes[own];
        next = node->next;
        if (next == NONE) node->next = behind;
        if (node->kind == IF) {
            node->body = linked(node->body, node->next);
            node->otherwise = linked(node->otherwise, node->next);
        } else if (node->kind == WHILE) {
            node->body = linked(node->body, own);
        }
    }
    return first == NONE ? behind : first;
}

static void declarations(void) {
    for (;;) {
        int is_var = take("var");
        if (!is_var && !take("req")) return;
        int *count = is_var ? &var_count : &req_count;
        if (*count == NAMES_MAX) fail("too many names");
        name((is_var ? vars : reqs)[(*count)++]);
        want(";");
    }
}

/* Reads a script, and has every rank at its begin. */
static void read_script(const char *text) {
    at = text;
    want("mpd");
    if (number() != 1) fail("the version is 1");
    want(";");
    want("ranks");
    rank_count = (int)number();
    if (rank_count < 1 || rank_count > RANKS_MAX) fail("1 to 16 ranks");
    want(";");
    declarations();
    int first = linked(statements(), NONE);
    skip();
    if (*at) fail("a } too many");
    for (int p = 0; p < rank_count; p++) {
        ranks[p].node = first;
        for (int i = 0; i < NAMES_MAX; i++) ranks[p].handles[i] = NONE;
        if (first != NONE) able.step |= 1u << p;
        posted[p] = (struct list){NONE, NONE};
        for (int q = 0; q < rank_count; q++) pending[p][q] = (struct list){NONE, NONE};
    }
}

/* Values. */

static int64_t eval(const struct expr *expr, int p) {
    int64_t a, b, value;
    switch (expr->kind) {
    case NUMBER: return expr->value;
    case VARIABLE: return ranks[p].vars[expr->cell];
    case RANK: return p;
    case SIZE: return rank_count;
    case NEGATE:
        if (__builtin_sub_overflow(0, eval(expr->left, p), &value)) fail("a trap");
        return value;
    case NOT: return !eval(expr->left, p);
    case BINARY: break;
    }
    a = eval(expr->left, p);
    if (expr->op == AND && !a) return 0;
    if (expr->op == OR && a) return 1;
    b = eval(expr->right, p);
    switch (expr->op) {
    case ADD:
        if (__builtin_add_overflow(a, b, &value)) fail("a trap");
        return value;
    case SUB:
        if (__builtin_sub_overflow(a, b, &value)) fail("a trap");
        return value;
    case MUL:
        if (__builtin_mul_overflow(a, b, &value)) fail("a trap");
        return value;
    case DIV:
    case MOD:
        if (b == 0 || (b == -1 && a == INT64_MIN)) fail("a trap");
        return expr->op == DIV ? a / b : a % b;
    case EQ: return a == b;
    case NE: return a != b;
    case LT: return a < b;
    case LE: return a <= b;
    case GT: return a > b;
    case GE: return a >= b;
    case AND:
    case OR: return b != 0;
    }
    return 0;
}

static int rank_from(const struct expr *expr, int p) {
    if (!expr) return ANY;
    int64_t value = eval(expr, p);
    if (value < 0 || value >= rank_count) fail("a trap");
    return (int)value;
}

static int tag_from(const struct expr *expr, int p) {
    if (!expr) return ANY;
    int64_t value = eval(expr, p);
    if (value < 0 || value > 32767) fail("a trap");
    return (int)value;
}

/* Sets of ranks. */

static rank_set with(rank_set set, int p, int is_in) {
    return (rank_set)((set & ~(1u << p)) | ((unsigned)is_in << p));
}

static rank_set without(rank_set set, int p) {
    return with(set, p, 0);
}

static int has(rank_set set, int p) {
    return set >> p & 1;
}

/* The lowest rank of a set that has one. */
static int lowest(rank_set set) {
    return __builtin_ctz(set);
}

static rank_set without_lowest(rank_set set) {
    return set & (set - 1);
}

/* The lists that free calls wait in. */

static struct list *list_of(int p, const struct call *call) {
    return call->kind == SEND ? &pending[p][call->other] : &posted[p];
}

/* Has the sets agree with a list that a call joined or left: there are so many receives more. */
static void note_list(int p, const struct call *call, const struct list *list, int more) {
    if (call->kind == SEND) {
        int r = call->other;
        senders[r] = with(senders[r], p, list->first != NONE);
        awaited = with(awaited, r, senders[r] != 0);
    } else {
        int is_any = call->other == ANY;
        posted_count[is_any][p] += more;
        receivers[is_any] = with(receivers[is_any], p, posted_count[is_any][p] != 0);
    }
}

static void append(int p, int index) {
    struct call *calls = ranks[p].calls;
    struct list *list = list_of(p, &calls[index]);
    calls[index].before = list->last;
    calls[index].after = NONE;
    *(list->last == NONE ? &list->first : &calls[list->last].after) = index;
    list->last = index;
    note_list(p, &calls[index], list, 1);
}

/* Takes a call out of its list; it keeps its neighbours, so that it can be put between them again. */
static void unlink_call(int p, int index) {
    struct call *calls = ranks[p].calls, *call = &calls[index];
    struct list *list = list_of(p, call);
    *(call->before == NONE ? &list->first : &calls[call->before].after) = call->after;
    *(call->after == NONE ? &list->last : &calls[call->after].before) = call->before;
    note_list(p, call, list, -1);
}

static void put_again(int p, int index) {
    struct call *calls = ranks[p].calls, *call = &calls[index];
    struct list *list = list_of(p, call);
    *(call->before == NONE ? &list->first : &calls[call->before].after) = index;
    *(call->after == NONE ? &list->last : &calls[call->after].before) = index;
    note_list(p, call, list, 1);
}

static int fits(const struct call *recv, int sender, const struct call *send) {
    return (recv->other == ANY || recv->other == sender) && (recv->tag == ANY || recv->tag == send->tag);
}

/* The one send of a sender that is eligible with a receive: its first that fits, where no earlier receive fits that. */
static int candidate(int receiver, int index, int sender) {
    const struct call *recvs = ranks[receiver].calls, *sends = ranks[sender].calls;
    for (int s = pending[sender][receiver].first; s != NONE; s = sends[s].after) {
        if (!fits(&recvs[index], sender, &sends[s])) continue;
        for (int r = posted[receiver].first; r != index; r = recvs[r].after)
            if (fits(&recvs[r], sender, &sends[s])) return NONE;
        return s;
    }
    return NONE;
}

/* Decisions. */

static int is_complete(const struct rank *rank) {
    const struct call *call = &rank->calls[rank->count - 1];
    if (call->kind != WAIT) return call->partner != NONE;
    return call->target == NONE || rank->calls[call->target].partner != NONE;
}

/* A rank runs: it has a local step where a statement is left. */
static void note_running(int p) {
    able.step = with(able.step, p, ranks[p].node != NONE);
}

/* A rank is blocked on its last call, and can be woken where that is complete. */
static void note_blocked(int p) {
    able.step = without(able.step, p);
    able.blocked = with(able.blocked, p, 1);
    able.wake = with(able.wake, p, is_complete(&ranks[p]));
}

/* A call of a rank is paired, which may be blocked on it. */
static void note_paired(int p) {
    if (has(able.blocked, p) && is_complete(&ranks[p])) able.wake = with(able.wake, p, 1);
}

/* A rank goes on from what it was blocked on. */
static void note_woken(int p) {
    able.wake = without(able.wake, p);
    able.blocked = without(able.blocked, p);
    note_running(p);
}

/* The first match of a receiver's receives that name their source. */
static int named_match_at(int r, struct step *step) {
    const struct call *calls = ranks[r].calls;
    for (int i = posted[r].first; i != NONE; i = calls[i].after) {
        int sender = calls[i].other;
        int send = sender == ANY || !has(senders[r], sender) ? NONE : candidate(r, i, sender);
        if (send == NONE) continue;
        *step = (struct step){.kind = MATCH, .rank = (uint8_t)sender, .other_rank = (uint8_t)r, .index = send, .other_index = i};
        return 1;
    }
    return 0;
}

/* The step that nobody has to choose, where there is one. */
static int forced(struct step *step) {
    if (able.step) {
        *step = (struct step){.kind = LOCAL, .rank = (uint8_t)lowest(able.step)};
        return 1;
    }
    if (able.wake) {
        *step = (struct step){.kind = WAKE, .rank = (uint8_t)lowest(able.wake)};
        return 1;
    }
    for (rank_set left = receivers[0] & awaited; left; left = without_lowest(left))
        if (named_match_at(lowest(left), step)) return 1;
    return 0;
}

/* Puts the matches of a receive of any source into the pool. */
static void push_choices_with(int r, int i) {
    for (rank_set left = senders[r]; left; left = without_lowest(left)) {
        int s = lowest(left), send = candidate(r, i, s);
        if (send == NONE) continue;
        if (pool_count == pool_room) pool = grown(pool, &pool_room, sizeof *pool);
        pool[pool_count++] = (struct step){.kind = MATCH, .rank = (uint8_t)s, .other_rank = (uint8_t)r, .index = send, .other_index = i};
    }
}

/* Puts the matches of receives of any source into the pool, and answers how many they are. */
static int push_choices(void) {
    int begun = pool_count;
    for (rank_set left = receivers[1] & awaited; left; left = without_lowest(left)) {
        int r = lowest(left);
        for (int i = posted[r].first; i != NONE; i = ranks[r].calls[i].after)
            if (ranks[r].calls[i].other == ANY) push_choices_with(r, i);
    }
    return pool_count - begun;
}

/* Steps. */

static void issue(int p, const struct node *node, struct record *record) {
    struct rank *rank = &ranks[p];
    struct call call = {.kind = (uint8_t)node->kind, .cell = (int8_t)node->cell, .handle = (int8_t)node->handle, .partner = NONE,
                        .target = NONE, .source_cell = (int8_t)node->source_cell, .tag_cell = (int8_t)node->tag_cell};
    if (node->kind == WAIT) {
        call.target = rank->handles[node->handle];
    } else {
        if (node->kind == SEND) call.value = eval(node->value, p);
        call.other = (int8_t)rank_from(node->other, p);
        call.tag = tag_from(node->tag, p);
    }
    if (rank->count == rank->room) rank->calls = grown(rank->calls, &rank->room, sizeof *rank->calls);
    int index = rank->count++;
    rank->calls[index] = call;
    if (node->kind != WAIT) append(p, index);
    record->issued = 1;
    if (!node->blocks) {
        record->handle = (int8_t)node->handle;
        record->held = rank->handles[node->handle];
        rank->handles[node->handle] = index;
    }
}

static void local(int p, struct record *record) {
    struct rank *rank = &ranks[p];
    const struct node *node = &nodes[rank->node];
    record->from = rank->node;
    switch (node->kind) {
    case ASSIGN: {
        int64_t value = eval(node->value, p);
        record->cell = (int8_t)node->cell;
        record->was = rank->vars[node->cell];
        rank->vars[node->cell] = value;
        rank->node = node->next;
        break;
    }
    case IF: rank->node = eval(node->value, p) ? node->body : node->otherwise; break;
    case WHILE: rank->node = eval(node->value, p) ? node->body : node->next; break;
    default:
        issue(p, node, record);
        rank->node = node->next;
        if (node->blocks) {
            note_blocked(p);
            return;
        }
    }
    note_running(p);
}

static void set_partner(int p, int index, int other, int other_index) {
    ranks[p].calls[index].partner_rank = (int8_t)other;
    ranks[p].calls[index].partner = other_index;
}

static void pair(const struct step *step) {
    set_partner(step->rank, step->index, step->other_rank, step->other_index);
    set_partner(step->other_rank, step->other_index, step->rank, step->index);
    unlink_call(step->rank, step->index);
    unlink_call(step->other_rank, step->other_index);
    note_paired(step->rank);
    note_paired(step->other_rank);
}

static void unpair(const struct step *step) {
    put_again(step->other_rank, step->other_index);
    put_again(step->rank, step->index);
    set_partner(step->rank, step->index, NONE, NONE);
    set_partner(step->other_rank, step->other_index, NONE, NONE);
}

/* The receive that a wake writes for: the call that its rank is blocked on, or the target of the wait; none where it is a send. */
static const struct call *received(const struct rank *rank) {
    const struct call *call = &rank->calls[rank->count - 1];
    if (call->kind == WAIT) call = call->target == NONE ? NULL : &rank->calls[call->target];
    return call && call->kind == RECV ? call : NULL;
}

static void wake(int p, struct record *record) {
    struct rank *rank = &ranks[p];
    const struct call *call = &rank->calls[rank->count - 1], *recv = received(rank);
    note_woken(p);
    if (recv) {
        const struct call *send = &ranks[recv->partner_rank].calls[recv->partner];
        record->was = rank->vars[recv->cell];
        rank->vars[recv->cell] = send->value;
        if (recv->source_cell != NONE) {
            record->was_source = rank->vars[recv->source_cell];
            rank->vars[recv->source_cell] = recv->partner_rank;
            record->was_tag = rank->vars[recv->tag_cell];
            rank->vars[recv->tag_cell] = send->tag;
        }
    }
    if (call->kind == WAIT) {
        record->handle = call->handle;
        record->held = rank->handles[call->handle];
        rank->handles[call->handle] = NONE;
    }
}

static void undo_wake(int p) {
    struct rank *rank = &ranks[p];
    const struct call *recv = received(rank);
    const struct record *record = &records[depth];
    if (record->handle != NONE) rank->handles[record->handle] = record->held;
    if (!recv) return;
    if (recv->source_cell != NONE) {
        rank->vars[recv->tag_cell] = record->was_tag;
        rank->vars[recv->source_cell] = record->was_source;
    }
    rank->vars[recv->cell] = record->was;
}

static void apply(const struct step *step) {
    if (depth == record_room) records = grown(records, &record_room, sizeof *records);
    struct record *record = &records[depth++];
    record->step = *step;
    record->cell = record->handle = NONE;
    record->issued = 0;
    record->able = able;
    switch (step->kind) {
    case LOCAL: local(step->rank, record); return;
    case MATCH: pair(step); return;
    case WAKE: wake(step->rank, record); return;
    }
}

static void undo_local(const struct record *record) {
    struct rank *rank = &ranks[record->step.rank];
    rank->node = record->from;
    if (record->cell != NONE) rank->vars[record->cell] = record->was;
    if (!record->issued) return;
    if (record->handle != NONE) rank->handles[record->handle] = record->held;
    int index = rank->count - 1;
    if (rank->calls[index].kind != WAIT) unlink_call(record->step.rank, index);
    rank->count = index;
}

static void undo(void) {
    const struct record *record = &records[--depth];
    able = record->able;
    switch (record->step.kind) {
    case LOCAL: undo_local(record); return;
    case MATCH: unpair(&record->step); return;
    case WAKE: undo_wake(record->step.rank); return;
    }
}

/* The report. */

static char out[1 << 16];
static size_t out_size;
static int has_found;

static void flush_out(void) {
    if (fwrite(out, 1, out_size, stdout) != out_size) fail("device");
    out_size = 0;
}

static void put(const char *text) {
    size_t size = strlen(text);
    if (out_size + size > sizeof out) flush_out();
    memcpy(out + out_size, text, size);
    out_size += size;
}

static void put_number(long value) {
    char digits[24], *to = digits + sizeof digits;
    *--to = 0;
    do *--to = (char)('0' + value % 10);
    while (value /= 10);
    put(to);
}

static void put_call(int p, int index) {
    put(" ");
    put_number(p);
    put(".");
    put_number(index);
}

static void put_free(void) {
    for (int p = 0; p < rank_count; p++)
        for (int i = 0; i < ranks[p].count; i++)
            if (ranks[p].calls[i].kind != WAIT && ranks[p].calls[i].partner == NONE) put_call(p, i);
}

static void put_outcome(void) {
    if (able.blocked) {
        put("deadlock");
        has_found = 1;
        for (rank_set left = able.blocked; left; left = without_lowest(left)) put_call(lowest(left), ranks[lowest(left)].count - 1);
    } else if (awaited | receivers[0] | receivers[1]) {
        put("leftovers");
        put_free();
    } else {
        put("done");
    }
}

static void put_leaf(int leaf, int is_cut) {
    put("leaf ");
    put_number(leaf);
    put(" [");
    for (int i = 0; i < open_count; i++) {
        if (i) put(" ");
        put_number(opens[i].index);
    }
    put("] ");
    if (is_cut) put("cut");
    else put_outcome();
    put("\n");
}

/* The walk. */

static long steps, undos;

static void forward(const struct step *step) {
    apply(step);
    steps++;
}

static void back_to(int to) {
    undos += depth - to;
    while (depth > to) undo();
}

/* Goes down to a leaf, along first candidates, and answers whether the run is cut there. */
static int descend(int fuel) {
    for (;;) {
        struct step step;
        int is_forced = forced(&step), first = pool_count, count = is_forced ? 0 : push_choices();
        if (!is_forced && !count) return 0;
        if (depth == fuel) {
            pool_count = first;
            return 1;
        }
        if (!is_forced) {
            if (open_count == open_room) opens = grown(opens, &open_room, sizeof *opens);
            opens[open_count++] = (struct open){depth, first, count, 0};
            step = pool[first];
        }
        forward(&step);
    }
}

/* Goes back to the last choice that has a further candidate, and answers whether there is one. */
static int has_next(void) {
    while (open_count) {
        struct open *open = &opens[open_count - 1];
        if (open->index + 1 < open->count) return 1;
        pool_count = open->first;
        open_count--;
    }
    return 0;
}

static void explore(int runs, int fuel) {
    int leaves = 0, more = 1;
    while (more && leaves < runs) {
        put_leaf(leaves, descend(fuel));
        leaves++;
        more = has_next();
        if (!more || leaves == runs) break;
        struct open *open = &opens[open_count - 1];
        back_to(open->depth);
        open->index++;
        forward(&pool[open->first + open->index]);
    }
    back_to(0);
    put("leaves ");
    put_number(leaves);
    put(more ? " more yes\n" : " more no\n");
}

static char *content(const char *path) {
    static char text[65537];
    FILE *file = fopen(path, "rb");
    if (!file) fail("the file can't be opened");
    text[fread(text, 1, sizeof text - 1, file)] = 0;
    fclose(file);
    return text;
}

int main(int count, char **words) {
    if (count < 2) fail("FILE [RUNS [FUEL]]");
    read_script(content(words[1]));
    explore(count > 2 ? atoi(words[2]) : 1000, count > 3 ? atoi(words[3]) : 100000);
    flush_out();
    fprintf(stderr, "steps %ld undos %ld\n", steps, undos);
    return has_found;
}
