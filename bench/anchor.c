/* A plain checker of sheets without a Case, from documents 01 and 02: an anchor for the times beside it,
   of which nothing is proved. Left out: refusals 1, 2 and 32 (the buffers are as long as a call wants
   them), and the line of refusal 5. One call at a time, since its room is static. */
#include <setjmp.h>
#include <stdint.h>
#include <string.h>

enum { LINES = 2000, LINE = 29, ENTRIES = 512, NODES = 4096, NUMBERS = 1000, NAMES = 10000 };
enum { BOARD_WORDS = 12288, BOOK_WORDS = 11192, BOOK_BASE = 3000 };
enum { VAR = 11, CON, ARROW, FORALL, APP, PRODUCT, UNKNOWN, UNIVERSAL };
enum { INT = 1, BOOL, UNIT, PRINT_INT };
/* An entry; a TVar is the kind of its node. */
enum { IS_VAR = 2, IS_SUB, IS_INF, IS_CHK, IS_INF_APP };
enum { NO_PLAN = 5, OUTSIDE = 99 };

typedef struct { uint32_t kind, number; } Node;
typedef struct { uint32_t is, number, left, right; } Entry;
typedef struct { uint16_t kind, count, end; } Row;

/* The sheet: rows, the same lines as nodes, and the line of an entry's type by its name. */
static Row rows[LINES + 1];
static Node lines_[LINES];
static uint16_t entry[3][NAMES], bound[NAMES];
static uint8_t used[NAMES];
static uint32_t lines, quantified;
/* The board, types of taken entries, what is written out, and the run's numbers. */
static Entry entries[ENTRIES];
static Node board[NODES], taken_type[NODES], made[LINES];
static Node *report, *solutions;
static uint32_t *book, levels[NUMBERS];
static uint32_t height, board_nodes, fresh, solved_nodes, limit, strict, details[2], reported;
static jmp_buf halted;

static void refuse(int number, uint32_t first, uint32_t second) {
    details[0] = first;
    details[1] = second;
    longjmp(halted, number);
}

/* Document 01's table by kind: what a part of it is, its value, and the parts that follow. */
enum { TYPE = 1, TERM, OTHER };
enum { NONE, NAME, OPERATOR, LITERAL };
typedef struct { uint8_t sort, value, counted, types, terms; } Kind;
static const Kind kinds[31] = {
    [1] = {OTHER, NAME, 0, 1, 0},   [2] = {OTHER, NAME, 0, 1, 0},  [3] = {OTHER, NONE, 0, 1, 0},
    [4] = {OTHER, NONE, 0, 0, 1},   [11] = {TYPE, NAME, 0, 0, 0},  [12] = {TYPE, NAME, 0, 0, 0},
    [13] = {TYPE, NONE, 0, 2, 0},   [14] = {TYPE, NAME, 0, 1, 0},  [15] = {TYPE, NONE, 0, 2, 0},
    [16] = {TYPE, NONE, TYPE, 0, 0}, [21] = {TERM, NAME, 0, 0, 0}, [22] = {TERM, LITERAL, 0, 0, 0},
    [23] = {TERM, NAME, 0, 1, 1},   [24] = {TERM, NONE, 0, 0, 2},  [25] = {TERM, NAME, 0, 0, 1},
    [26] = {TERM, NAME, TERM, 0, 0}, [28] = {TERM, OPERATOR, 0, 0, 2}, [29] = {TERM, NONE, 0, 0, 3},
    [30] = {TERM, NAME, TERM, 0, 0}};

/* A field of a few bytes as a number; misspelt: -1. */
static inline int32_t few(const uint8_t *at, int length) {
    int i = 0;
    while (i < length - 1 && at[i] == ' ') i++;
    if (at[i] == '0' && i < length - 1) return -1;
    int32_t number = 0;
    for (; i < length; i++) {
        uint32_t digit = at[i] - '0';
        if (digit > 9) return -1;
        number = 10 * number + (int32_t)digit;
    }
    return number;
}

/* The same for a value: most have sixteen spaces and no sign. Of a literal only the spelling counts. */
static int64_t value_at(const uint8_t *at, int literal) {
    static const char spaces[17] = "                ";
    if (!memcmp(at, spaces, 16) && at[16] != '-' && at[17] != '-' && at[18] != '-') return few(at + 16, 4);
    int i = 0;
    while (i < 20 && at[i] == ' ') i++;
    int negative = literal && i < 20 && at[i] == '-';
    i += negative;
    int digits = 20 - i;
    if (digits == 0 || digits > 19 || (at[i] == '0' && (negative || digits > 1))) return -1;
    uint64_t number = 0;
    for (; i < 20; i++) {
        uint32_t digit = at[i] - '0';
        if (digit > 9) return -1;
        number = 10 * number + digit;
    }
    if (number > (uint64_t)INT64_MAX + negative) return -1;
    return literal ? 0 : (int64_t)number;
}

static int fits(const Kind *kind, int64_t value, int32_t count) {
    if (count > (kind->counted ? 99 : 0) || !kind->sort) return 0;
    switch (kind->value) {
    case NAME: return 1 <= value && value < NAMES;
    case OPERATOR: return 1 <= value && value <= 6;
    case NONE: return value == 0;
    default: return 1;
    }
}

/* Reads every line: 4 and the first misspelt one, or whether all are lines of sheets without a Case. */
static int read_lines(const uint8_t *sheet, uint32_t *line) {
    int fit = 1, inside = 1;
    quantified = 0;
    for (uint32_t i = 0; i < lines; i++, sheet += LINE) {
        int32_t kind = few(sheet, 3), count = few(sheet + 23, 5);
        int64_t value = value_at(sheet + 3, kind == 22);
        if ((kind | count) < 0 || value < 0 || sheet[28] != '\n') {
            *line = i + 1;
            return 4;
        }
        if (kind == 27 || kind > 40) inside = 0;
        fit &= kind <= 30 && fits(kinds + kind, value, count);
        quantified |= kind == FORALL || kind == 25;
        rows[i] = (Row){kind, count, 0};
        lines_[i] = (Node){kind, kind == PRODUCT ? (uint32_t)count : (uint32_t)value};
    }
    return !inside ? OUTSIDE : !fit ? NO_PLAN : 0;
}

/* The line after so many parts of a sort from a line on; 0 if they are not there. */
static inline uint32_t parts(uint32_t at, int sort, uint32_t count) {
    for (; at && count; count--) at = at < lines && kinds[rows[at].kind].sort == sort ? rows[at].end : 0;
    return at;
}

static int is_entry(uint32_t at) { return at < lines && (rows[at].kind == 1 || rows[at].kind == 2) && rows[at].end; }

/* The ends of all parts, from the last line up, and the entries by name. The expected type's line, or 0. */
static uint32_t read_plan(void) {
    for (uint32_t i = lines; i-- > 0;) {
        const Kind *kind = kinds + rows[i].kind;
        uint32_t at = parts(i + 1, TYPE, kind->types);
        at = parts(at, TERM, kind->terms);
        rows[i].end = parts(at, kind->counted, rows[i].count);
    }
    uint32_t at = 0, kind = 1, last = 0;
    for (; is_entry(at); at = rows[at].end) {
        if (rows[at].kind < kind || (rows[at].kind == kind && lines_[at].number <= last)) return 0;
        kind = rows[at].kind;
        last = lines_[at].number;
        entry[kind][last] = at + 1;
    }
    if (at >= lines || rows[at].kind != 3 || !rows[at].end) return 0;
    uint32_t goal = rows[at].end;
    return goal < lines && rows[goal].kind == 4 && rows[goal].end == lines ? at + 1 : 0;
}

static void forget_entries(void) {
    for (uint32_t at = 0; is_entry(at); at = rows[at].end) entry[rows[at].kind][lines_[at].number] = 0;
}

static int has_quantifier(uint32_t at, uint32_t end) {
    for (; at < end; at++)
        if (rows[at].kind == FORALL || rows[at].kind == 25) return 1;
    return 0;
}

static int is_plain(uint32_t expected) {
    if (!quantified) return 1;
    if (has_quantifier(expected, lines)) return 0;
    uint32_t term = rows[expected].end + 1, plain = 1;
    for (uint32_t i = term; i < lines; i++)
        if (rows[i].kind == 21 || rows[i].kind == 26) used[lines_[i].number] = 1;
    for (uint32_t at = 0; at + 1 < expected; at = rows[at].end)
        if (used[lines_[at].number] && has_quantifier(at, rows[at].end)) plain = 0;
    for (uint32_t i = term; i < lines; i++)
        if (rows[i].kind == 21 || rows[i].kind == 26) used[lines_[i].number] = 0;
    return plain;
}

static void push(uint32_t is, uint32_t number, const Node *l, uint32_t ln, const Node *r, uint32_t rn) {
    if (height == ENTRIES || board_nodes + ln + rn > NODES) refuse(22, 0, 0);
    entries[height++] = (Entry){is, number, ln, rn};
    memcpy(board + board_nodes, l, ln * sizeof(Node));
    memcpy(board + board_nodes + ln, r, rn * sizeof(Node));
    board_nodes += ln + rn;
}

static void push_tvar(Node node) { push(node.kind, node.number, board, 0, board, 0); }

static Node make(uint32_t kind, uint32_t level) {
    if (fresh == NUMBERS) refuse(24, 0, 0);
    levels[fresh] = level;
    return (Node){kind, fresh++};
}

static Node make_pushed(void) {
    Node a = make(UNKNOWN, fresh);
    push_tvar(a);
    return a;
}

static void solve(uint32_t x, const Node *type, uint32_t n) {
    if (solved_nodes + n > NODES) refuse(25, 0, 0);
    book[3 * x] = BOOK_BASE + 2 * solved_nodes;
    book[3 * x + 1] = n;
    memcpy(solutions + solved_nodes, type, n * sizeof(Node));
    solved_nodes += n;
    for (uint32_t i = 0; i < n; i++)
        if (type[i].kind == UNKNOWN && levels[type[i].number] > levels[x]) levels[type[i].number] = levels[x];
}

static uint32_t write_out(const Node *type, uint32_t n, Node *out, uint32_t at) {
    for (uint32_t i = 0; i < n; i++) {
        if (type[i].kind == UNKNOWN && book[3 * type[i].number + 1]) {
            const uint32_t *place = book + 3 * type[i].number;
            at = write_out((const Node *)(book + place[0]), place[1], out, at);
        } else {
            if (at == limit) refuse(23, 0, 0);
            out[at++] = type[i];
        }
    }
    return at;
}

/* How many nodes the first type has. */
static uint32_t first(const Node *type) {
    uint32_t n = 0;
    for (uint32_t due = 1; due; n++) {
        uint32_t kind = type[n].kind;
        due += (kind == ARROW || kind == APP ? 2 : kind == FORALL ? 1 : kind == PRODUCT ? type[n].number : 0) - 1;
    }
    return n;
}

/* In place; the body of a Forall of that name is left alone. */
static void substitute(Node *type, uint32_t n, uint32_t name, Node by) {
    for (uint32_t i = 0; i < n; i++) {
        if (type[i].number != name) continue;
        if (type[i].kind == VAR) type[i] = by;
        if (type[i].kind == FORALL) i += first(type + i + 1);
    }
}

static int occurs(uint32_t x, const Node *type, uint32_t n) {
    for (uint32_t i = 0; i < n; i++)
        if (type[i].kind == UNKNOWN && type[i].number == x) return 1;
    return 0;
}

/* The height of the newest TVar of an unknown; none: 0. */
static uint32_t place(uint32_t x) {
    uint32_t i = height;
    while (i && !(entries[i - 1].is == UNKNOWN && entries[i - 1].number == x)) i--;
    return i;
}

static int before(uint32_t x, uint32_t y) {
    uint32_t at = place(x);
    return at && at < place(y);
}

/* The type moves to the front of the report. */
static void refuse_type(int number, uint32_t detail, const Node *type, uint32_t n) {
    memmove(report, type, n * sizeof(Node));
    reported = n;
    if (number == 13) refuse(13, n, 0);
    refuse(number, detail, n);
}

static void push_sub(const Node *l, uint32_t ln, const Node *r, uint32_t rn) { push(IS_SUB, 0, l, ln, r, rn); }

static void solve_monotype(uint32_t x, const Node *type, uint32_t n) {
    int in_scope = 1;
    for (uint32_t i = 0; i < n; i++) {
        if (type[i].kind == FORALL) refuse_type(17, x, type, n);
        if (type[i].kind == UNIVERSAL && type[i].number > levels[x]) in_scope = 0;
    }
    if (strict && !in_scope) refuse(39, 0, 0);
    solve(x, type, n);
}

/* The unknown x, on the left or the right, with a written-out type. */
static void instantiate(int left, uint32_t x, const Node *type, uint32_t n) {
    Node self = {UNKNOWN, x};
    if (type->kind == UNKNOWN && before(x, type->number)) return solve(type->number, &self, 1);
    if (type->kind != ARROW && type->kind != APP) return solve_monotype(x, type, n);
    uint32_t m = first(type + 1), rest = n - 1 - m;
    Node a = make(UNKNOWN, levels[x]), b = make(UNKNOWN, levels[x]), pair[3] = {*type, a, b};
    const Node *one = type + 1, *two = one + m;
    solve(x, pair, 3);
    push_tvar(a);
    push_tvar(b);
    if (left == (type->kind == APP)) push_sub(&a, 1, one, m);
    else push_sub(one, m, &a, 1);
    if (left) push_sub(&b, 1, two, rest);
    else push_sub(two, rest, &b, 1);
}

static void subtype(const Node *types, uint32_t ln, uint32_t rn) {
    uint32_t n = write_out(types, ln, report, 0);
    Node *l = report, *r = report + n;
    uint32_t m = write_out(types + ln, rn, r, 0);
    if (n == m && !memcmp(l, r, n * sizeof(Node))) return;
    if (l->kind == r->kind && (l->kind == ARROW || l->kind == APP)) {
        uint32_t a = first(l + 1), b = first(r + 1);
        if (l->kind == ARROW) push_sub(r + 1, b, l + 1, a);
        else push_sub(l + 1, a, r + 1, b);
        return push_sub(l + 1 + a, n - 1 - a, r + 1 + b, m - 1 - b);
    }
    if (r->kind == FORALL) {
        Node u = make(UNIVERSAL, 0);
        push_tvar(u);
        substitute(r + 1, m - 1, r->number, u);
        return push_sub(l, n, r + 1, m - 1);
    }
    if (l->kind == FORALL) {
        Node a = make_pushed();
        push_tvar(a);
        substitute(l + 1, n - 1, l->number, a);
        return push_sub(l + 1, n - 1, r, m);
    }
    if (l->kind == UNKNOWN && !occurs(l->number, r, m)) return instantiate(1, l->number, r, m);
    if (r->kind == UNKNOWN && !occurs(r->number, l, n)) return instantiate(0, r->number, l, n);
    reported = n + m;
    refuse(15, n, m);
}

static void infer_application(uint32_t line, const Node *types, uint32_t fn, uint32_t tn) {
    uint32_t n = write_out(types, fn, report, 0);
    Node *f = report, *t = report + n;
    uint32_t m = write_out(types + fn, tn, t, 0);
    if (f->kind == ARROW) {
        uint32_t a = first(f + 1);
        push_sub(f + 1 + a, n - 1 - a, t, m);
        push(IS_CHK, line, f + 1, a, f, 0);
    } else if (f->kind == FORALL) {
        Node a = make_pushed();
        substitute(f + 1, n - 1, f->number, a);
        push(IS_INF_APP, line, f + 1, n - 1, t, m);
    } else if (f->kind == UNKNOWN) {
        uint32_t x = f->number;
        Node a = make(UNKNOWN, levels[x]), b = make(UNKNOWN, levels[x]), pair[3] = {{ARROW, 0}, a, b};
        push_tvar(a);
        push_tvar(b);
        solve(x, pair, 3);
        push_sub(&b, 1, t, m);
        push(IS_CHK, line, &a, 1, f, 0);
    } else {
        refuse_type(13, 0, f, n);
    }
}

static void infer_variable(uint32_t name, const Node *t, uint32_t tn) {
    uint32_t at = entry[2][name];
    if (!at) {
        uint32_t node = board_nodes;
        for (uint32_t i = height; i-- > 0;) {
            node -= entries[i].left + entries[i].right;
            if (entries[i].is == IS_VAR && entries[i].number == name)
                return push_sub(board + node, entries[i].left, t, tn);
        }
        at = entry[1][name];
    }
    if (!at) refuse(11, name, 0);
    push_sub(lines_ + at, rows[at].end - at, t, tn);
}

/* A constructor's type with an unknown for each quantifier at its front; of a name twice, the later one. */
static void infer_constructor(uint32_t name, const Node *t, uint32_t tn) {
    uint32_t at = entry[1][name], n = 0, base = fresh;
    if (!at) refuse(12, name, 0);
    uint32_t end = rows[at].end, body = at;
    for (; lines_[body].kind == FORALL; body++) make_pushed();
    for (uint32_t i = at; i < body; i++) bound[lines_[i].number] = i - at + 1;
    for (uint32_t i = body; i < end; i++) {
        uint32_t found = lines_[i].kind == VAR ? bound[lines_[i].number] : 0;
        made[n++] = found ? (Node){UNKNOWN, base + found - 1} : lines_[i];
    }
    for (uint32_t i = at; i < body; i++) bound[lines_[i].number] = 0;
    push_sub(made, n, t, tn);
}

static void infer(uint32_t line, const Node *t, uint32_t tn) {
    static const Node constants[4] = {{CON, 0}, {CON, INT}, {CON, BOOL}, {CON, UNIT}};
    const Node *integer = constants + INT;
    uint32_t value = lines_[line].number, one = line + 1, two = rows[one].end;
    switch (rows[line].kind) {
    case 21: return infer_variable(value, t, tn);
    case 22: return push_sub(integer, 1, t, tn);
    case 23: {
        Node b = make_pushed();
        uint32_t n = two - one;
        made[0] = (Node){ARROW, 0};
        memcpy(made + 1, lines_ + one, n * sizeof(Node));
        made[n + 1] = b;
        push_sub(made, n + 2, t, tn);
        push(IS_VAR, value, made + 1, n, t, 0);
        return push(IS_INF, two, &b, 1, t, 0);
    }
    case 24: {
        Node a = make_pushed();
        push(IS_INF_APP, two, &a, 1, t, tn);
        return push(IS_INF, one, &a, 1, t, 0);
    }
    case 25: {
        Node b = make_pushed(), type[2] = {{FORALL, value}, b};
        push_sub(type, 2, t, tn);
        push_tvar((Node){VAR, value});
        return push(IS_INF, one, &b, 1, t, 0);
    }
    case 26: return infer_constructor(value, t, tn);
    case 28:
        push(IS_CHK, one, integer, 1, t, 0);
        push(IS_CHK, two, integer, 1, t, 0);
        return push_sub(constants + (value <= 4 ? INT : BOOL), 1, t, tn);
    case 29:
        push(IS_CHK, one, constants + BOOL, 1, t, 0);
        push(IS_CHK, two, t, tn, t, 0);
        return push(IS_CHK, rows[two].end, t, tn, t, 0);
    default:
        if (value != PRINT_INT) refuse(19, value, 0);
        if (rows[line].count != 1) refuse(18, 1, rows[line].count);
        push(IS_CHK, one, integer, 1, t, 0);
        return push_sub(constants + UNIT, 1, t, tn);
    }
}

static void check(uint32_t line, Node *t, uint32_t tn) {
    if (t->kind == ARROW && rows[line].kind == 23) {
        uint32_t a = first(t + 1), type = line + 1, body = rows[type].end;
        push_sub(lines_ + type, body - type, t + 1, a);
        push(IS_VAR, lines_[line].number, lines_ + type, body - type, t, 0);
        push(IS_CHK, body, t + 1 + a, tn - 1 - a, t, 0);
    } else if (t->kind == FORALL) {
        Node u = make(UNIVERSAL, 0);
        push_tvar(u);
        substitute(t + 1, tn - 1, t->number, u);
        push(IS_CHK, line, t + 1, tn - 1, t, 0);
    } else {
        Node a = make_pushed();
        push_sub(&a, 1, t, tn);
        push(IS_INF, line, &a, 1, t, 0);
    }
}

/* Takes an entry. The types of an Inf or a Chk are copied, since pushes write over them. */
static void step(void) {
    Entry e = entries[--height];
    board_nodes -= e.left + e.right;
    Node *types = board + board_nodes;
    if (e.is == IS_SUB) return subtype(types, e.left, e.right);
    if (e.is == IS_INF_APP) return infer_application(e.number, types, e.left, e.right);
    if (e.is != IS_INF && e.is != IS_CHK) return;
    memcpy(taken_type, types, e.left * sizeof(Node));
    if (e.is == IS_INF) infer(e.number, taken_type, e.left);
    else check(e.number, taken_type, e.left);
}

static int run(uint32_t expected, uint32_t ceiling, uint32_t *taken) {
    int number = setjmp(halted);
    if (number) return number;
    push(IS_CHK, rows[expected].end + 1, lines_ + expected, rows[expected].end - expected, lines_, 0);
    for (; height; step())
        if ((*taken)++ == ceiling) return --*taken, 21;
    return 0;
}

/* The seven numbers; 99 for a sheet with a Case. */
uint32_t anchor_check(const uint8_t *sheet, size_t length, uint32_t ceiling, uint32_t limit_, uint32_t strict_,
                      uint32_t *board_words, uint32_t *book_words, uint32_t *report_words, uint32_t seven[7]) {
    memset(seven, 0, 7 * sizeof *seven);
    if (length == 0 || length > LINE * LINES || length % LINE) return seven[0] = 3;
    lines = length / LINE;
    uint32_t number = read_lines(sheet, seven + 1);
    if (number) return seven[0] = number;
    uint32_t expected = read_plan();
    if (expected) {
        book = book_words;
        solutions = (Node *)(book + BOOK_BASE);
        report = (Node *)report_words;
        limit = limit_;
        strict = strict_;
        height = board_nodes = fresh = solved_nodes = reported = details[0] = details[1] = 0;
        memset(board_words, 0, BOARD_WORDS * sizeof *board_words);
        memset(book, 0, BOOK_WORDS * sizeof *book);
        number = run(expected, ceiling, seven + 2);
        memset(report + reported, 0, (2 * limit - reported) * sizeof(Node));
        for (uint32_t i = 0; i < fresh; i++) book[3 * i + 2] = levels[i];
        seven[3] = fresh;
        seven[4] = details[0];
        seven[5] = details[1];
        seven[6] = is_plain(expected);
    }
    forget_entries();
    return seven[0] = expected ? number : NO_PLAN;
}
