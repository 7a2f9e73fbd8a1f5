// The public functions once more in plain C, as a careful writer would have them: what the proved ones are
// measured against. Half rows, members by trailing zeros, tables made once; the table of compositions is
// worked out from the meaning of the relations.
#include "measured.h"

compose_function c_compose;
quick_close_function c_quick_close;
plain_close_function c_plain_close;
find_placing_function c_find_placing;
read_sheet_function c_read_sheet;
place_function c_place;

void *memcpy(void *, const void *, u64);

// ---- relations and sets

static u16 low[13][64], high[13][128], turned[8192];
static u8 exchanged[13];
// an example of each relation: the ends of the first event, and of the second
static int shown[13][4];

static int relation_of(int a, int b, int c, int d) {
    if (b < c) return 0;
    if (d < a) return 1;
    if (b == c) return 2;
    if (d == a) return 3;
    if (a < c && b < d) return 4;
    if (c < a && d < b) return 5;
    if (a == c && b < d) return 6;
    if (a == c && d < b) return 7;
    if (c < a && b < d) return 8;
    if (a < c && d < b) return 9;
    if (c < a && b == d) return 10;
    if (a < c && b == d) return 11;
    return 12;
}

// Once, when the program is loaded.
__attribute__((constructor)) static void make_tables(void) {
    static u16 table[13][13];
    for (int a = 0; a < 6; a++) for (int b = a + 1; b < 6; b++)
    for (int c = 0; c < 6; c++) for (int d = c + 1; d < 6; d++) {
        int r = relation_of(a, b, c, d);
        exchanged[r] = relation_of(c, d, a, b);
        shown[r][0] = a; shown[r][1] = b; shown[r][2] = c; shown[r][3] = d;
        for (int e = 0; e < 6; e++) for (int f = e + 1; f < 6; f++)
            table[r][relation_of(c, d, e, f)] |= 1 << relation_of(a, b, e, f);
    }
    for (int r = 0; r < 13; r++) {
        for (int s = 0; s < 64; s++) for (int q = 0; q < 6; q++) if (s >> q & 1) low[r][s] |= table[r][q];
        for (int s = 0; s < 128; s++) for (int q = 0; q < 7; q++) if (s >> q & 1) high[r][s] |= table[r][6 + q];
    }
    for (int s = 0; s < 8192; s++) for (int q = 0; q < 13; q++) if (s >> q & 1) turned[s] |= 1 << exchanged[q];
}

static inline u16 compose(u16 a, u16 b) {
    u16 c = 0;
    for (; a; a &= a - 1) {
        int r = __builtin_ctz(a);
        c |= low[r][b & 63] | high[r][b >> 6];
    }
    return c;
}

// What a route with the sets a and b leaves of a set. The eq of b allows all of a at once. Most routes allow all of
// the set, and that shows early.
static inline u16 left_by(u16 old, u16 a, u16 b) {
    u16 c = b & EQ ? a : 0;
    for (; a; a &= a - 1) {
        int r = __builtin_ctz(a);
        c |= low[r][b & 63] | high[r][b >> 6];
        if (!(old & ~c)) return old;
    }
    return old & c;
}

// ---- answers

static u64 coded(u64 kind, u32 value) { return kind << 32 | value; }

enum { DONE, NOTHING, STOPPED, REFUSED };

u64 c_compose(u16 a, u16 b) {
    if (a > ALL || b > ALL) return coded(REFUSED, 3);
    return coded(DONE, compose(a, b));
}

// ---- judging a grid: the number of its refusal, or 0

static u32 size_refusal(u64 cells, u64 n) {
    if (n > MOST) return 1;
    return cells != n * n ? 2 : 0;
}

// With sets and diagonal as they should be, the cells above the diagonal tell whether all are mirrored.
static u32 cell_refusal(const u16 *g, int n) {
    int large = 0;
    // The tests over all cells go on to the end, so that eight cells are looked at together.
    for (int p = 0; p < n * n; p++) large |= g[p] > ALL;
    if (large) return 3;
    for (int i = 0; i < n; i++) if (g[i * n + i] != EQ) return 4;
    for (int i = 0; i < n; i++) for (int j = i + 1; j < n; j++) if (g[j * n + i] != turned[g[i * n + j]]) return 5;
    return 0;
}

static int some_empty(const u16 *g, int n) {
    int empty = 0;
    for (int p = 0; p < n * n; p++) empty |= !g[p];
    return empty;
}

static void clear(u16 *g, int n) {
    for (int p = 0; p < n * n; p++) g[p] = 0;
}

// ---- quick closing

struct line { u16 ring[CELLS]; u8 waits[CELLS]; u32 head, len; };

// One waiting list is enough, as no two runs of takes overlap. Every run leaves it empty.
static struct line waiting;

static void join(struct line *l, int a, int b) {
    int p = a < b ? a * 32 + b : b * 32 + a;
    if (l->waits[p]) return;
    l->waits[p] = 1;
    l->ring[(l->head + l->len++) % CELLS] = p;
}

// Removes the first pair.
static int first_of(struct line *l) {
    int p = l->ring[l->head];
    l->waits[p] = 0;
    l->head = (l->head + 1) % CELLS;
    l->len--;
    return p;
}

// Cuts (a, b) to what (a, m) with (m, b) allows: whether something is left.
static int cut(u16 *g, int n, struct line *l, int a, int m, int b) {
    u16 old = g[a * n + b], new = left_by(old, g[a * n + m], g[m * n + b]);
    if (new == old) return 1;
    if (!new) return 0;
    g[a * n + b] = new;
    g[b * n + a] = turned[new];
    join(l, a, b);
    return 1;
}

// One take: whether nothing became empty. Where nothing is said of i to j, it changes nothing.
static int take(u16 *g, int n, struct line *l, int i, int j) {
    if (g[i * n + j] == ALL) return 1;
    for (int k = 0; k < n; k++) {
        if (k == i || k == j) continue;
        if (!cut(g, n, l, i, j, k) || !cut(g, n, l, k, i, j)) return 0;
    }
    return 1;
}

// Takes until none waits or the limit is reached: DONE, NOTHING or STOPPED, with the takes.
static u64 takes(u16 *g, int n, struct line *l, u64 limit) {
    u64 t = 0, kind = DONE;
    for (; l->len && kind == DONE; t++) {
        if (t == limit) { kind = STOPPED; break; }
        int p = first_of(l);
        if (!take(g, n, l, p / 32, p % 32)) kind = NOTHING;
    }
    while (l->len) first_of(l);
    return coded(kind, t);
}

static u64 close_all(u16 *g, int n, u64 limit) {
    for (int i = 0; i < n; i++) for (int j = i + 1; j < n; j++) join(&waiting, i, j);
    return takes(g, n, &waiting, limit);
}

u64 c_quick_close(u16 *g, u64 cells, u64 n, u64 limit) {
    u32 why = size_refusal(cells, n);
    if (!why) why = cell_refusal(g, n);
    if (why) return coded(REFUSED, why);
    u64 end = some_empty(g, n) ? coded(NOTHING, 0) : close_all(g, n, limit);
    if (end >> 32 == NOTHING) clear(g, n);
    return end;
}

// ---- plain closing

// One sweep over all routes: 1 where something changed, 0 where not, -1 where a cell became empty. Where nothing is
// said of m to b, no route over m to b changes anything, and a route over a itself never does.
static int sweep(u16 *g, int n) {
    int changed = 0;
    for (int b = 0; b < n; b++) for (int m = 0; m < n; m++) {
        u16 half = g[m * n + b];
        if (m == b || half == ALL) continue;
        for (int a = 0; a < b; a++) {
            u16 old = g[a * n + b], new = left_by(old, g[a * n + m], half);
            if (new == old) continue;
            if (!new) return -1;
            g[a * n + b] = new;
            g[b * n + a] = turned[new];
            changed = 1;
        }
    }
    return changed;
}

u64 c_plain_close(u16 *g, u64 cells, u64 n) {
    u32 why = size_refusal(cells, n);
    if (!why) why = cell_refusal(g, n);
    if (why) return coded(REFUSED, why);
    int changed = some_empty(g, n) ? -1 : 1;
    while (changed == 1) changed = sweep(g, n);
    if (!changed) return coded(DONE, 0);
    clear(g, n);
    return coded(NOTHING, 0);
}

// ---- looking for a placing

static u32 tries, allowed;

static int attempt(u16 *g, int n, int i, int j, int r) {
    g[i * n + j] = 1 << r;
    g[j * n + i] = 1 << exchanged[r];
    join(&waiting, i, j);
    return takes(g, n, &waiting, ENOUGH) >> 32 == DONE;
}

// The placing without gaps of a decided grid, if it meets every cell.
static int settle(const u16 *g, int n, int *room) {
    int before[2 * MOST], rank[2 * MOST], there[2 * MOST + 1] = {0};
    for (int e = 0; e < 2 * n; e++) {
        before[e] = 0;
        for (int f = 0; f < 2 * n; f++) {
            const int *x = shown[__builtin_ctz(g[e / 2 * n + f / 2])];
            if (x[2 + f % 2] < x[e % 2]) before[e]++;
        }
        there[before[e]] = 1;
    }
    for (int e = 0; e < 2 * n; e++) {
        rank[e] = 0;
        for (int v = 0; v < before[e]; v++) rank[e] += there[v];
    }
    for (int i = 0; i < n; i++) for (int j = 0; j < n; j++)
        if (!(g[i * n + j] >> relation_of(rank[2 * i], rank[2 * i + 1], rank[2 * j], rank[2 * j + 1]) & 1)) return 0;
    for (int e = 0; e < 2 * n; e++) room[e] = rank[e];
    return 1;
}

static int look(const u16 *g, int n, int i, int j, int *room) {
    if (j >= n) { i++; j = i + 1; }
    if (j >= n) return settle(g, n, room) ? DONE : NOTHING;
    for (u16 set = g[i * n + j], all = set; set; set &= set - 1) {
        u16 work[CELLS];
        if (tries == allowed) return STOPPED;
        tries++;
        // A relation that is there alone cuts nothing, and the grid is closed already.
        if (!(all & (all - 1))) return look(g, n, i, j + 1, room);
        memcpy(work, g, 2 * n * n);
        if (!attempt(work, n, i, j, __builtin_ctz(set))) continue;
        int below = look(work, n, i, j + 1, room);
        if (below != NOTHING) return below;
    }
    return NOTHING;
}

static u64 find(const u16 *g, int n, u32 allowance, int *room) {
    u16 work[CELLS];
    tries = 0;
    allowed = allowance;
    if (some_empty(g, n)) return coded(NOTHING, 0);
    memcpy(work, g, 2 * n * n);
    if (close_all(work, n, ENOUGH) >> 32 != DONE) return coded(NOTHING, 0);
    int end = look(work, n, 0, 1, room);
    return coded(end, tries);
}

u64 c_find_placing(const u16 *g, u64 cells, u64 n, u32 allowance, int *room, u64 numbers) {
    u32 why = size_refusal(cells, n);
    if (!why && numbers != 2 * n) why = 6;
    if (!why) why = cell_refusal(g, n);
    if (why) return coded(REFUSED, why);
    return find(g, n, allowance, room);
}

// ---- sheets

struct part { const u8 *at; u64 len; };

struct sheet { u64 n; struct part name[MOST]; u16 grid[CELLS]; };

// The lines of a sheet, one after the other, and the number of the line last asked for.
struct lines { const u8 *s; u64 bytes, at; u32 number; };

// The next line without its LF. A missing line and one without LF are refused alike.
static int next_line(struct lines *ls, struct part *line) {
    u64 end = ls->at;
    ls->number++;
    while (end < ls->bytes && ls->s[end] != '\n') end++;
    if (end == ls->bytes) return 0;
    line->at = ls->s + ls->at;
    line->len = end - ls->at;
    ls->at = end + 1;
    return 1;
}

// A decimal number without leading zeros; a thousand and more is a thousand, and what is none -1.
static int decimal(struct part f) {
    int value = 0;
    if (!f.len || (f.at[0] == '0' && f.len > 1)) return -1;
    for (u64 k = 0; k < f.len; k++) {
        if (f.at[k] < '0' || f.at[k] > '9') return -1;
        value = value * 10 + f.at[k] - '0';
        if (value > 1000) value = 1000;
    }
    return value;
}

static int is_name(struct part f) {
    if (f.len < 1 || f.len > 16) return 0;
    for (u64 k = 0; k < f.len; k++) {
        u8 x = f.at[k];
        if (!((x >= 'a' && x <= 'z') || (x >= '0' && x <= '9'))) return 0;
    }
    return 1;
}

static int same(struct part a, struct part b) {
    if (a.len != b.len) return 0;
    for (u64 k = 0; k < a.len; k++) if (a.at[k] != b.at[k]) return 0;
    return 1;
}

// The place of a byte from a place on, or the end.
static u64 place_of(struct part f, u64 from, u8 byte) {
    while (from < f.len && f.at[from] != byte) from++;
    return from;
}

static struct part between(struct part f, u64 from, u64 to) { return (struct part){f.at + from, to - from}; }

// The two fields of a line. A second space stands in the second field, where no form allows it.
static int two_fields(struct part line, struct part *first, struct part *second) {
    u64 space = place_of(line, 0, ' ');
    if (space == line.len) return 0;
    *first = between(line, 0, space);
    *second = between(line, space + 1, line.len);
    return 1;
}

static const struct { u8 text[10]; u8 len; u16 set; } words[17] = {
    {"b", 1, 1}, {"bi", 2, 2}, {"m", 1, 4}, {"mi", 2, 8}, {"o", 1, 16}, {"oi", 2, 32}, {"s", 1, 64}, {"si", 2, 128},
    {"d", 1, 256}, {"di", 2, 512}, {"f", 1, 1024}, {"fi", 2, 2048}, {"eq", 2, EQ}, {"any", 3, ALL},
    {"meanwhile", 9, ALL - 15}, {"within", 6, 256}, {"until", 5, 4},
};

// The set of a word, or 0 for no word.
static u16 word(struct part f) {
    for (int w = 0; w < 17; w++) if (same(f, (struct part){words[w].text, words[w].len})) return words[w].set;
    return 0;
}

// The union of words joined by commas, or 0.
static u16 union_of(struct part f) {
    u16 set = 0;
    for (u64 from = 0;;) {
        u64 end = place_of(f, from, ',');
        u16 one = word(between(f, from, end));
        if (!one) return 0;
        set |= one;
        if (end == f.len) return set;
        from = end + 1;
    }
}

static u64 listed(const struct sheet *t, u64 count, struct part name) {
    u64 i = 0;
    while (i < count && !same(t->name[i], name)) i++;
    return i;
}

static void start_grid(u16 *g, int n) {
    for (int i = 0; i < n; i++) for (int j = 0; j < n; j++) g[i * n + j] = i == j ? EQ : ALL;
}

// A line of the contents: the number of a refusal, or 0.
static u32 entry(struct lines *ls, struct sheet *t, u64 i, int *count) {
    struct part line, name, field;
    if (!next_line(ls, &line) || !two_fields(line, &name, &field)) return 9;
    *count = decimal(field);
    if (!is_name(name) || *count < 0 || *count > 999) return 9;
    if (listed(t, i, name) < i) return 10;
    t->name[i] = name;
    return 0;
}

// A statement of event i, cut into the grid: the number of a refusal, or 0.
static u32 statement(struct lines *ls, struct sheet *t, u64 i) {
    struct part line, joined, name;
    if (!next_line(ls, &line) || !two_fields(line, &joined, &name)) return 9;
    u16 set = union_of(joined);
    if (!set || !is_name(name)) return 9;
    u64 n = t->n, j = listed(t, n, name);
    if (j == n) return 11;
    if (j == i) return 12;
    t->grid[i * n + j] &= set;
    t->grid[j * n + i] &= turned[set];
    return 0;
}

static u32 first_line(struct lines *ls, struct sheet *t) {
    struct part line;
    if (!next_line(ls, &line)) return 9;
    int n = decimal(line);
    if (n < 0) return 9;
    if (n > MOST) return 1;
    t->n = n;
    return 0;
}

// All lines of a sheet, up to the first faulty one: the number of its refusal, or 0.
static u32 all_lines(struct lines *ls, struct sheet *t) {
    int count[MOST];
    u32 why = first_line(ls, t);
    if (why) return why;
    for (u64 i = 0; i < t->n; i++) if ((why = entry(ls, t, i, &count[i]))) return why;
    start_grid(t->grid, t->n);
    for (u64 i = 0; i < t->n; i++) for (int k = 0; k < count[i]; k++) if ((why = statement(ls, t, i))) return why;
    ls->number++;
    return ls->at < ls->bytes ? 9 : 0;
}

// Reads a sheet: so many events, or its refusal with the line.
static u64 parse(const u8 *s, u64 bytes, struct sheet *t) {
    struct lines ls = {s, bytes, 0, 0};
    if (bytes > SHEET) return coded(8, 0);
    u32 why = all_lines(&ls, t);
    return why ? coded(why, ls.number) : coded(0, t->n);
}

u64 c_read_sheet(const u8 *s, u64 bytes, u16 *room, u64 cells) {
    struct sheet t;
    if (cells != CELLS) return coded(2, 0);
    u64 said = parse(s, bytes, &t);
    if (!(said >> 32)) memcpy(room, t.grid, 2 * t.n * t.n);
    return said;
}

// ---- the text of place

// A lent room: the text is put in as far as it reaches.
struct out { u8 *at; u64 len; };

static u64 put_byte(struct out out, u64 at, u8 byte) {
    if (at < out.len) out.at[at] = byte;
    return at + 1;
}

static u64 put_text(struct out out, u64 at, struct part text) {
    for (u64 k = 0; k < text.len; k++) at = put_byte(out, at, text.at[k]);
    return at;
}

// A space before a number, and the number.
static u64 put_number(struct out out, u64 at, u32 value) {
    u8 digits[10];
    u64 from = 10;
    do digits[--from] = '0' + value % 10; while (value /= 10);
    return put_text(out, put_byte(out, at, ' '), (struct part){digits + from, 10 - from});
}

static u64 put_refusal(struct out out, u64 said) {
    u64 at = put_text(out, 0, (struct part){(const u8 *)"refused", 7});
    at = put_number(out, at, said >> 32);
    return put_byte(out, put_number(out, at, (u32)said), '\n');
}

static u64 put_found(struct out out, const struct sheet *t, u64 found, const int *room) {
    static const struct { const char *text; u64 len; } ends[3] = {{"placed", 6}, {"none", 4}, {"gave-up", 7}};
    u64 end = found >> 32, at = put_text(out, 0, (struct part){(const u8 *)ends[end].text, ends[end].len});
    at = put_byte(out, put_number(out, at, (u32)found), '\n');
    if (end != DONE) return at;
    for (u64 i = 0; i < t->n; i++) {
        at = put_text(out, at, t->name[i]);
        at = put_number(out, at, room[2 * i]);
        at = put_byte(out, put_number(out, at, room[2 * i + 1]), '\n');
    }
    return at;
}

u64 c_place(const u8 *s, u64 bytes, u8 *lent, u64 most) {
    struct sheet t;
    struct out out = {lent, most};
    int room[2 * MOST];
    u64 said = parse(s, bytes, &t);
    return said >> 32 ? put_refusal(out, said) : put_found(out, &t, find(t.grid, t.n, ALLOWANCE, room), room);
}
