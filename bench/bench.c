// bench FOLDER: times the proved functions and the plain C ones in one process, on the same inputs.
// Before a case is timed, both must give the same answers and leave the same in every lent room.
// Other work slows a machine for milliseconds at a time. So a case takes many short samples, in turn by the one
// program and the other, and its figure is the median of the ratios of two samples side by side: what slows a
// machine meets both of them, or spoils the ratios of a few. The quartiles of these ratios are the spread.
// A round goes over many inputs, so that a sample of a millisecond repeats none or few of them. With a few inputs
// over and over, a processor learns which way each branch goes, more or less of it as other work leaves it room,
// and a figure would hang on that.
// The folder has each program in four layouts, proved_0.so to proved_3.so and c_0.so to c_3.so: the same code,
// each time 1,024 bytes further on in its page. Under the emulator a jump to another page costs many times one
// within a page, and a figure would hang on where a loop happens to lie. So for each case each program runs in
// the layout that suits it best, by the least of several timings of each.
#include "measured.h"

struct timespec { long seconds, nanoseconds; };

int clock_gettime(int, struct timespec *);
void *dlopen(const char *, int);
void *dlsym(void *, const char *);
int printf(const char *, ...);
int snprintf(char *, u64, const char *, ...);
int fflush(void *);
void exit(int);

enum { PROVED, PLAIN_C, PROGRAMS, LAYOUTS = 4, SHEETS = 8, LONG_SHEETS = 2, PAIRS = 16384 };

// The kinds of a search's answer.
enum { PLACED, NONE, GAVE_UP, REFUSED, ANSWERS };

struct functions {
    compose_function *compose;
    quick_close_function *quick_close;
    plain_close_function *plain_close;
    find_placing_function *find_placing;
    read_sheet_function *read_sheet;
    place_function *place;
};

static struct functions program[PROGRAMS][LAYOUTS];

static void *loaded(void *library, const char *name) {
    void *found = library ? dlsym(library, name) : 0;
    if (!found) {
        printf("%s is not there\n", name);
        exit(2);
    }
    return found;
}

// The functions of one program in one layout.
static struct functions load(const char *folder, const char *name, int layout) {
    static const char *const functions[6] = {"compose", "quick_close", "plain_close", "find_placing", "read_sheet", "place"};
    char text[4096];
    void *at[6];
    snprintf(text, sizeof text, "%s/%s_%d.so", folder, name, layout);
    void *library = dlopen(text, 2);
    for (int f = 0; f < 6; f++) {
        snprintf(text, sizeof text, "%s_%s", name, functions[f]);
        at[f] = loaded(library, text);
    }
    return (struct functions){at[0], at[1], at[2], at[3], at[4], at[5]};
}

// ---- the same random numbers on every machine

static u64 state;

// A small number is spread over all digits, since the first numbers after it would be small too.
static void seed(u64 number) { state = number * 0x9e3779b97f4a7c15; }

static u32 below(u32 most) {
    state ^= state << 13;
    state ^= state >> 7;
    state ^= state << 17;
    return (state >> 33) % most;
}

// ---- what the functions are given

static u16 pairs[PAIRS][2];

// Grids of n events, one after the other.
static struct { int n, count; u16 cells[16 * CELLS]; } grids;

static u16 *grid(int k) { return grids.cells + k * grids.n * grids.n; }

// So many grids are made at most where few of them are chosen.
enum { MADE = 20000 };

struct text { u64 bytes; u8 at[SHEET + 1]; };

static struct text sheets[SHEETS];

static int relation_of(const int *x, const int *y) {
    if (x[1] < y[0]) return 0;
    if (y[1] < x[0]) return 1;
    if (x[1] == y[0]) return 2;
    if (y[1] == x[0]) return 3;
    if (x[0] == y[0]) return x[1] < y[1] ? 6 : x[1] > y[1] ? 7 : 12;
    if (x[1] == y[1]) return x[0] > y[0] ? 10 : 11;
    if (x[0] < y[0]) return x[1] < y[1] ? 4 : 9;
    return x[1] < y[1] ? 8 : 5;
}

static u16 converse(u16 set) { return (set & 0x555) << 1 | (set & 0xaaa) >> 1 | (set & EQ); }

// What is said of a pair whose true relation has this mark.
typedef u16 say(u16 mark);

static u16 told(u16 mark, u32 hundredths) { return mark | (below(100) < hundredths ? below(ALL + 1) : ALL); }
static u16 sparse(u16 mark) { return told(mark, 15); }
static u16 middling(u16 mark) { return told(mark, 40); }
static u16 dense(u16 mark) { return told(mark, 90); }

// Every set is added to the true relation equally often.
static u16 all_sets(u16 mark) { return told(mark, 100); }

// A set with so many more relations.
static u16 widened(u16 set, u32 more) {
    for (; more; more--) {
        u16 wider;
        do wider = set | 1 << below(13); while (wider == set);
        set = wider;
    }
    return set;
}

// As in planning: nothing is said of three pairs in four, and to the others up to three relations are added.
static u16 planning(u16 mark) { return below(100) < 75 ? ALL : widened(mark, below(4)); }

// Six or seven relations, whether the true one is among them or not. Where an event has such a set with 9.5 others
// on average, about as many grids are met by a placing as not, and the search goes back most.
static u16 half_sets(u16 mark) {
    (void)mark;
    return below(10 * (grids.n - 1)) < 95 ? widened(0, 6 + below(2)) : ALL;
}

// A grid of what is said of a random placing.
static void make_grid(u16 *g, int n, say *saying) {
    int event[MOST][2];
    for (int i = 0; i < n; i++) {
        event[i][0] = below(60);
        event[i][1] = event[i][0] + 1 + below(20);
    }
    for (int i = 0; i < n; i++) g[i * n + i] = EQ;
    for (int i = 0; i < n; i++) for (int j = i + 1; j < n; j++) {
        u16 set = saying(1 << relation_of(event[i], event[j]));
        g[i * n + j] = set;
        g[j * n + i] = converse(set);
    }
}

// Four grids of 32 events take about as long as so many of n.
static int grids_of(int n) { return 4 * MOST * MOST * MOST / (n * n * n); }

static void make_grids(int n, say *saying) {
    seed(7 + n);
    grids.n = n;
    grids.count = grids_of(n);
    for (int k = 0; k < grids.count; k++) make_grid(grid(k), n, saying);
}

// Grids of which the search by the C program has an answer of one kind, after so many tries.
static void choose_grids(int n, int count, say *saying, u64 kind, u32 least, u32 most) {
    int room[2 * MOST];
    seed(11 + n);
    grids.n = n;
    grids.count = 0;
    for (int made = 0; made < MADE && grids.count < count; made++) {
        u16 *g = grid(grids.count);
        make_grid(g, n, saying);
        u64 said = program[PLAIN_C]->find_placing(g, n * n, n, ALLOWANCE, room, 2 * n);
        if (said >> 32 == kind && (u32)said >= least && (u32)said <= most) grids.count++;
    }
    if (grids.count < count) {
        printf("too few grids, n = %d, have an answer of kind %lu after %u to %u tries\n", n, kind, least, most);
        exit(2);
    }
}

static void make_placed_grids(int n, int count) { choose_grids(n, count, planning, PLACED, 0, ALLOWANCE); }

// ---- random sheets

static const char *const words[17] = {
    "b", "bi", "m", "mi", "o", "oi", "s", "si", "d", "di", "f", "fi", "eq", "any", "meanwhile", "within", "until",
};

static void put(struct text *t, const char *from) {
    while (*from) t->at[t->bytes++] = *from++;
}

static void put_number(struct text *t, u32 value) {
    if (value > 9) put_number(t, value / 10);
    t->at[t->bytes++] = '0' + value % 10;
}

static char names[MOST][17];

// 3 to 12 letters, of which the last two are the event's number.
static void make_names(int n) {
    for (int i = 0; i < n; i++) {
        u32 len = 3 + below(10);
        for (u32 k = 0; k < len; k++) names[i][k] = 'a' + below(26);
        names[i][len - 2] = 'a' + i / 26;
        names[i][len - 1] = 'a' + i % 26;
        names[i][len] = 0;
    }
}

static struct { u32 count; struct text text; } body[MOST];

static void no_statements(int n) {
    make_names(n);
    for (int i = 0; i < n; i++) body[i].count = body[i].text.bytes = 0;
}

static void end_statement(int i, int other) {
    put(&body[i].text, " ");
    put(&body[i].text, names[other]);
    put(&body[i].text, "\n");
    body[i].count++;
}

static void put_random_statement(int i, int n) {
    put(&body[i].text, words[below(17)]);
    for (u32 more = below(4); more; more--) {
        put(&body[i].text, ",");
        put(&body[i].text, words[below(17)]);
    }
    end_statement(i, (i + 1 + below(n - 1)) % n);
}

static void put_set_statement(int i, u16 set, int other) {
    for (u16 left = set; left; left &= left - 1) {
        if (left != set) put(&body[i].text, ",");
        put(&body[i].text, words[__builtin_ctz(left)]);
    }
    end_statement(i, other);
}

static void join_sheet(struct text *t, int n) {
    t->bytes = 0;
    put_number(t, n);
    put(t, "\n");
    for (int i = 0; i < n; i++) {
        put(t, names[i]);
        put(t, " ");
        put_number(t, body[i].count);
        put(t, "\n");
    }
    for (int i = 0; i < n; i++)
        for (u64 k = 0; k < body[i].text.bytes; k++) t->at[t->bytes++] = body[i].text.at[k];
}

// Random statements until so many bytes are nearly reached, and words in front of the last one to fill up the rest.
static void make_long_sheet(struct text *t, int n, u64 size) {
    u64 used = 0;
    no_statements(n);
    for (int i = 0; used + 1000 < size; i = (i + 1) % n) {
        u64 before = body[i].text.bytes;
        put_random_statement(i, n);
        used += body[i].text.bytes - before;
    }
    join_sheet(t, n);
    u64 left = size - t->bytes, from = t->bytes - 1;
    while (t->at[from - 1] != '\n') from--;
    for (u64 k = t->bytes; k > from; k--) t->at[k + left - 1] = t->at[k - 1];
    t->bytes = from;
    if (left % 2) put(t, "eq,");
    while (t->bytes < from + left) put(t, "b,");
    t->bytes = size;
}

// A sheet that says what a grid says.
static void make_sheet_of(struct text *t, const u16 *g, int n) {
    no_statements(n);
    for (int i = 0; i < n; i++) for (int j = i + 1; j < n; j++)
        if (g[i * n + j] != ALL) put_set_statement(i, g[i * n + j], j);
    join_sheet(t, n);
}

// ---- one round over what is given, by one program

typedef void round(const struct functions *by);

static volatile u64 sink;

static void copy(u16 *to, const u16 *from, int cells) {
    for (int p = 0; p < cells; p++) to[p] = from[p];
}

static void compose_round(const struct functions *by) {
    u64 sum = 0;
    for (int k = 0; k < PAIRS; k++) sum += by->compose(pairs[k][0], pairs[k][1]);
    sink = sum;
}

static void quick_round(const struct functions *by) {
    int n = grids.n;
    for (int k = 0; k < grids.count; k++) {
        u16 g[CELLS];
        copy(g, grid(k), n * n);
        sink = by->quick_close(g, n * n, n, ENOUGH);
    }
}

static void plain_round(const struct functions *by) {
    int n = grids.n;
    for (int k = 0; k < grids.count; k++) {
        u16 g[CELLS];
        copy(g, grid(k), n * n);
        sink = by->plain_close(g, n * n, n);
    }
}

static void search_round(const struct functions *by) {
    int n = grids.n, room[2 * MOST];
    for (int k = 0; k < grids.count; k++)
        sink = by->find_placing(grid(k), n * n, n, ALLOWANCE, room, 2 * n);
}

static void read_some(const struct functions *by, int from, int to) {
    u16 room[CELLS];
    for (int k = from; k < to; k++) sink = by->read_sheet(sheets[k].at, sheets[k].bytes, room, CELLS);
}

// The long sheets come first, and after them as many that are half as long.
static void read_long_round(const struct functions *by) { read_some(by, 0, LONG_SHEETS); }
static void read_half_round(const struct functions *by) { read_some(by, LONG_SHEETS, 2 * LONG_SHEETS); }

static void place_round(const struct functions *by) {
    u8 room[PRINTED];
    for (int k = 0; k < SHEETS; k++) sink = by->place(sheets[k].at, sheets[k].bytes, room, PRINTED);
}

// ---- both must agree

static void differ(const char *what, int k) {
    printf("the two programs differ: %s, input %d\n", what, k);
    exit(1);
}

static int same(const void *a, const void *b, u64 bytes) {
    const u8 *x = a, *y = b;
    for (u64 p = 0; p < bytes; p++) if (x[p] != y[p]) return 0;
    return 1;
}

static void same_compose(const char *what, int k, u16 a, u16 b) {
    if (program[PROVED]->compose(a, b) != program[PLAIN_C]->compose(a, b)) differ(what, k);
}

static void same_quick(const char *what, int k, const u16 *g, u64 cells, u64 n, u64 limit) {
    u16 after[PROGRAMS][CELLS + 1];
    u64 said[PROGRAMS];
    for (int who = 0; who < PROGRAMS; who++) {
        copy(after[who], g, cells);
        said[who] = program[who]->quick_close(after[who], cells, n, limit);
    }
    if (said[0] != said[1] || !same(after[0], after[1], 2 * cells)) differ(what, k);
}

static void same_plain(const char *what, int k, const u16 *g, u64 cells, u64 n) {
    u16 after[PROGRAMS][CELLS + 1];
    u64 said[PROGRAMS];
    for (int who = 0; who < PROGRAMS; who++) {
        copy(after[who], g, cells);
        said[who] = program[who]->plain_close(after[who], cells, n);
    }
    if (said[0] != said[1] || !same(after[0], after[1], 2 * cells)) differ(what, k);
}

static u64 same_search(const char *what, int k, const u16 *g, u64 cells, u64 n, u32 allowance, u64 numbers) {
    int room[PROGRAMS][2 * MOST + 1];
    u64 said[PROGRAMS];
    for (int who = 0; who < PROGRAMS; who++) {
        for (u64 e = 0; e < numbers; e++) room[who][e] = -7;
        said[who] = program[who]->find_placing(g, cells, n, allowance, room[who], numbers);
    }
    if (said[0] != said[1] || !same(room[0], room[1], 4 * numbers)) differ(what, k);
    return said[0];
}

static void same_read(const char *what, int k, const struct text *t, u64 cells) {
    u16 room[PROGRAMS][CELLS + 1];
    u64 said[PROGRAMS];
    for (int who = 0; who < PROGRAMS; who++) {
        for (u64 p = 0; p < cells; p++) room[who][p] = 40000 + p;
        said[who] = program[who]->read_sheet(t->at, t->bytes, room[who], cells);
    }
    if (said[0] != said[1] || !same(room[0], room[1], 2 * cells)) differ(what, k);
}

// The room is filled first, and compared to its end also where fewer bytes of it are lent.
static void same_place(const char *what, int k, const struct text *t, u64 most) {
    u8 room[PROGRAMS][PRINTED];
    u64 said[PROGRAMS];
    for (int who = 0; who < PROGRAMS; who++) {
        for (int p = 0; p < PRINTED; p++) room[who][p] = 200;
        said[who] = program[who]->place(t->at, t->bytes, room[who], most);
    }
    if (said[0] != said[1] || !same(room[0], room[1], PRINTED)) differ(what, k);
}

// Small grids of which some are faulty, with small limits and allowances.
static void agree_on_grids(int count) {
    seed(3);
    for (int k = 0; k < count; k++) {
        u16 g[CELLS + 1];
        int n = below(7), cells = n * n;
        make_grid(g, n, below(2) ? planning : dense);
        if (cells && below(2)) g[below(cells)] = below(8300);
        if (!below(4) && n > 1) {
            int i = below(n), j = below(n);
            g[i * n + j] = g[j * n + i] = 0;
        }
        if (!below(10)) cells++, g[cells - 1] = EQ;
        u64 events = below(10) ? n : below(40), numbers = below(10) ? 2 * n : 2 * n + 1;
        same_quick("quick closing of a small grid", k, g, cells, events, below(30));
        same_plain("plain closing of a small grid", k, g, cells, events);
        same_search("search of a small grid", k, g, cells, events, below(40), numbers);
    }
}

// Small sheets of which most have a faulty byte.
static void agree_on_sheets(int count) {
    static const char other[] = "0123456789abimeqoxz ,\n";
    static struct text t;
    seed(5);
    for (int k = 0; k < count; k++) {
        int n = 1 + below(5);
        no_statements(n);
        for (u32 more = n > 1 ? below(8) : 0; more; more--) put_random_statement(below(n), n);
        join_sheet(&t, n);
        for (u32 more = below(3); more; more--) t.at[below(t.bytes)] = other[below(22)];
        if (!below(10)) t.bytes = below(t.bytes);
        same_read("reading a small sheet", k, &t, below(20) ? CELLS : CELLS + 1);
        same_place("place on a small sheet", k, &t, k % 4 ? PRINTED : k / 4 % 64);
    }
    t.bytes = SHEET + 1;
    same_read("reading a sheet of 65,537 bytes", 0, &t, CELLS);
}

// ---- the clock

// What is timed: a round by one program.
struct job { round *go; int who; };

// The least times of a round of two jobs, and the median and the quartiles of the ratios of two samples side by side.
struct figures { double least[2], ratio, lower, upper; };

// SHORT and LONG are nanoseconds.
enum { SAMPLES = 101, FEWER = 31, SHORT = 700000, LONG = 5000000 };

// CLOCK_PROCESS_CPUTIME_ID: the program's own time, so that what else the machine does is left out.
enum { OWN_TIME = 2 };

static long now(void) {
    struct timespec t;
    clock_gettime(OWN_TIME, &t);
    return t.seconds * 1000000000 + t.nanoseconds;
}

static long time_of(round *go, const struct functions *by, long rounds) {
    long begun = now();
    for (long k = 0; k < rounds; k++) go(by);
    return now() - begun;
}

// The rounds of a sample and the number of samples.
struct pace { long rounds; int samples; };

// A sample takes about a millisecond or more. Where one round takes long, a disturbance weighs less in a sample,
// and fewer will do.
static struct pace pace_of(struct job a, struct job b) {
    struct pace p = {1, SAMPLES};
    for (;; p.rounds *= 2) {
        long first = time_of(a.go, program[a.who], p.rounds), second = time_of(b.go, program[b.who], p.rounds);
        if (first < SHORT || second < SHORT) continue;
        if (first > LONG) p.samples = FEWER;
        return p;
    }
}

// The layout in which a job takes least. Each is timed several times in turn, as a single timing may be disturbed.
static const struct functions *best_layout(struct job j, struct pace p) {
    long least[LAYOUTS];
    int best = 0;
    for (int turn = 0; turn < p.samples / 15; turn++) for (int l = 0; l < LAYOUTS; l++) {
        long took = time_of(j.go, &program[j.who][l], p.rounds);
        if (!turn || took < least[l]) least[l] = took;
    }
    for (int l = 1; l < LAYOUTS; l++) if (least[l] < least[best]) best = l;
    return &program[j.who][best];
}

static void sort(double *x, int count) {
    for (int i = 1; i < count; i++) for (int j = i; j && x[j] < x[j - 1]; j--) {
        double y = x[j];
        x[j] = x[j - 1];
        x[j - 1] = y;
    }
}

// Times two jobs in turn.
static struct figures in_turn(struct job a, struct job b) {
    struct pace p = pace_of(a, b);
    const struct functions *by_a = best_layout(a, p), *by_b = best_layout(b, p);
    double least[2] = {1e18, 1e18}, ratio[SAMPLES];
    int n = p.samples;
    for (int k = 0; k < n; k++) {
        double first = time_of(a.go, by_a, p.rounds), second = time_of(b.go, by_b, p.rounds);
        if (first < least[0]) least[0] = first;
        if (second < least[1]) least[1] = second;
        ratio[k] = first / second;
    }
    sort(ratio, n);
    for (int side = 0; side < 2; side++) least[side] /= p.rounds;
    return (struct figures){{least[0], least[1]}, ratio[n / 2], ratio[n / 4], ratio[n - 1 - n / 4]};
}

static struct figures timed(round *go) { return in_turn((struct job){go, PROVED}, (struct job){go, PLAIN_C}); }

static void print_ratio(struct figures f) {
    printf("ratio %.2f, spread %.2f to %.2f\n", f.ratio, f.lower, f.upper);
    fflush(0);
}

// ---- how a cost grows

static double logarithm(double x) {
    double whole = 0, sum = 0;
    for (; x > 1.5; x /= 2) whole += 0.69314718055994531;
    for (; x < 0.75; x *= 2) whole -= 0.69314718055994531;
    double y = (x - 1) / (x + 1), power = y;
    for (int k = 1; k < 40; k += 2, power *= y * y) sum += 2 * power / k;
    return whole + sum;
}

// The slope of the line through the points (log x, log y), by least squares.
static double exponent(const double *x, const double *y, int count) {
    double sx = 0, sy = 0, sxx = 0, sxy = 0;
    for (int k = 0; k < count; k++) {
        double a = logarithm(x[k]), b = logarithm(y[k]);
        sx += a;
        sy += b;
        sxx += a * a;
        sxy += a * b;
    }
    return (count * sxy - sx * sy) / (count * sxx - sx * sx);
}

// ---- the cases

static const struct { const char *name; say *saying; } kinds[3] = {
    {"sparse", sparse}, {"middling", middling}, {"dense", dense},
};

static void measure_composition(void) {
    seed(1);
    for (int k = 0; k < PAIRS; k++) {
        for (int side = 0; side < 2; side++) pairs[k][side] = below(ALL + 1);
        same_compose("composition", k, pairs[k][0], pairs[k][1]);
    }
    same_compose("composition of a set above 8191", 0, ALL, ALL + 1);
    same_compose("composition of a set above 8191", 1, ALL + 1, ALL);
    printf("composition, random pairs of sets: ");
    print_ratio(timed(compose_round));
}

static void measure_quick(int n, int kind) {
    make_grids(n, kinds[kind].saying);
    for (int k = 0; k < grids.count; k++) same_quick("quick closing", k, grid(k), n * n, n, ENOUGH);
    printf("quick closing, n = %d, %s: ", n, kinds[kind].name);
    print_ratio(timed(quick_round));
}

static void measure_plain(int n, int kind) {
    make_grids(n, kinds[kind].saying);
    for (int k = 0; k < grids.count; k++) same_plain("plain closing", k, grid(k), n * n, n);
    printf("plain closing, n = %d, %s: ", n, kinds[kind].name);
    print_ratio(timed(plain_round));
}

// The search of the grids that are there.
static void measure_search(const char *name) {
    int n = grids.n, ended[ANSWERS] = {0};
    u64 tries = 0;
    for (int k = 0; k < grids.count; k++) {
        u64 said = same_search("search", k, grid(k), n * n, n, ALLOWANCE, 2 * n);
        ended[said >> 32]++;
        tries += (u32)said;
    }
    printf("search, n = %d, %s, %d placed, %d none, %d gave up, %lu tries on average: ", n, name,
           ended[PLACED], ended[NONE], ended[GAVE_UP], tries / grids.count);
    print_ratio(timed(search_round));
}

static void measure_searches(void) {
    for (int n = 8; n <= 32; n += 8) {
        make_grids(n, planning);
        measure_search("as in planning");
    }
    for (int n = 8; n <= 32; n += 8) {
        make_grids(n, all_sets);
        measure_search("all sets");
    }
    for (int kind = 0; kind < 3; kind++) {
        make_grids(MOST, kinds[kind].saying);
        measure_search(kinds[kind].name);
    }
}

// A search that goes back much takes four times as many tries as there are pairs, or more. Such a search is long,
// and one that gives up is longer still, so the grids are few.
static void measure_going_back(void) {
    static const struct { int n, count; u64 kind; } cases[5] = {
        {12, 2, PLACED}, {16, 1, PLACED}, {12, 2, NONE}, {16, 1, NONE}, {16, 1, GAVE_UP},
    };
    for (int c = 0; c < 5; c++) {
        int n = cases[c].n;
        choose_grids(n, cases[c].count, half_sets, cases[c].kind, 2 * n * (n - 1), ALLOWANCE);
        measure_search("half sets");
    }
}

static double long_over_half(int who) {
    return in_turn((struct job){read_long_round, who}, (struct job){read_half_round, who}).ratio;
}

static void measure_reading(void) {
    for (int k = 0; k < 2 * LONG_SHEETS; k++) {
        // The same names in a long sheet and one half as long.
        seed(13 + k % LONG_SHEETS);
        make_long_sheet(&sheets[k], MOST, k < LONG_SHEETS ? SHEET : SHEET / 2);
        same_read("reading a long sheet", k, &sheets[k], CELLS);
    }
    printf("reading sheets of %d bytes: ", SHEET);
    print_ratio(timed(read_long_round));
    printf("reading sheets of %d bytes: ", SHEET / 2);
    print_ratio(timed(read_half_round));
    printf("reading %d bytes over reading %d: proved %.2f, C %.2f\n", SHEET, SHEET / 2,
           long_over_half(PROVED), long_over_half(PLAIN_C));
}

static void measure_place(void) {
    make_placed_grids(MOST, SHEETS);
    for (int k = 0; k < SHEETS; k++) {
        make_sheet_of(&sheets[k], grid(k), MOST);
        same_place("place", k, &sheets[k], PRINTED);
    }
    printf("place whole, sheets of 32 events as in planning: ");
    print_ratio(timed(place_round));
}

// By the least times: the cases are timed one after the other, and their medians tell how the machine was disturbed.
static void measure_growth(const char *what, round *go, void (*make)(int n)) {
    double n[7], time[PROGRAMS][7];
    for (int k = 0; k < 7; k++) {
        make(8 + 4 * k);
        struct figures f = timed(go);
        n[k] = 8 + 4 * k;
        for (int who = 0; who < PROGRAMS; who++) time[who][k] = f.least[who] / grids.count;
    }
    printf("%s grows with n to the power: proved %.2f, C %.2f\n", what,
           exponent(n, time[PROVED], 7), exponent(n, time[PLAIN_C], 7));
    fflush(0);
}

static void make_for_closing(int n) {
    make_grids(n, middling);
    for (int k = 0; k < grids.count; k++) same_quick("quick closing as n grows", k, grid(k), n * n, n, ENOUGH);
}

static void make_for_search(int n) {
    make_placed_grids(n, grids_of(n));
    for (int k = 0; k < grids.count; k++) same_search("search as n grows", k, grid(k), n * n, n, ALLOWANCE, 2 * n);
}

// How many times as long one program's search takes as its quick closing.
static double search_over_closing(int who) {
    return in_turn((struct job){search_round, who}, (struct job){quick_round, who}).ratio;
}

// A placing of 32 events needs at least 496 tries, one for each pair.
static void measure_shortest_search(const char *what, say *saying) {
    choose_grids(MOST, 8, saying, PLACED, 496, 496);
    for (int k = 0; k < grids.count; k++)
        same_search("search in 496 tries", k, grid(k), CELLS, MOST, ALLOWANCE, 2 * MOST);
    printf("a search at n = 32 placed in 496 tries, %s: ", what);
    print_ratio(timed(search_round));
    printf("that search over one quick closing of its grid: proved %.2f, C %.2f\n",
           search_over_closing(PROVED), search_over_closing(PLAIN_C));
    fflush(0);
}

static void load_all(const char *folder) {
    for (int l = 0; l < LAYOUTS; l++) {
        program[PROVED][l] = load(folder, "proved", l);
        program[PLAIN_C][l] = load(folder, "c", l);
    }
}

// The stack at the start has the number of words of the command line, and then where they are.
void begin(char **stack) {
    load_all(stack[2]);
    agree_on_grids(5000);
    agree_on_sheets(5000);
    printf("A ratio is the proved function's time over the C function's: the median of the ratios of two samples\n");
    printf("side by side, over %d such pairs, or %d where a sample takes long. The spread is from the lower\n", SAMPLES, FEWER);
    printf("quartile of these ratios to the upper.\n");
    measure_composition();
    for (int n = 8; n <= 32; n *= 2) for (int kind = 0; kind < 3; kind++) measure_quick(n, kind);
    for (int n = 8; n <= 32; n *= 2) for (int kind = 0; kind < 3; kind++) measure_plain(n, kind);
    measure_searches();
    measure_going_back();
    measure_reading();
    measure_place();
    measure_growth("quick closing, middling grids,", quick_round, make_for_closing);
    measure_growth("a search that is placed, as in planning,", search_round, make_for_search);
    measure_shortest_search("as in planning", planning);
    measure_shortest_search("all sets", all_sets);
    measure_shortest_search("middling", middling);
    exit(0);
}

__attribute__((naked)) void _start(void) { __asm__("mov %rsp, %rdi\n and $-16, %rsp\n call begin"); }
