/* Proved against plain C: both run in turn, in one process, on the same buffers, and have to answer alike.

     bench short    a few runs at small sizes: ratios and goals alone
     bench table    each shape at its full size: time of both, their ratio, its goal, and how the time per byte grows
     bench sweep    each shape from 1 KB to 4 MB: time per byte of both
     bench columns  writing, by how many columns a table has: time per cell of both */
#include "plain_rules.h"
#include "rewrite.h"
#include "shapes.h"
#include <chaloenpik.h>
#include <stdio.h>
#include <stdlib.h>
#include <time.h>

enum { MOST_SIZE = MOST_MESSAGE + 4, MOST_RUNS = 31, LEAST_BYTES_A_RUN = 1 << 20, LEAST_NS_A_RUN = 20000 };

/* The longest list is one of cells of one byte, with a row length for each. */
enum { MOST_NUMBERS = 6 * 2200000 };

static uint8_t message[MOST_SIZE], plain_message[MOST_SIZE], proved_message[MOST_SIZE];
static uint64_t plain_list[MOST_NUMBERS], proved_list[MOST_NUMBERS];
static uint64_t plain_numbers[4], proved_numbers[4];
static uint8_t card[CHALOENPIK_FAR_CARD];
static size_t last_row, last_column, last_name, last_name_size, card_size, copied, middle_entry;

static double now_ns(void) {
    struct timespec t;
    clock_gettime(CLOCK_MONOTONIC, &t);
    return (double)t.tv_sec * 1e9 + (double)t.tv_nsec;
}

/* What the time of the proved program is held against, if it has a goal: the plain program's, or its own for accepting the message. */
typedef enum { NO_GOAL, OF_PLAIN, OF_ACCEPT } standard;

/* One thing to ask of a message or an area, of the plain program and of the proved one. The answers must be equal, and so must what they
   wrote. `ready` says whether it is to be asked of that one at all, and `goal` how many times the standard's time it may take at most. */
typedef struct {
    const char *name;
    bool (*ready)(size_t size);
    uint64_t (*plain)(const uint8_t *m, size_t size);
    uint64_t (*proved)(const uint8_t *m, size_t size);
    bool (*alike)(uint64_t answer);
    standard held;
    double goal;
} question;

static uint64_t packed(plain_refusal no) { return no.number + ((uint64_t)no.place << 8); }

static uint64_t found_or(plain_refusal no, size_t found) { return no.number != 0 ? packed(no) : (uint64_t)found << 8; }

static uint64_t accept_plain(const uint8_t *m, size_t size) { return packed(plain_accept(m, size)); }

static uint64_t accept_proved(const uint8_t *m, size_t size) { return chaloenpik_accept(CHALOENPIK_RESPONSE, m, size); }

/* The whole list in one window. */
static uint64_t list_plain(const uint8_t *m, size_t size) {
    size_t taken = 0;
    plain_refusal no = plain_fields(m, size, 0, plain_list, MOST_NUMBERS, &taken);
    return found_or(no, taken);
}

static uint64_t list_proved(const uint8_t *m, size_t size) {
    return chaloenpik_fields(CHALOENPIK_RESPONSE, m, size, 0, proved_list, MOST_NUMBERS);
}

static uint64_t count_plain(const uint8_t *m, size_t size) {
    size_t fields = 0;
    plain_refusal no = plain_field_count(m, size, &fields);
    return found_or(no, fields);
}

static uint64_t count_proved(const uint8_t *m, size_t size) { return chaloenpik_field_count(CHALOENPIK_RESPONSE, m, size); }

/* The entry in the middle of the list, alone. */
static uint64_t nth_plain(const uint8_t *m, size_t size) {
    size_t taken = 0;
    plain_refusal no = plain_fields(m, size, middle_entry, plain_list, CHALOENPIK_ENTRY, &taken);
    return found_or(no, taken);
}

static uint64_t nth_proved(const uint8_t *m, size_t size) {
    return chaloenpik_fields(CHALOENPIK_RESPONSE, m, size, middle_entry, proved_list, CHALOENPIK_ENTRY);
}

/* The owner of the byte in the middle of the message. */
static uint64_t owner_plain(const uint8_t *m, size_t size) {
    size_t number = 0;
    plain_refusal no = plain_owner(m, size, size / 2, &number);
    return found_or(no, number);
}

static uint64_t owner_proved(const uint8_t *m, size_t size) { return chaloenpik_owner(CHALOENPIK_RESPONSE, m, size, size / 2); }

/* The last cell of the first table, as the C interface gives a cell. */
static uint64_t cell_plain(const uint8_t *m, size_t size) {
    plain_cell c;
    plain_refusal no = plain_find_cell(m, size, 0, last_row, last_column, &c);
    if (no.number != 0) return packed(no);
    const uint8_t *at = m + c.offset;
    uint64_t *out = plain_numbers;
    out[0] = c.type, out[1] = CHALOENPIK_FIXED, out[2] = 0;
    switch (fixed_size(c.type)) {
    case 1: out[3] = *at; break;
    case 2: out[3] = load16(at); break;
    case 4: out[3] = load32(at); break;
    case 8: out[3] = load64(at); break;
    case 16: out[2] = load64(at), out[3] = load64(at + 8); break;
    default: out[1] = CHALOENPIK_BYTES, out[2] = c.offset, out[3] = c.size;
    }
    if (c.null) out[1] = CHALOENPIK_NONE, out[2] = 0, out[3] = 0;
    return 0;
}

static uint64_t cell_proved(const uint8_t *m, size_t size) { return chaloenpik_cell(m, size, 0, last_row, last_column, proved_numbers); }

/* The last column of the first table, by its name and by its card. */
static uint64_t find_plain(const uint8_t *m, size_t size) {
    size_t column = 0;
    plain_refusal no = plain_find_column(m, size, 0, m + last_name, last_name_size, &column);
    return found_or(no, column);
}

static uint64_t find_proved(const uint8_t *m, size_t size) { return chaloenpik_find_column(m, size, 0, m + last_name, last_name_size); }

static uint64_t open_plain(const uint8_t *m, size_t size) {
    size_t column = 0;
    plain_refusal no = plain_open_card(m, size, 0, card, card_size, &column);
    return found_or(no, column);
}

static uint64_t open_proved(const uint8_t *m, size_t size) { return chaloenpik_open_card(m, size, 0, card, card_size); }

static uint64_t fit_plain(const uint8_t *m, size_t size) { return packed(plain_card_fit(m, size, 0, card, card_size, plain_numbers)); }

static uint64_t fit_proved(const uint8_t *m, size_t size) { return chaloenpik_card_fit(m, size, 0, card, card_size, proved_numbers); }

static uint64_t write_plain(const uint8_t *m, size_t size) { return rewrite_plain(m, size, plain_message, MOST_SIZE); }

static uint64_t write_proved(const uint8_t *m, size_t size) { return rewrite_proved(m, size, proved_message, MOST_SIZE); }

static uint64_t rows_plain(const uint8_t *m, size_t size) { return rewrite_rows_plain(m, size, plain_message, MOST_SIZE); }

static uint64_t rows_proved(const uint8_t *m, size_t size) { return rewrite_rows_proved(m, size, proved_message, MOST_SIZE); }

static uint64_t area_plain(const uint8_t *m, size_t size) {
    size_t rings = 0;
    plain_refusal no = plain_area(m, size, &rings);
    return found_or(no, rings);
}

static uint64_t area_proved(const uint8_t *m, size_t size) { return chaloenpik_area_rings(m, size); }

static uint64_t area_list_plain(const uint8_t *m, size_t size) {
    size_t taken = 0;
    plain_refusal no = plain_area_fields(m, size, 0, plain_list, MOST_NUMBERS, &taken);
    return found_or(no, taken);
}

static uint64_t area_list_proved(const uint8_t *m, size_t size) { return chaloenpik_area_fields(m, size, 0, proved_list, MOST_NUMBERS); }

/* Each turns a copy of its own, to and fro. */
static uint64_t turn_plain(const uint8_t *m, size_t size) {
    (void)m;
    size_t rings = 0;
    plain_refusal no = plain_turn_holes(plain_message, size, &rings);
    return found_or(no, rings);
}

static uint64_t turn_proved(const uint8_t *m, size_t size) {
    (void)m;
    return chaloenpik_area_turn_holes(proved_message, size);
}

static uint64_t area_write_plain(const uint8_t *m, size_t size) { return rewrite_area_plain(m, size, plain_message, MOST_SIZE); }

static uint64_t area_write_proved(const uint8_t *m, size_t size) { return rewrite_area_proved(m, size, proved_message, MOST_SIZE); }

static bool always(size_t size) {
    (void)size;
    return true;
}

static bool copies_made(size_t size) {
    memcpy(plain_message, message, size);
    memcpy(proved_message, message, size);
    copied = size;
    return true;
}

static bool last_cell_known(size_t size) {
    uint64_t rows = chaloenpik_rows(message, size, 0), columns = chaloenpik_columns(message, size, 0);
    last_row = chaloenpik_value(rows) - (chaloenpik_value(rows) > 0);
    last_column = chaloenpik_value(columns) - (chaloenpik_value(columns) > 0);
    return chaloenpik_refusal(rows) == 0;
}

static bool last_name_known(size_t size) {
    uint64_t part[2];
    if (!last_cell_known(size) || chaloenpik_refusal(chaloenpik_column_name(message, size, 0, last_column, part)) != 0) return false;
    last_name = part[0], last_name_size = part[1];
    card_size = chaloenpik_card_size(last_column);
    return chaloenpik_refusal(chaloenpik_make_card(message, size, 0, message + last_name, last_name_size, card, card_size)) == 0;
}

/* The card of the last column, its name begun by a byte that no name begins with: so all columns are searched, and none is it. */
static bool stale_card_known(size_t size) {
    if (!last_name_known(size) || last_name_size == 0) return false;
    card[card_size - CARD_NAME] = '?';
    return true;
}

static bool accepted(size_t size) { return plain_accept(message, size).number == 0; }

static bool middle_known(size_t size) {
    size_t fields;
    bool known = plain_field_count(message, size, &fields).number == 0;
    if (known) middle_entry = fields / 2;
    return known;
}

static bool nothing_written(uint64_t answer) {
    (void)answer;
    return true;
}

static bool lists_alike(uint64_t answer) {
    if (chaloenpik_refusal(answer) != 0) return true;
    return memcmp(plain_list, proved_list, chaloenpik_value(answer) * 6 * sizeof *plain_list) == 0;
}

static bool numbers_alike(uint64_t answer) {
    return chaloenpik_refusal(answer) != 0 || memcmp(plain_numbers, proved_numbers, sizeof plain_numbers) == 0;
}

static bool copies_alike(uint64_t answer) {
    (void)answer;
    return memcmp(plain_message, proved_message, copied) == 0;
}

/* Both wrote the message that they were given. */
static bool messages_alike(uint64_t answer) {
    size_t size = chaloenpik_value(answer);
    return chaloenpik_refusal(answer) == 0 && memcmp(message, plain_message, size) == 0 && memcmp(message, proved_message, size) == 0;
}

static const question of_accept = {"accept", always, accept_plain, accept_proved, nothing_written, OF_PLAIN, 1.0};
static const question of_list = {"list", always, list_plain, list_proved, lists_alike, OF_PLAIN, 1.2};
static const question of_count = {"count", accepted, count_plain, count_proved, nothing_written, OF_ACCEPT, 2.0};
static const question of_nth = {"nth", middle_known, nth_plain, nth_proved, lists_alike, OF_ACCEPT, 2.0};
static const question of_owner = {"owner", accepted, owner_plain, owner_proved, nothing_written, OF_ACCEPT, 2.0};
static const question of_cell = {"cell", last_cell_known, cell_plain, cell_proved, numbers_alike, OF_PLAIN, 1.0};
static const question of_find = {"find", last_name_known, find_plain, find_proved, nothing_written, OF_PLAIN, 1.0};
static const question of_open = {"open", last_name_known, open_plain, open_proved, nothing_written, OF_PLAIN, 1.0};
static const question of_fit = {"fit", stale_card_known, fit_plain, fit_proved, numbers_alike, NO_GOAL, 0};
static const question of_write = {"write", accepted, write_plain, write_proved, messages_alike, OF_PLAIN, 2.0};
static const question of_rows = {"rows", accepted, rows_plain, rows_proved, messages_alike, OF_PLAIN, 1.0};
static const question of_area = {"accept", always, area_plain, area_proved, nothing_written, OF_PLAIN, 1.0};
static const question of_area_list = {"list", always, area_list_plain, area_list_proved, lists_alike, OF_PLAIN, 1.2};
static const question of_turn = {"turn", copies_made, turn_plain, turn_proved, copies_alike, NO_GOAL, 0};
static const question of_area_write = {"write", always, area_write_plain, area_write_proved, messages_alike, OF_PLAIN, 2.0};

/* What is asked of which shapes; the last is NULL. */
static const question *const questions[] = {&of_accept, &of_list, &of_count, &of_nth, &of_owner, &of_cell, &of_write, &of_rows, NULL};
static const question *const column_questions[] = {&of_accept, &of_find, &of_open, &of_fit, NULL};
static const question *const report_questions[] = {&of_accept, &of_list, &of_count, &of_nth, &of_owner, &of_cell, &of_find, &of_open, &of_fit, &of_write, &of_rows, NULL};
static const question *const area_questions[] = {&of_area, &of_area_list, &of_turn, &of_area_write, NULL};
static const question *const wide_questions[] = {&of_write, &of_rows, NULL};

static int by_size(const void *a, const void *b) {
    double x = *(const double *)a, y = *(const double *)b;
    return (x > y) - (x < y);
}

static double median(double *times, size_t count) {
    qsort(times, count, sizeof *times, by_size);
    return times[count / 2];
}

/* Nanoseconds of one call, as the mean of so many. */
static double timed(uint64_t (*ask)(const uint8_t *, size_t), size_t size, size_t calls, uint64_t *answer) {
    double start = now_ns();
    for (size_t n = 0; n < calls; n++) {
        *answer = ask(message, size);
        __asm__ volatile("" : : "r"(*answer) : "memory"); /* each call is carried out */
    }
    return (now_ns() - start) / (double)calls;
}

/* Nanoseconds of a call, the ratio of proved to plain, and how many proved accepts a proved call takes; 0 where the goal isn't in these. */
typedef struct {
    double plain, proved, ratio, accepts;
} times;

/* How many calls make a run: the clock can't tell one that passes over most bytes. Both are asked as often, as turning undoes itself. */
static size_t calls_a_run(const question *q, size_t size) {
    size_t calls = 1 + LEAST_BYTES_A_RUN / (size + 1);
    for (;; calls *= 2) {
        uint64_t answer;
        double plain = timed(q->plain, size, calls, &answer), proved = timed(q->proved, size, calls, &answer);
        if ((plain + proved) * (double)calls >= 2 * LEAST_NS_A_RUN) return calls;
    }
}

/* How many proved accepts a proved call takes, if its goal is in these. Both follow a proved call, so that they find as much of the message in the caches. */
static double in_accepts(const question *q, size_t size, size_t calls) {
    uint64_t answer;
    if (q->held != OF_ACCEPT) return 0;
    double proved = timed(q->proved, size, calls, &answer);
    return proved / timed(accept_proved, size, calls, &answer);
}

/* Medians of runs that take turns, and of the ratios of neighbouring runs. Ends the program if the answers differ. */
static times measured(const question *q, const shape *s, size_t size, size_t runs) {
    double plain[MOST_RUNS], proved[MOST_RUNS], ratio[MOST_RUNS], accepts[MOST_RUNS];
    size_t calls = calls_a_run(q, size);
    for (size_t n = 0; n < runs; n++) {
        uint64_t a, b;
        plain[n] = timed(q->plain, size, calls, &a);
        proved[n] = timed(q->proved, size, calls, &b);
        if (a != b) {
            fprintf(stderr, "bench: %s of %s, %zu bytes: plain C answers %lu, the proved library %lu\n", q->name, s->name, size, a, b);
            exit(1);
        }
        if (!q->alike(a)) {
            fprintf(stderr, "bench: %s of %s, %zu bytes: what was written differs\n", q->name, s->name, size);
            exit(1);
        }
        ratio[n] = proved[n] / plain[n];
        accepts[n] = in_accepts(q, size, calls);
    }
    times t = {median(plain, runs), median(proved, runs), median(ratio, runs), median(accepts, runs)};
    return t;
}

/* How many times as long a byte takes as in a small message of the shape; 0 where that isn't asked. */
typedef struct {
    double plain, proved;
} growth;

typedef struct {
    const question *asked;
    const char *shape;
    size_t size;
    times t;
    growth grown;
} line;

typedef void print_line(const line *l);

/* How a question is put to a shape: at which rooms, each four times the one before it; in how many runs; and from which room on growth is counted, if it is. */
typedef struct {
    size_t least, most, runs, small;
    print_line *print;
} plan;

/* A message of a shape in a room, if there is room for one and the question is to be asked of it. */
static bool made(const question *q, const shape *s, size_t room, size_t *size) {
    *size = s->make(message, room);
    return *size > 0 && q->ready(*size);
}

/* A shape that has one size in every room doesn't grow. */
static growth growth_of(times small, size_t small_size, times t, size_t size) {
    double bytes = (double)size / (double)small_size;
    growth g = {t.plain / small.plain / bytes, t.proved / small.proved / bytes}, none = {0, 0};
    return size > small_size ? g : none;
}

static void ask(const question *q, const shape *s, size_t room, const plan *p) {
    line l = {.asked = q, .shape = s->name};
    size_t small_size;
    times small;
    bool grows = p->small > 0 && made(q, s, p->small, &small_size);
    if (grows) small = measured(q, s, small_size, p->runs);
    if (!made(q, s, room, &l.size)) return;
    l.t = measured(q, s, l.size, p->runs);
    if (grows) l.grown = growth_of(small, small_size, l.t, l.size);
    p->print(&l);
}

/* A line for each question, shape and room. */
static void each_of(const question *const *q, const shape *s, size_t count, const plan *p) {
    for (; *q != NULL; q++)
        for (size_t n = 0; n < count; n++)
            for (size_t room = p->least; room <= p->most; room *= 4) ask(*q, &s[n], room, p);
}

/* Every question about replies; about columns, in replies of one size; about reports, which have both; and about areas, which have at most MOST_BODY bytes
   in a message. */
static void each(const plan *p) {
    plan of_columns = {MOST_SIZE, MOST_SIZE, p->runs, 0, p->print}, of_areas = *p;
    if (of_areas.least > MOST_BODY) of_areas.least = MOST_BODY;
    if (of_areas.most > MOST_BODY) of_areas.most = MOST_BODY;
    each_of(questions, shapes, shape_count, p);
    each_of(column_questions, column_shapes, column_shape_count, &of_columns);
    each_of(report_questions, report_shapes, report_shape_count, p);
    each_of(area_questions, area_shapes, area_shape_count, &of_areas);
}

/* As it is printed, so that nobody reads a ratio of 1.00 that misses a goal of 1. */
static double rounded(double ratio) { return (double)(long)(ratio * 100 + 0.5) / 100; }

static void print_number(int width, double n) {
    if (n > 0) printf(" %*.2f", width, rounded(n));
    else printf(" %*s", width, "-");
}

static size_t goals, goals_met;

/* The ratio, the time in proved accepts where the goal is in these, the goal, and whether it is met. */
static void print_goal(const line *l, int width) {
    const question *q = l->asked;
    bool met = rounded(q->held == OF_ACCEPT ? l->t.accepts : l->t.ratio) <= q->goal;
    goals += q->held != NO_GOAL;
    goals_met += q->held != NO_GOAL && met;
    print_number(7, l->t.ratio);
    print_number(7, l->t.accepts);
    print_number(5, q->goal);
    printf("  %-*s", width, q->held == NO_GOAL ? "-" : met ? "met" : "not met");
}

static void print_goals_met(void) { printf("goals met: %zu of %zu\n", goals_met, goals); }

static void print_ratio(const line *l) {
    printf("%-8s %-12s %9zu", l->asked->name, l->shape, l->size);
    print_goal(l, 0);
    printf("\n");
}

static void print_times(const line *l) {
    printf("%-8s %-12s %9zu %12.0f %12.0f", l->asked->name, l->shape, l->size, l->t.plain, l->t.proved);
    print_goal(l, 7);
    print_number(12, l->grown.plain);
    print_number(12, l->grown.proved);
    printf("\n");
}

static void print_times_a_byte(const line *l) {
    double bytes = (double)l->size;
    printf("%-8s %-12s %9zu %13.3f %13.3f %7.2f\n", l->asked->name, l->shape, l->size, l->t.plain / bytes, l->t.proved / bytes, l->t.ratio);
}

static void print_times_a_cell(const line *l) {
    uint64_t rows = chaloenpik_value(chaloenpik_rows(message, l->size, 0)), columns = chaloenpik_value(chaloenpik_columns(message, l->size, 0));
    double cells = (double)(rows * columns);
    printf("%-8s %7s %9zu %13.1f %13.1f %7.2f\n", l->asked->name, l->shape, l->size, l->t.plain / cells, l->t.proved / cells, l->t.ratio);
}

static void print_short(void) {
    const plan p = {64 * 1024, 64 * 1024, 5, 0, print_ratio};
    printf("%-8s %-12s %9s %7s %7s %5s  %s\n", "question", "shape", "bytes", "ratio", "accepts", "goal", "met");
    each(&p);
    print_goals_met();
}

static void print_table(void) {
    const plan p = {MOST_SIZE, MOST_SIZE, 15, 16 * 1024, print_times};
    printf("%-8s %-12s %9s %12s %12s %7s %7s %5s  %-7s %12s %12s\n", "question", "shape", "bytes", "plain ns", "proved ns", "ratio", "accepts", "goal", "met",
           "plain grows", "proved grows");
    each(&p);
    print_goals_met();
}

static void print_sweep(void) {
    const plan p = {1024, MOST_MESSAGE, 9, 0, print_times_a_byte};
    printf("%-8s %-12s %9s %13s %13s %7s\n", "question", "shape", "bytes", "plain ns/byte", "proved ns/b.", "ratio");
    each(&p);
}

static void print_columns(void) {
    const plan p = {MOST_SIZE, MOST_SIZE, 9, 0, print_times_a_cell};
    printf("%-8s %7s %9s %13s %13s %7s\n", "question", "columns", "bytes", "plain ns/cell", "proved ns/c.", "ratio");
    each_of(wide_questions, wide_shapes, wide_shape_count, &p);
}

int main(int count, char **words) {
    const char *what = count == 2 ? words[1] : "";
    if (strcmp(what, "short") == 0) print_short();
    else if (strcmp(what, "table") == 0) print_table();
    else if (strcmp(what, "sweep") == 0) print_sweep();
    else if (strcmp(what, "columns") == 0) print_columns();
    else {
        fprintf(stderr, "usage: bench short|table|sweep|columns\n");
        return 2;
    }
    return 0;
}
