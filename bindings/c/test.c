/* Every function of eweb.h, called as a user calls it: document 01's table of edges, each refusal, positions as lent, an output
   and a report that are too short, the cells before and after each slice, NULL where a length is 0. Values are compared by their
   bits, so that a NaN's own can be seen, which no proof speaks of. The cells around a slice hold a NaN that a copy through a
   float would change. */
#include "eweb.h"
#include <stdio.h>

typedef unsigned long long word;

#define COUNT(list) (sizeof(list) / sizeof(list)[0])
#define EMPTY ((size_t)0)

static const word INFINITE = 0x7ff0000000000000;
static const word NOT_A_NUMBER = 0x7ff8000000000000;
static const word LENT = 0x7ff4000000000077; /* what a cell of out holds before a call, and those around it */
static const size_t BEFORE = 77;             /* the same, of a report */

static double float_of(word w) {
    double x;
    __builtin_memcpy(&x, &w, sizeof x);
    return x;
}

static word word_of(double x) {
    word w;
    __builtin_memcpy(&w, &x, sizeof w);
    return w;
}

static long held, wrong;
static const char *name = "";

static void hold(int holds, const char *what, long line) {
    held++;
    if (!holds && wrong++ < 20)
        printf("line %ld, %s: not so: %s\n", line, name, what);
}

#define HOLD(holds) hold(holds, #holds, __LINE__)

/* ---- what is lent */

struct slice {
    const double *at;
    size_t len;
};

struct draws {
    struct slice uniforms, normals, exponentials;
};

struct positions {
    size_t uniforms, normals, exponentials;
};

static const struct positions START = {0, 0, 0};
static const double nothing[1] = {0};

#define SLICE(...) {(const double[]){__VA_ARGS__}, COUNT(((const double[]){__VA_ARGS__}))}
#define NONE {nothing, 0}

/* A report of `len` cells and an output of `count`, each with cells of its own around it. */
#define AROUND 2
#define MOST_CELLS 4100
#define MOST_REPORT 8

static double cells[AROUND + MOST_CELLS + AROUND];
static size_t report[AROUND + MOST_REPORT + AROUND];
static double *out = cells + AROUND;
static size_t *lent_report = report + AROUND;

static void lend(struct positions at) {
    for (size_t i = 0; i < COUNT(cells); i++)
        __builtin_memcpy(cells + i, &LENT, sizeof LENT);
    for (size_t i = 0; i < COUNT(report); i++)
        report[i] = BEFORE;
    report[AROUND + 3] = at.uniforms;
    report[AROUND + 4] = at.normals;
    report[AROUND + 5] = at.exponentials;
}

/* The word of a float in memory: a copy through a float might change a NaN. */
static word word_at(const double *x) {
    word w;
    __builtin_memcpy(&w, x, sizeof w);
    return w;
}

static word cell(size_t i) {
    return word_at(out + i);
}

/* Of the output nothing is written but the first `count` cells, of the report nothing but the six. */
static void hold_around(size_t count) {
    int kept = 1;
    for (size_t i = 0; i < COUNT(cells); i++)
        kept &= (i >= AROUND && i < AROUND + count) || word_at(cells + i) == LENT;
    HOLD(kept);
    kept = 1;
    for (size_t i = 0; i < COUNT(report); i++)
        kept &= (i >= AROUND && i < AROUND + 6) || report[i] == BEFORE;
    HOLD(kept);
}

static void hold_report(size_t number, size_t kind, size_t index, struct positions at) {
    const size_t *said = report + AROUND;
    HOLD(said[0] == number);
    HOLD(said[1] == kind);
    HOLD(said[2] == index);
    HOLD(said[3] == at.uniforms);
    HOLD(said[4] == at.normals);
    HOLD(said[5] == at.exponentials);
}

/* Nothing is written, to the report neither. */
static void hold_untouched(struct positions at) {
    hold_report(BEFORE, BEFORE, BEFORE, at);
    hold_around(0);
}

/* ---- the samplers, by the number of their parameters */

typedef size_t one(double, EWEB_LENT);
typedef size_t two(double, double, EWEB_LENT);
typedef size_t four(double, double, double, double, EWEB_LENT);

struct sampler {
    const char *name;
    one *one[2]; /* a single sample, a fill */
    two *two[2];
    four *four[2];
    double good[4]; /* parameters with which it samples */
};

enum { SAMPLE, FILL };

static const struct sampler gamma = {"gamma", {0}, {eweb_gamma_sample, eweb_gamma_fill}, {0}, {2, 1}};
static const struct sampler beta = {"beta", {0}, {eweb_beta_sample, eweb_beta_fill}, {0}, {2, 5}};
static const struct sampler chi = {"chi_squared", {eweb_chi_squared_sample, eweb_chi_squared_fill}, {0}, {0}, {3}};
static const struct sampler fisher = {"fisher_f", {0}, {eweb_fisher_f_sample, eweb_fisher_f_fill}, {0}, {3, 4}};
static const struct sampler student = {"student_t", {eweb_student_t_sample, eweb_student_t_fill}, {0}, {0}, {4}};
static const struct sampler mode = {"pert_mode", {0}, {0}, {eweb_pert_mode_sample, eweb_pert_mode_fill}, {0, 10, 4, 5}};
static const struct sampler mean = {"pert_mean", {0}, {0}, {eweb_pert_mean_sample, eweb_pert_mean_fill}, {0, 10, 4, 5}};

static const struct sampler *const samplers[] = {&gamma, &beta, &chi, &fisher, &student, &mode, &mean};

#define LENDING                                                                                                                  \
    d.uniforms.at, d.uniforms.len, d.normals.at, d.normals.len, d.exponentials.at, d.exponentials.len, out, count,               \
        lent_report, len

static size_t call(const struct sampler *s, int what, const double p[4], struct draws d, size_t count, size_t len) {
    name = s->name;
    if (s->one[what])
        return s->one[what](p[0], LENDING);
    if (s->two[what])
        return s->two[what](p[0], p[1], LENDING);
    return s->four[what](p[0], p[1], p[2], p[3], LENDING);
}

static size_t vector(struct slice alpha, struct draws d, size_t count, size_t len) {
    name = "dirichlet";
    return eweb_dirichlet(alpha.at, alpha.len, LENDING);
}

/* ---- single samples and fills of one cell, row by row */

struct row {
    const struct sampler *sampler;
    double parameters[4];
    struct draws draws;
    struct positions at;
    size_t number, kind, index;
    word value;             /* where there is no refusal */
    struct positions after; /* the same */
};

#define INF __builtin_inf()
#define QUIET __builtin_nan("")
#define MOST 0x1.fffffffffffffp1023 /* the greatest number */
#define HALVES SLICE(.5, .5)
/* Where a row's call gives this value and these positions, or is refused by this number, kind and index. */
#define GIVES(value, u, n, e) 0, 0, 0, value, {u, n, e}
#define REFUSED(number, kind, index) number, kind, index, 0, {0}

static const struct row rows[] = {
    /* document 01's table of edges, Gamma(inf, 1) as document 02's #105 has it */
    {&beta, {1, 1}, {HALVES, NONE, NONE}, {0}, GIVES(0x3fe0000000000000, 2, 0, 0)},
    {&beta, {2, 5}, {HALVES, NONE, NONE}, {0}, GIVES(0x3fd2492492492492, 2, 0, 0)},
    {&beta, {5, 2}, {HALVES, NONE, NONE}, {0}, GIVES(0x3fe6db6db6db6db7, 2, 0, 0)},
    {&beta, {.5, .5}, {SLICE(.9375, .9375, .5, .5), NONE, NONE}, {0}, GIVES(0x3fe0000000000000, 4, 0, 0)},
    {&beta, {1e200, 1e200}, {HALVES, NONE, NONE}, {0}, GIVES(0x3fe0000000000000, 2, 0, 0)},
    {&gamma, {2, 1}, {SLICE(.5), SLICE(-4, 0), NONE}, {0}, GIVES(0x3ffaaaaaaaaaaaab, 1, 2, 0)},
    {&gamma, {1, 2}, {NONE, NONE, SLICE(1)}, {0}, GIVES(0x4000000000000000, 0, 0, 1)},
    {&student, {1}, {NONE, SLICE(3, 2), NONE}, {0}, GIVES(0x3ff8000000000000, 0, 2, 0)},
    {&gamma, {INF, 1}, {NONE, NONE, SLICE(0)}, {0}, REFUSED(18, 3, 0)},
    {&chi, {0x1p-1074}, {HALVES, SLICE(1), SLICE(1)}, {0}, REFUSED(5, 0, 0)},
    {&mode, {0, 10, 4, 5}, {HALVES, NONE, NONE}, {0}, GIVES(0x4014000000000000, 2, 0, 0)},
    {&beta, {1, 1}, {SLICE(.5), NONE, NONE}, {0}, REFUSED(19, 1, 1)},
    {&beta, {1, 1}, {SLICE(.5, 1), NONE, NONE}, {0}, REFUSED(18, 1, 1)},
    /* the samplers that it leaves out, and a NaN of each that gives one */
    {&chi, {1}, {NONE, SLICE(3), NONE}, {0}, GIVES(0x4022000000000000, 0, 1, 0)},
    {&fisher, {1, 1}, {NONE, SLICE(3, 2), NONE}, {0}, GIVES(0x4002000000000000, 0, 2, 0)},
    {&mean, {0, 10, 4, 5}, {HALVES, NONE, NONE}, {0}, GIVES(0x4014000000000000, 2, 0, 0)},
    {&beta, {INF, INF}, {HALVES, NONE, NONE}, {0}, GIVES(0x7ff8000000000000, 2, 0, 0)},
    {&fisher, {INF, 1}, {NONE, SLICE(1), SLICE(1)}, {0}, GIVES(0x7ff8000000000000, 0, 1, 1)},
    {&student, {INF}, {NONE, SLICE(1), SLICE(1)}, {0}, GIVES(0x7ff8000000000000, 0, 1, 1)},
    {&mode, {0, 10, INF, 5}, {HALVES, NONE, NONE}, {0}, GIVES(0x7ff8000000000000, 2, 0, 0)},
    /* a NaN that no kernel answered, with the machine's own bits until it is mended: inf times 0, 0/0, 0 times inf */
    {&beta, {INF, .5}, {SLICE(1e-200, .5), NONE, NONE}, {0}, GIVES(0x7ff8000000000000, 2, 0, 0)},
    {&fisher, {1, 1}, {NONE, SLICE(0, 0), NONE}, {0}, GIVES(0x7ff8000000000000, 0, 2, 0)},
    {&student, {1}, {NONE, SLICE(0, 0), NONE}, {0}, GIVES(0x7ff8000000000000, 0, 2, 0)},
    /* Beta where #110 covers its parameters no more, and at the edges where it still does */
    {&beta, {0x1p-1074, 1}, {HALVES, NONE, NONE}, {0}, GIVES(0x7ff8000000000000, 2, 0, 0)},
    {&beta, {1e308, 1e308}, {HALVES, NONE, NONE}, {0}, GIVES(0x7ff8000000000000, 2, 0, 0)},
    {&beta, {MOST, 0x1p970}, {HALVES, NONE, NONE}, {0}, GIVES(0x7ff8000000000000, 2, 0, 0)},
    {&beta, {0x1p1023, MOST / 2}, {HALVES, NONE, NONE}, {0}, GIVES(0x7ff8000000000000, 2, 0, 0)},
    {&beta, {0x1p-1024, 1}, {HALVES, NONE, NONE}, {0}, GIVES(0x7ff8000000000000, 2, 0, 0)},
    {&beta, {0x1.0000000000004p-1024, 1}, {HALVES, NONE, NONE}, {0}, GIVES(0x0004000000000001, 2, 0, 0)},
    {&beta, {0x1.ffffffffffffep-1023, 1}, {HALVES, NONE, NONE}, {0}, GIVES(0x000fffffffffffff, 2, 0, 0)},
    {&beta, {0x1p-1022, 1}, {HALVES, NONE, NONE}, {0}, GIVES(0x0010000000000000, 2, 0, 0)},
    {&beta, {0x1p-1022, 0x1p-1022}, {HALVES, NONE, NONE}, {0}, GIVES(0x3fe0000000000000, 2, 0, 0)},
    {&beta, {MOST / 2, MOST / 2}, {HALVES, NONE, NONE}, {0}, GIVES(0x3fe0000000000000, 2, 0, 0)},
    {&beta, {MOST, 0x1p-1022}, {HALVES, NONE, NONE}, {0}, GIVES(0x3ff0000000000000, 2, 0, 0)},
    {&beta, {0x1p-1022, MOST}, {HALVES, NONE, NONE}, {0}, GIVES(0x0000000000000000, 2, 0, 0)},
    {&beta, {MOST, 0x1.fffffffffffffp969}, {HALVES, NONE, NONE}, {0}, GIVES(0x3ff0000000000000, 2, 0, 0)},
    {&beta, {0x1.fffffffffffffp969, MOST}, {HALVES, NONE, NONE}, {0}, GIVES(0x3c90000000000000, 2, 0, 0)},
    {&beta,
     {0x1.0000000000001p0, 0x1.0000000000001p0},
     {SLICE(0x1.fffffffffffffp-1, 0x1p-1074), NONE, NONE},
     {0},
     GIVES(0x3ca0000000000003, 2, 0, 0)},
    {&beta, {0x1p-1022, 1}, {SLICE(0x1p-1074, .5, .5, .5), NONE, NONE}, {0}, GIVES(0x0010000000000000, 4, 0, 0)},
    /* from further on: positions and indexes count from the start of the slice */
    {&beta, {1, 1}, {SLICE(9, .5, .5), SLICE(9), NONE}, {1, 1, 0}, GIVES(0x3fe0000000000000, 3, 1, 0)},
    {&beta, {1, 1}, {SLICE(9, .5, 0), SLICE(9), NONE}, {1, 1, 0}, REFUSED(18, 1, 2)},
    {&gamma, {1, 2}, {NONE, NONE, SLICE(9, -1)}, {0, 0, 1}, REFUSED(18, 3, 1)},
    {&gamma, {1, 2}, {NONE, NONE, SLICE(9)}, {0, 0, 1}, REFUSED(19, 3, 1)},
    {&gamma, {2, 1}, {SLICE(.5), SLICE(-4, INF), NONE}, {0}, REFUSED(18, 2, 1)},
    {&gamma, {2, 1}, {SLICE(.5), SLICE(-4), NONE}, {0}, REFUSED(19, 2, 1)},
    {&gamma, {.5, 1}, {NONE, SLICE(0), NONE}, {0}, REFUSED(19, 1, 0)},
    {&student, {4}, {SLICE(.5), SLICE(QUIET), NONE}, {0}, REFUSED(18, 2, 0)},
    {&fisher, {1, 1}, {NONE, SLICE(3), NONE}, {0}, REFUSED(19, 2, 1)},
    {&mean, {0, 10, 4, 5}, {SLICE(.5, QUIET), NONE, NONE}, {0}, REFUSED(18, 1, 1)},
    /* an exponential is used down to the least number above 0; either zero is refused, wherever it is needed, and only there */
    {&gamma, {1, 2}, {NONE, NONE, SLICE(0x1p-1074)}, {0}, GIVES(2, 0, 0, 1)},
    {&gamma, {INF, 1}, {NONE, NONE, SLICE(0x1p-1074)}, {0}, GIVES(0x7ff0000000000000, 0, 0, 1)},
    {&gamma, {1, 2}, {NONE, NONE, SLICE(0)}, {0}, REFUSED(18, 3, 0)},
    {&gamma, {1, 2}, {NONE, NONE, SLICE(-0.)}, {0}, REFUSED(18, 3, 0)},
    {&gamma, {INF, 1}, {NONE, NONE, SLICE(-0.)}, {0}, REFUSED(18, 3, 0)},
    {&gamma, {1, 2}, {NONE, NONE, SLICE(0, -0.)}, {0, 0, 1}, REFUSED(18, 3, 1)},
    {&gamma, {1, 2}, {NONE, NONE, SLICE(-0., 1, 0)}, {0, 0, 1}, GIVES(0x4000000000000000, 0, 0, 2)},
    {&chi, {INF}, {NONE, NONE, SLICE(0)}, {0}, REFUSED(18, 3, 0)},
    {&chi, {2}, {NONE, NONE, SLICE(-0.)}, {0}, REFUSED(18, 3, 0)},
    {&student, {INF}, {NONE, SLICE(1), SLICE(0)}, {0}, REFUSED(18, 3, 0)},
    {&student, {2}, {NONE, SLICE(1), SLICE(-0.)}, {0}, REFUSED(18, 3, 0)},
    {&fisher, {2, 1}, {NONE, SLICE(1), SLICE(0)}, {0}, REFUSED(18, 3, 0)},
    {&fisher, {1, 2}, {NONE, SLICE(1), SLICE(-0.)}, {0}, REFUSED(18, 3, 0)},
    {&fisher, {2, 2}, {NONE, NONE, SLICE(1, -0.)}, {0}, REFUSED(18, 3, 1)},
    {&fisher, {INF, INF}, {NONE, NONE, SLICE(1, 0)}, {0}, REFUSED(18, 3, 1)},
    /* the constructors' refusals, before any draw is looked at: a NaN is not above 0 */
    {&gamma, {0, 0}, {NONE, NONE, NONE}, {0}, REFUSED(1, 0, 0)},
    {&gamma, {QUIET, 1}, {NONE, NONE, NONE}, {0}, REFUSED(1, 0, 0)},
    {&gamma, {1, -1}, {NONE, NONE, NONE}, {0}, REFUSED(2, 0, 0)},
    {&beta, {-0., 0}, {NONE, NONE, NONE}, {0}, REFUSED(3, 0, 0)},
    {&beta, {1, QUIET}, {NONE, NONE, NONE}, {0}, REFUSED(4, 0, 0)},
    {&chi, {0}, {NONE, NONE, NONE}, {0}, REFUSED(5, 0, 0)},
    {&student, {-1}, {NONE, NONE, NONE}, {0}, REFUSED(5, 0, 0)},
    {&fisher, {0, 0}, {NONE, NONE, NONE}, {0}, REFUSED(6, 0, 0)},
    {&fisher, {1, QUIET}, {NONE, NONE, NONE}, {0}, REFUSED(7, 0, 0)},
    {&mode, {1, 1, 4, 1}, {NONE, NONE, NONE}, {0}, REFUSED(8, 0, 0)},
    {&mode, {0, 1, 4, 2}, {NONE, NONE, NONE}, {0}, REFUSED(9, 0, 0)},
    {&mode, {0, 1, -1, .5}, {NONE, NONE, NONE}, {0}, REFUSED(10, 0, 0)},
    {&mean, {1, 0, 4, 1}, {NONE, NONE, NONE}, {0}, REFUSED(8, 0, 0)},
    {&mean, {0, 1, 4, 2}, {NONE, NONE, NONE}, {0}, REFUSED(9, 0, 0)},
    {&mean, {0, 1, -1, .5}, {NONE, NONE, NONE}, {0}, REFUSED(10, 0, 0)},
    /* a constructor's refusal comes before 17, and carries the positions as lent */
    {&gamma, {1, 0}, {NONE, NONE, NONE}, {3, 2, 1}, REFUSED(2, 0, 0)},
    {&gamma, {1, 1}, {NONE, NONE, NONE}, {3, 2, 1}, REFUSED(17, 0, 0)},
};

static void hold_rows(void) {
    for (size_t i = 0; i < COUNT(rows); i++) {
        const struct row *r = &rows[i];
        struct positions after = r->number ? r->at : r->after;
        word value = r->number == 0 ? r->value : r->number < 18 ? LENT : 0;
        for (int what = SAMPLE; what <= FILL; what++)
            for (size_t count = 1; count <= (what == SAMPLE ? 3 : 1); count++) {
                lend(r->at);
                HOLD(call(r->sampler, what, r->parameters, r->draws, count, 6) == r->number);
                hold_report(r->number, r->kind, r->index, after);
                HOLD(cell(0) == value);
                hold_around(1);
            }
    }
}

/* ---- what holds of every sampler */

static const double some_uniforms[] = {.5, .5, .5, .5, .5, .5, .5, .5};
static const double some_normals[] = {0, .5, -.5, .25, 0, 1, 0, .5};
static const struct draws some = {{some_uniforms, 8}, {some_normals, 8}, NONE};

static void hold_short(const struct sampler *s) {
    for (size_t len = 0; len < 6; len++)
        for (int what = SAMPLE; what <= FILL; what++) {
            lend(START);
            HOLD(call(s, what, s->good, some, 1, len) == 255);
            hold_untouched(START);
        }
    lend(START);
    HOLD(call(s, SAMPLE, s->good, some, EMPTY, 6) == 255);
    hold_untouched(START);
    /* 255 comes before a constructor's refusal. */
    static const double bad[4] = {-1, -1, -1, -1};
    lend(START);
    HOLD(call(s, FILL, bad, some, 1, 5) == 255);
    hold_untouched(START);
}

static void hold_longer(const struct sampler *s) {
    for (int what = SAMPLE; what <= FILL; what++) {
        lend(START);
        HOLD(call(s, what, s->good, some, 1, MOST_REPORT) == 0);
        HOLD(cell(0) != LENT);
        hold_around(1);
    }
}

static void hold_empty(const struct sampler *s) {
    const struct positions end = {8, 8, 0};
    lend(end);
    HOLD(call(s, FILL, s->good, some, EMPTY, 6) == 0);
    hold_report(0, 0, 0, end);
    hold_around(0);
    const struct draws none = {NONE, NONE, NONE};
    for (size_t count = 1; count < 4; count++) {
        lend(START);
        HOLD(call(s, FILL, s->good, none, count, 6) == 19);
        HOLD(cell(0) == 0);
        HOLD(cell(count - 1) == 0);
        hold_around(count);
    }
}

static void hold_above(const struct sampler *s) {
    static const struct positions above[] = {{9, 0, 0}, {0, 9, 0}, {0, 0, 1}, {(size_t)-1, (size_t)-1, (size_t)-1}};
    for (size_t i = 0; i < COUNT(above); i++)
        for (int what = SAMPLE; what <= FILL; what++)
            for (size_t count = what == SAMPLE; count < 3; count++) {
                lend(above[i]);
                HOLD(call(s, what, s->good, some, count, 6) == 17);
                hold_report(17, 0, 0, above[i]);
                hold_around(0);
            }
}

/* A fill of two cells is two single samples, the second from where the first left off. */
static void hold_fill(const struct sampler *s) {
    lend(START);
    HOLD(call(s, SAMPLE, s->good, some, 1, 6) == 0);
    struct positions at = {report[AROUND + 3], report[AROUND + 4], report[AROUND + 5]};
    word first = cell(0);
    lend(at);
    HOLD(call(s, SAMPLE, s->good, some, 1, 6) == 0);
    struct positions after = {report[AROUND + 3], report[AROUND + 4], report[AROUND + 5]};
    word second = cell(0);
    lend(START);
    HOLD(call(s, FILL, s->good, some, 2, 6) == 0);
    hold_report(0, 0, 0, after);
    HOLD(cell(0) == first);
    HOLD(cell(1) == second);
    hold_around(2);
}

/* ---- fills whose cells differ */

static void hold_fills(void) {
    const struct draws normals = {NONE, SLICE(0, 0, 3, 2, 0, 0), NONE};
    const double squares[4] = {1, 1}, doubled[4] = {1, 2};
    const struct positions used = {0, 6, 0};
    lend(START);
    HOLD(call(&fisher, FILL, squares, normals, 3, 6) == 0);
    hold_report(0, 0, 0, used);
    HOLD(cell(0) == NOT_A_NUMBER);
    HOLD(cell(1) == word_of(2.25));
    HOLD(cell(2) == NOT_A_NUMBER);
    hold_around(3);
    /* Refused in the fourth cell: those before it are +0 too. */
    lend(START);
    HOLD(call(&fisher, FILL, squares, normals, 4, 6) == 19);
    hold_report(19, 2, 6, START);
    for (size_t i = 0; i < 4; i++)
        HOLD(cell(i) == 0);
    hold_around(4);
    /* The same by an exponential of either zero. */
    const struct draws zeros[] = {{NONE, NONE, SLICE(1, 0, 1)}, {NONE, NONE, SLICE(1, -0., 1)}};
    for (size_t i = 0; i < COUNT(zeros); i++) {
        lend(START);
        HOLD(call(&gamma, FILL, doubled, zeros[i], 2, 6) == 18);
        hold_report(18, 3, 1, START);
        HOLD(cell(0) == 0 && cell(1) == 0);
        hold_around(2);
    }
}

/* ---- what a constructor made */

#define MOST_FIELDS 11

typedef size_t made_of_two(double, double, EWEB_SHOWN);
typedef size_t made_of_four(double, double, double, double, EWEB_SHOWN);

struct maker {
    const char *name;
    made_of_two *two;
    made_of_four *four;
    size_t kinds, fields;
    double good[4], bad[4];
    size_t number; /* of what is bad */
};

static const struct maker makers[] = {
    {"gamma_made", eweb_gamma_made, 0, 1, 5, {2, 1}, {1, 0}, 2},
    {"beta_made", eweb_beta_made, 0, 2, 7, {2, 5}, {0, 1}, 3},
    {"fisher_f_made", eweb_fisher_f_made, 0, 2, 11, {1, 4}, {1, 0}, 7},
    {"pert_mode_made", 0, eweb_pert_mode_made, 2, 9, {0, 10, 4, 5}, {0, 1, 4, 2}, 9},
    {"pert_mean_made", 0, eweb_pert_mean_made, 2, 9, {0, 10, 4, 5}, {0, 1, -1, .5}, 10},
};

static size_t make(const struct maker *m, const double p[4], size_t *kinds, size_t kinds_len, double *fields, size_t fields_len) {
    name = m->name;
    if (m->two)
        return m->two(p[0], p[1], kinds, kinds_len, fields, fields_len);
    return m->four(p[0], p[1], p[2], p[3], kinds, kinds_len, fields, fields_len);
}

struct made {
    size_t maker;
    double parameters[4];
    size_t kinds[2];
    word fields[MOST_FIELDS];
};

#define ONE 0x3ff0000000000000
#define TWO 0x4000000000000000
#define HALF 0x3fe0000000000000
#define TEN 0x4024000000000000
#define NAN_WORD 0x7ff8000000000000
#define INF_WORD 0x7ff0000000000000
#define D_OF_TWO 0x3ffaaaaaaaaaaaab
#define C_OF_TWO 0x3fd08654a2d4f6da

static const struct made mades[] = {
    /* of each kind */
    {0, {1, 2}, {1}, {TWO}},
    {0, {INF, 1}, {1}, {INF_WORD}},
    {0, {.5, 3}, {2}, {0, TWO, 0x4008000000000000, 0x3fd3c03650e00e03, 0x3ff2aaaaaaaaaaab}},
    {0, {2, 1}, {3}, {0, 0, ONE, C_OF_TWO, D_OF_TWO}},
    {1, {2, 5}, {1, 0}, {TWO, 0x4014000000000000, 0x401c000000000000, 0x3fe3d87675649728, 0x400ce64cff816240}},
    {1, {5, 2}, {1, 1}, {TWO, 0x4014000000000000, 0x401c000000000000, 0x3fe3d87675649728, 0x400ce64cff816240}},
    {1, {1, 1}, {2, 0}, {ONE, ONE, TWO, ONE, 0, 0x3fd0000000000000, ONE}},
    {1, {.5, 3}, {2, 1}, {0x4008000000000000, HALF, 0x400c000000000000, TWO, 0, 0x3f97d46cefa8d9e0, 0x3fe1249249249249}},
    {2, {1, 4}, {0, 3}, {0, 0, 0, 0, 0, 0, 0, TWO, C_OF_TWO, D_OF_TWO, 0x4010000000000000}},
    {2, {2, 1}, {1, 0}, {TWO, 0, 0, 0, 0, 0, 0, 0, 0, 0, HALF}},
    {3, {0, 10, 0, 5}, {2, 0}, {0, TEN, ONE, ONE, TWO, ONE, 0, 0x3fd0000000000000, ONE}},
    {4,
     {0, 10, 4, 5},
     {1, 1},
     {0, TEN, 0x4008000000000000, 0x4008000000000000, 0x4018000000000000, 0x3fe279a74590331c, 0x4012ed9eba16132b}},
    /* whose fields are NaN: by inf - inf under a root, inf/inf, inf/inf of degrees of freedom, and those within a PERT */
    {1, {INF, INF}, {1, 1}, {INF_WORD, INF_WORD, INF_WORD, NAN_WORD, NAN_WORD}},
    {1, {INF, .5}, {2, 0}, {INF_WORD, HALF, INF_WORD, TWO, 0, NAN_WORD, HALF}},
    {2, {INF, INF}, {1, 1}, {INF_WORD, 0, 0, 0, 0, INF_WORD, 0, 0, 0, 0, NAN_WORD}},
    {3, {0, 10, INF, 5}, {1, 1}, {0, TEN, INF_WORD, INF_WORD, INF_WORD, NAN_WORD, NAN_WORD}},
    {3, {0, 10, 1e308, 10}, {2, 0}, {0, TEN, INF_WORD, ONE, INF_WORD, ONE, 0, NAN_WORD, 0x3fe8000000000000}},
};

/* What stands in the cells: of the first as many as were written, and behind them what was lent. */
static void hold_made(size_t kinds_written, const size_t kinds[2], size_t fields_written, const word fields[MOST_FIELDS]) {
    for (size_t i = 0; i < MOST_REPORT; i++)
        HOLD(report[AROUND + i] == (i < kinds_written ? kinds[i] : BEFORE));
    for (size_t i = 0; i < fields_written; i++)
        HOLD(cell(i) == fields[i]);
    HOLD(report[AROUND - 1] == BEFORE && report[AROUND + MOST_REPORT] == BEFORE);
    HOLD(cell(fields_written) == LENT && word_at(out - 1) == LENT);
}

static void lend_made(void) {
    const struct positions before = {BEFORE, BEFORE, BEFORE};
    lend(before);
}

static void hold_mades(void) {
    static const word nans[] = {0x7ff8000000000000, 0xfff8000000000000, 0x7ff4000000000077, 0xfff0000000000001};
    for (size_t i = 0; i < COUNT(mades); i++) {
        const struct made *r = &mades[i];
        const struct maker *m = &makers[r->maker];
        for (size_t more = 0; more < 3; more++) {
            lend_made();
            HOLD(make(m, r->parameters, report + AROUND, m->kinds + more, out, m->fields + more) == 0);
            hold_made(m->kinds, r->kinds, m->fields, r->fields);
        }
    }
    for (size_t i = 0; i < COUNT(makers); i++) {
        const struct maker *m = &makers[i];
        /* too few of either, which comes before a refusal; refused */
        for (size_t len = 0; len < m->fields; len++) {
            lend_made();
            HOLD(make(m, m->good, report + AROUND, m->kinds, out, len) == 255);
            HOLD(make(m, m->bad, report + AROUND, m->kinds, out, len) == 255);
            if (len < m->kinds)
                HOLD(make(m, m->good, report + AROUND, len, out, m->fields) == 255);
            hold_made(0, 0, 0, 0);
        }
        HOLD(make(m, m->bad, report + AROUND, m->kinds, out, m->fields) == m->number);
        for (size_t j = 0; j < COUNT(nans); j++)
            for (size_t k = 0; k < (m->two ? 2 : 4); k++) {
                double p[4] = {m->good[0], m->good[1], m->good[2], m->good[3]};
                p[k] = float_of(nans[j]);
                size_t number = make(m, p, report + AROUND, m->kinds, out, m->fields);
                HOLD(number > 0 && number < 11);
            }
        hold_made(0, 0, 0, 0);
    }
}

/* ---- Dirichlet */

static const struct draws exponentials_1_3 = {NONE, NONE, SLICE(1, 3)};

static void refuses_alpha(struct slice alpha, size_t count, size_t number, size_t index) {
    const struct positions above = {1, 0, 0}; /* which 17 would refuse */
    lend(above);
    HOLD(vector(alpha, exponentials_1_3, count, 6) == number);
    hold_report(number, 0, index, above);
    hold_around(0);
}

static void hold_vectors(void) {
    const struct slice ones = SLICE(1, 1), tenths = SLICE(.1, .1);
    const struct draws uniforms = {HALVES, NONE, NONE};
    const struct positions two_exponentials = {0, 0, 2}, two_uniforms = {2, 0, 0};
    lend(START);
    HOLD(vector(ones, exponentials_1_3, 2, 6) == 0);
    hold_report(0, 0, 0, two_exponentials);
    HOLD(cell(0) == 0x3fd0000000000000);
    HOLD(cell(1) == 0x3fe8000000000000);
    hold_around(2);
    lend(START);
    HOLD(vector(tenths, uniforms, 2, 6) == 0);
    hold_report(0, 0, 0, two_uniforms);
    HOLD(cell(0) == 0x3fe0000000000000);
    HOLD(cell(1) == 0x3fe0000000000000);
    hold_around(2);
    /* A sum of 0 makes a vector of NaN, as in the Rust: both components underflow. */
    const struct slice small = SLICE(.11, .11);
    const struct draws tiny = {SLICE(1e-40, .5, 1e-40, .5), SLICE(0, 0), NONE};
    const struct positions two_trials = {4, 2, 0};
    lend(START);
    HOLD(vector(small, tiny, 2, 6) == 0);
    hold_report(0, 0, 0, two_trials);
    HOLD(cell(0) == NOT_A_NUMBER);
    HOLD(cell(1) == NOT_A_NUMBER);
    hold_around(2);
    /* Draws that are absent and unusable clear all of the output. */
    const struct draws one_draw = {NONE, NONE, SLICE(1)}, bad_draw = {SLICE(.5, 1), NONE, NONE};
    lend(START);
    HOLD(vector(ones, one_draw, 2, 6) == 19);
    hold_report(19, 3, 1, START);
    HOLD(cell(0) == 0 && cell(1) == 0);
    hold_around(2);
    lend(START);
    HOLD(vector(tenths, bad_draw, 2, 6) == 18);
    hold_report(18, 1, 1, START);
    HOLD(cell(0) == 0 && cell(1) == 0);
    hold_around(2);
    const struct draws zeros[] = {{NONE, NONE, SLICE(1, 0)}, {NONE, NONE, SLICE(1, -0.)}};
    for (size_t i = 0; i < COUNT(zeros); i++) {
        lend(START);
        HOLD(vector(ones, zeros[i], 2, 6) == 18);
        hold_report(18, 3, 1, START);
        HOLD(cell(0) == 0 && cell(1) == 0);
        hold_around(2);
    }
    /* Too short a report. */
    for (size_t len = 0; len < 6; len++) {
        lend(START);
        HOLD(vector(ones, exponentials_1_3, 2, len) == 255);
        hold_untouched(START);
    }
}

static void hold_alphas(void) {
    static double many[4097];
    for (size_t i = 0; i < COUNT(many); i++)
        many[i] = -1;
    const struct slice none = NONE, single = SLICE(-1), most = {many, 4096}, more = {many, 4097};
    refuses_alpha(none, 0, 11, 0);
    refuses_alpha(single, 1, 11, 0);
    refuses_alpha(more, 4097, 15, 0);
    refuses_alpha(most, 4096, 12, 0);
    const struct slice zero = SLICE(1, 0, INF), nan = SLICE(1, 1, QUIET), infinite = SLICE(1, INF, 0),
                       subnormal = SLICE(0x1p-1023, INF), good = SLICE(1, 1);
    refuses_alpha(zero, 3, 12, 1);
    refuses_alpha(nan, 3, 12, 2);
    refuses_alpha(infinite, 3, 13, 1);
    refuses_alpha(subnormal, 2, 14, 0);
    refuses_alpha(zero, 2, 12, 1); /* before 16 */
    for (size_t count = 0; count < 5; count++)
        refuses_alpha(good, count, count == 2 ? 17 : 16, 0);
}

/* The most elements that there may be, each with its own draw: e times 1/sum. */
static void hold_longest(void) {
    static double ones[4096], draws[4096];
    for (size_t i = 0; i < COUNT(ones); i++) {
        ones[i] = 1;
        draws[i] = i % 2 ? 3 : 1;
    }
    const struct slice alpha = {ones, 4096};
    const struct draws lent = {NONE, NONE, {draws, 4096}};
    const struct positions used = {0, 0, 4096};
    lend(START);
    HOLD(vector(alpha, lent, 4096, 6) == 0);
    hold_report(0, 0, 0, used);
    for (size_t i = 0; i < COUNT(ones); i++)
        HOLD(cell(i) == word_of(i % 2 ? 0x3p-13 : 0x1p-13));
    hold_around(4096);
}

/* ---- NULL where a length is 0: it is not looked at */

static void hold_null(void) {
    const struct draws none = {{0, 0}, {0, 0}, {0, 0}};
    const struct slice ones = SLICE(1, 1), no_alpha = {0, 0};
    for (size_t i = 0; i < COUNT(samplers); i++) {
        const struct sampler *s = samplers[i];
        /* no draws; no cell in out; nothing at all */
        lend(START);
        HOLD(call(s, SAMPLE, s->good, none, 1, 6) == 19);
        HOLD(report[AROUND + 2] == 0);
        HOLD(cell(0) == 0);
        hold_around(1);
        out = 0;
        lend(START);
        HOLD(call(s, FILL, s->good, some, EMPTY, 6) == 0);
        hold_report(0, 0, 0, START);
        lend(START);
        HOLD(call(s, SAMPLE, s->good, some, EMPTY, 6) == 255);
        out = cells + AROUND;
        hold_untouched(START);
        lent_report = 0;
        for (int what = SAMPLE; what <= FILL; what++)
            HOLD(call(s, what, s->good, some, 1, EMPTY) == 255);
        lent_report = report + AROUND;
        hold_untouched(START);
    }
    lend(START);
    HOLD(vector(no_alpha, none, EMPTY, 6) == 11);
    hold_report(11, 0, 0, START);
    hold_around(0);
    lend(START);
    HOLD(vector(ones, none, 2, 6) == 19);
    hold_report(19, 3, 0, START);
    out = 0;
    lend(START);
    HOLD(vector(ones, none, EMPTY, 6) == 16);
    lent_report = 0;
    HOLD(vector(ones, none, EMPTY, EMPTY) == 255);
    out = cells + AROUND;
    lent_report = report + AROUND;
    for (size_t i = 0; i < COUNT(makers); i++)
        HOLD(make(&makers[i], makers[i].good, 0, EMPTY, 0, EMPTY) == 255);
}

/* ---- the kernels; compare/native has four million calls of these */

static void hold_kernels(void) {
    static const word nans[] = {0x7ff8000000000000, 0xfff8000000000000, 0x7ff4000000000077, 0xfff0000000000001};
    name = "kernels";
    for (size_t i = 0; i < COUNT(nans); i++) {
        double x = float_of(nans[i]);
        HOLD(word_of(eweb_ln(x)) == NOT_A_NUMBER);
        HOLD(word_of(eweb_exp(x)) == NOT_A_NUMBER);
        HOLD(word_of(eweb_powf(x, 2)) == NOT_A_NUMBER);
        HOLD(word_of(eweb_powf(.5, x)) == NOT_A_NUMBER);
        HOLD(word_of(eweb_sqrt(x)) == NOT_A_NUMBER);
    }
    HOLD(word_of(eweb_ln(1)) == 0);
    HOLD(word_of(eweb_ln(-1)) == NOT_A_NUMBER);
    HOLD(word_of(eweb_ln(-0.)) == 0xfff0000000000000);
    HOLD(word_of(eweb_exp(0)) == word_of(1));
    HOLD(word_of(eweb_exp(710)) == INFINITE);
    HOLD(word_of(eweb_exp(-708)) == 0x0017c8ab2288c9ac);
    HOLD(word_of(eweb_exp(-745)) == 1);
    HOLD(word_of(eweb_exp(-746)) == 0);
    HOLD(word_of(eweb_exp(-INF)) == 0);
    HOLD(word_of(eweb_powf(1, INF)) == NOT_A_NUMBER);
    HOLD(word_of(eweb_powf(1, 3)) == word_of(1));
    HOLD(word_of(eweb_sqrt(-1)) == NOT_A_NUMBER);
    HOLD(word_of(eweb_sqrt(-0.)) == word_of(-0.));
    HOLD(word_of(eweb_sqrt(2)) == 0x3ff6a09e667f3bcd);
}

int main(void) {
    hold_kernels();
    hold_rows();
    for (size_t i = 0; i < COUNT(samplers); i++) {
        hold_short(samplers[i]);
        hold_longer(samplers[i]);
        hold_empty(samplers[i]);
        hold_above(samplers[i]);
        hold_fill(samplers[i]);
    }
    hold_fills();
    hold_vectors();
    hold_alphas();
    hold_longest();
    hold_mades();
    hold_null();
    printf("eweb.h: %ld held, %ld not so\n", held, wrong);
    return wrong > 0;
}
