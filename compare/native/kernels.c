/* The proved kernels, linked as a user links them, against document 01's kernels written plainly in C: every answer's bits.
   Here a NaN's own bits can be seen, which no proof speaks of. */
#include "eweb.h"
#include <stdio.h>

typedef unsigned long long word;

#define INPUTS 1000000
#define SHOWN 5

static const word SIGN = 0x8000000000000000;
static const word INFINITE = 0x7ff0000000000000;
static const word NOT_A_NUMBER = 0x7ff8000000000000;
static const word FRACTION = 0xfffffffffffff;
static const word ONE = 0x3ff0000000000000;
static const word HI = 0x3fe62e42fee00000;
static const word LO = 0x3dea39ef35793c76;
static const word INV = 0x3ff71547652b82fe;
static const word ROOT = 0x3ff6a09e667f3bcd;

static double float_of(word w) {
    double x;
    __builtin_memcpy(&x, &w, sizeof x);
    return x;
}

static word word_of(double x) {
    word w;
    __builtin_memcpy(&w, &x, sizeof w);
    return w;
}

/* ---- the kernels */

static double one_nan(double x) {
    return x != x ? float_of(NOT_A_NUMBER) : x;
}

/* x = m * 2^e with 1 <= m < 2, for a finite x above 0; a subnormal's leading digit moves up to the place of a normal's. */
static double significand(double x, int *e) {
    word w = word_of(x);
    int places = 0;
    if (w <= FRACTION)
        places = __builtin_clzll(w) - 11;
    *e = w <= FRACTION ? -1022 - places : (int)(w >> 52) - 1023;
    return float_of(((w << places) & FRACTION) | ONE);
}

static double ln(double x) {
    if (x != x || x < 0)
        return float_of(NOT_A_NUMBER);
    if (x == 0)
        return float_of(INFINITE | SIGN);
    if (x == float_of(INFINITE))
        return x;
    int e;
    double m = significand(x, &e);
    if (m > float_of(ROOT)) {
        m = m / 2;
        e++;
    }
    double s = (m - 1) / (m + 1);
    double q = s * s;
    double p = 1.0 / 21;
    for (int k = 9; k >= 1; k--)
        p = 1.0 / (2 * k + 1) + q * p;
    double t = s + s * (q * p);
    return e * float_of(HI) + (2 * t + e * float_of(LO));
}

/* 2^n, for an n of a normal number */
static double power(long n) {
    return float_of((word)(n + 1023) << 52);
}

static double factorial(int j) {
    double f = 1;
    for (int i = 2; i <= j; i++)
        f = f * i;
    return f;
}

static double exponential(double x) {
    if (x != x)
        return float_of(NOT_A_NUMBER);
    if (x >= 710)
        return float_of(INFINITE);
    if (x <= -746)
        return 0;
    double y = x * float_of(INV);
    long k = (long)(y >= 0 ? y + 0.5 : y - 0.5);
    double r = (x - k * float_of(HI)) - k * float_of(LO);
    double p = 1.0 / factorial(13);
    for (int j = 12; j >= 0; j--)
        p = 1.0 / factorial(j) + r * p;
    long h = (k - (k & 1)) / 2;
    return (p * power(h)) * power(k - h);
}

static double powers(double u, double y) {
    return exponential(y * ln(u));
}

/* The compiler holds one NaN for as good as another, and drops the test after its own root unless it can't see that. */
static double root(double x) {
    double r = __builtin_sqrt(x);
    __asm__("" : "+x"(r));
    return one_nan(r);
}

/* ---- the inputs */

static word state = 20;

/* splitmix64 */
static word next(void) {
    word z = state += 0x9e3779b97f4a7c15;
    z = (z ^ (z >> 30)) * 0xbf58476d1ce4e5b9;
    z = (z ^ (z >> 27)) * 0x94d049bb133111eb;
    return z ^ (z >> 31);
}

static double unit(void) {
    return (double)(2 * (next() >> 12) + 1) * 0x1p-53;
}

static double between(double low, double high) {
    return low + unit() * (high - low);
}

static word near(word w, word steps) {
    return w + next() % (2 * steps + 1) - steps;
}

/* 710 and where exp overflows; -708; the last x at which exp is normal, and the last at which it is above 0; -746. */
static const word limits[] = {0x4086300000000000, 0x40862e42fefa39ef, 0xc086200000000000,
                              0xc086232bdd7abcd2, 0xc0874910d52d3051, 0xc087500000000000};

static const word edges[] = {
    0, 1, 2, 0xffffffffffffe, 0xfffffffffffff, 0x10000000000000, 0x10000000000001, 0x3fe0000000000000,
    0x3feffffffffffffe, 0x3fefffffffffffff, 0x3ff0000000000000, 0x3ff0000000000001, 0x4000000000000000,
    0x7feffffffffffffe, 0x7fefffffffffffff, 0x7ff0000000000000, 0x7ff0000000000001, 0x7ff4000000000077,
    0x7ff8000000000000, 0x7ff8000000000123, 0x7fffffffffffffff};

#define COUNT(list) (sizeof(list) / sizeof(list)[0])

/* An input of the kind i: what each path of the kernels is taken on, with NaNs of either sign and any payload. */
static word input(word i) {
    word w = next();
    switch (i % 12) {
    case 0:
        return w;
    case 1:
        return 1 + w % (INFINITE - 1);
    case 2:
        return (w | SIGN) >> (12 + next() % 52);
    case 3:
        return word_of(unit());
    case 4:
        return word_of(between(-746.5, 710.5));
    case 5:
        return word_of(between(-1, 1));
    case 6:
        return INFINITE | w | 1;
    case 7:
        return near((ROOT & FRACTION) + ((1 + w % 2046) << 52), 3);
    case 8:
        return near(word_of(((double)(w % 2102) - 1076.5) * 0x1.62e42fefa39efp-1), 3);
    case 9:
        return near((1 + w % 2046) << 52, 2);
    case 10:
        return near(limits[w % COUNT(limits)], 8);
    default:
        w = 1 + w % 0x4000000;
        return near(word_of((double)(w * w)), 1);
    }
}

/* powf's second argument, for a first in (0, 1) as the samplers have it, and any other. */
static word second(word i) {
    switch (i % 5) {
    case 0:
        return word_of(1 / unit());
    case 1:
        return word_of(between(1, 100));
    case 2:
        return edges[next() % COUNT(edges)] ^ (next() & SIGN);
    case 3:
        return next();
    default:
        return ONE + next() % 0x400000000000000;
    }
}

/* ---- the comparison */

static long calls, differ, nans, wrong_nans;

static void compare(const char *name, word x, word y, double proved, double plain) {
    word a = word_of(proved), b = word_of(plain);
    calls++;
    if (proved != proved) {
        nans++;
        wrong_nans += a != NOT_A_NUMBER;
    }
    if (a != b && differ++ < SHOWN)
        printf("%s %016llx %016llx: %016llx proved, %016llx in C\n", name, x, y, a, b);
}

static void all(word w, word v) {
    double x = float_of(w), y = float_of(v);
    compare("ln", w, 0, eweb_ln(x), ln(x));
    compare("exp", w, 0, eweb_exp(x), exponential(x));
    compare("powf", w, v, eweb_powf(x, y), powers(x, y));
    compare("sqrt", w, 0, eweb_sqrt(x), root(x));
}

static void only_sqrt(word w) {
    compare("sqrt", w, 0, eweb_sqrt(float_of(w)), root(float_of(w)));
}

/* The proved root starts from a table whose entry i stands for the m from i * 2^44 to below (i + 1) * 2^44. Of each entry the first and the
   last m that sqrt can ask for, and those next to them, among the least numbers, about 1 and among the largest: from 2^53 on m is even,
   and its number has one exponent more. Then the first and the last subnormal, with as few digits as i has, with some more, with the most. */
static void ends_of_entry(word i) {
    static const word exponents[] = {1, 1023, 2045}, places[] = {0, 22, 42};
    word step = i < 512 ? 1 : 2, first = i << 44, last = ((i + 1) << 44) - step;
    word ends[] = {first, first + step, last - step, last};
    for (word k = 0; k < COUNT(exponents); k++)
        for (word j = 0; j < COUNT(ends); j++)
            only_sqrt(ends[j] / step + ((exponents[k] + step - 2) << 52));
    for (word k = 0; k < COUNT(places); k++) {
        only_sqrt(i << places[k]);
        only_sqrt(((i + 1) << places[k]) - 1);
    }
}

int main(void) {
    for (word i = 0; i < 2 * COUNT(edges); i++)
        for (word j = 0; j < 2 * COUNT(edges); j++)
            all(edges[i / 2] | (i % 2 ? SIGN : 0), edges[j / 2] | (j % 2 ? SIGN : 0));
    for (word i = 0; i < INPUTS; i++) {
        word x = input(i);
        all(x, second(i));
    }
    for (word i = 256; i < 1024; i++)
        ends_of_entry(i);
    printf("kernels in C: %ld calls, %ld differ; %ld NaN answers, %ld of them not 7ff8000000000000\n", calls, differ, nans,
           wrong_nans);
    return differ + wrong_nans > 0;
}
