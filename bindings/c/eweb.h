/* Ewebasket for C: the samplers of rand_distr 0.6.0 over draws that the caller lends, proved to follow document 01, and the
   kernels that they rest on. `bindings/archive` makes the archive to link, target/bindings/libewebasket.a.

   Any numbers may be passed, NaN of any sign and payload included: no call traps, and every call ends. No proof covers the caller,
   who has to keep five things:
     - no pointer is NULL, unless the length is 0: then it is not looked at;
     - a length is the number of elements that stand at its pointer, no more;
     - what is written, out and report, kinds and fields, overlaps nothing else that is lent (the draws and alpha, which are only
       read, may overlap each other);
     - nothing else writes to what is lent during a call, nor reads what the call writes;
     - the calling thread's floating-point environment is IEEE 754's default: results are rounded to nearest, ties to even, and
       subnormal numbers are kept. With rounding set otherwise (fesetround), or numbers flushed to zero (which linking with
       -ffast-math sets as the program starts), the same inputs give other bits, and a usable draw can be refused.
       eweb_environment answers whether it is so.

   Threads. Nothing is kept between calls: a call reads and writes what it is lent, and its thread's floating-point environment
   is all the state that it depends on. So calls of several threads are independent, as long as each keeps the five things.

   Draws. A usable uniform lies strictly between 0 and 1, a usable normal is finite, a usable exponential is finite and above 0
   (document 02, #105). Only the draw needed next is examined.

   Report, an array of at least 6 cells. On entry cells 3, 4, 5 are the positions to start from in uniforms, normals and
   exponentials; cells 0 to 2 are not read. On return
     [0] the number of the refusal, or 0    [1] its kind    [2] its index    each 0 where the table below names none
     [3] [4] [5] the positions past the draws that were used; after a refusal those lent.
   Cells from 6 on stay as they were.

   Answer. The number again: 0 where the call gave its result, 1 to 19 where it was refused. 255 where report has fewer than 6
   cells, or where a single sample finds no cell in out: then nothing is written, to report neither.

     1, 2         Gamma's shape, then scale, is not above 0
     3, 4         Beta's alpha, then beta, is not above 0
     5            chi-squared or Student: k is not 1, and 0.5 * k is not above 0
     6, 7         Fisher's m, then n, by the rule of 5
     8, 9, 10     PERT's range (also where its Beta is refused), mode, shape
     11, 15       Dirichlet has fewer than 2, more than 4,096 elements
     12, 13, 14   an element of alpha is not above 0, infinite, subnormal; index: which
     16           Dirichlet's out is not as long as alpha
     17           a position is above its slice's length
     18, 19       the next draw is unusable, absent; kind: 1 uniform, 2 normal, 3 exponential; index: where in its slice
   Where several hold, the first of this order is given: 255; a constructor's, 1 to 10; 11, 15, the first element refused by 12 to
   14, 16; 17; then the draws as they are come to.

   Out. A fill takes a sample into each cell, in order; with no cell it uses nothing and answers 0, or the number of the
   constructor or 17. A single sample treats out[0] as a fill treats an out of one cell, and leaves the other cells. After a
   refusal up to 17 every cell is as it was; after 18 or 19 all of out, of a single sample out[0], is +0. Every NaN in
   out, and every NaN that a kernel answers, has the bits 7ff8000000000000. */
#ifndef EWEB_H
#define EWEB_H

#include <stddef.h>

#ifdef __cplusplus
extern "C" {
#endif

/* The kernels, each for any number. Document 01, section Kernels, says what each answers; the lower limit of exp is document
   02's, #102. */

/* The natural logarithm. NaN below 0, minus infinity at either zero. */
double eweb_ln(double x);

/* e to the power x. Plus infinity from 710 up, +0 from -746 down; subnormal from about -745.13 up to -708.4. */
double eweb_exp(double x);

/* exp of the rounded product of y and ln u, for any u and y: unlike C's pow it is NaN at (1, infinity) and at (0, 0). */
double eweb_powf(double u, double y);

/* The square root, correctly rounded as IEEE 754 asks. */
double eweb_sqrt(double x);

/* What every sampler is lent. The type of a sampler of one parameter is then size_t(double, EWEB_LENT). */
#define EWEB_LENT                                                                                                                \
    const double *uniforms, size_t uniforms_len, const double *normals, size_t normals_len, const double *exponentials,          \
        size_t exponentials_len, double *out, size_t out_len, size_t *report, size_t report_len

/* Gamma(shape, scale): refused by 1, 2. Reads normals and uniforms; at shape 1, or where either is infinite, an exponential. */
size_t eweb_gamma_sample(double shape, double scale, EWEB_LENT);
size_t eweb_gamma_fill(double shape, double scale, EWEB_LENT);

/* Beta(alpha, beta): refused by 3, 4. Reads two uniforms a trial. For normal alpha and beta whose sum, rounded, is finite, every
   sample lies from 0 to 1; subnormal parameters and those whose sum overflows are not covered: Beta(5e-324, 1) and
   Beta(1e308, 1e308) can give NaN. */
size_t eweb_beta_sample(double alpha, double beta, EWEB_LENT);
size_t eweb_beta_fill(double alpha, double beta, EWEB_LENT);

/* Chi-squared of k degrees of freedom: refused by 5. At k = 1 a normal squared, else Gamma(0.5 * k, 2). */
size_t eweb_chi_squared_sample(double k, EWEB_LENT);
size_t eweb_chi_squared_fill(double k, EWEB_LENT);

/* Fisher's F of m and n degrees of freedom: refused by 6, 7. The numerator's draws come before the denominator's. */
size_t eweb_fisher_f_sample(double m, double n, EWEB_LENT);
size_t eweb_fisher_f_fill(double m, double n, EWEB_LENT);

/* Student's t of nu degrees of freedom: refused by 5. A normal first, then chi-squared's draws. */
size_t eweb_student_t_sample(double nu, EWEB_LENT);
size_t eweb_student_t_fill(double nu, EWEB_LENT);

/* PERT from min to max, by its mode: refused by 8, 9, 10. rand_distr's shape is 4 by default. Reads uniforms, as Beta does. */
size_t eweb_pert_mode_sample(double min, double max, double shape, double mode, EWEB_LENT);
size_t eweb_pert_mode_fill(double min, double max, double shape, double mode, EWEB_LENT);

/* PERT by its mean: the mode is (((shape + 2) * mean - min) - max) / shape, and judged as one that is passed. */
size_t eweb_pert_mean_sample(double min, double max, double shape, double mean, EWEB_LENT);
size_t eweb_pert_mean_fill(double min, double max, double shape, double mean, EWEB_LENT);

/* What a constructor made, by plain numbers: the kinds into the first cells of kinds and the fields, in the Rust's own names and
   order, into the first of fields; a field that a kind has not is +0, and the cells behind stay as they were. Answers 0, or the
   constructor's number, after which every cell is as it was; 255 where there are fewer cells than are said here, and then nothing
   is written. Every NaN among the fields has the bits 7ff8000000000000. */
#define EWEB_SHOWN size_t *kinds, size_t kinds_len, double *fields, size_t fields_len

/* Gamma: 1 kind, 1 One, 2 Small, 3 Large; 5 fields, One's lambda_inverse, Small's inv_shape, and of both Small and Large
   scale, c, d. */
size_t eweb_gamma_made(double shape, double scale, EWEB_SHOWN);

/* Beta: 2 kinds, first 1 BB, 2 BC, then switched_params, 0 or 1; 7 fields, a, b, alpha, beta, BB's gamma, BC's kappa1, kappa2. */
size_t eweb_beta_made(double alpha, double beta, EWEB_SHOWN);

/* Fisher: 2 kinds, the numerator's and the denominator's, each 0 at one degree of freedom, else its Gamma's; 11 fields, the
   numerator's 5 as of Gamma, the denominator's 5, dof_ratio. */
size_t eweb_fisher_f_made(double m, double n, EWEB_SHOWN);

/* PERT: 2 kinds, its Beta's; 9 fields, min, range, and its Beta's 7. */
size_t eweb_pert_mode_made(double min, double max, double shape, double mode, EWEB_SHOWN);
size_t eweb_pert_mean_made(double min, double max, double shape, double mean, EWEB_SHOWN);

/* Dirichlet: one vector, a component for each element of alpha, into an out of the same length. Refused by 11 to 16. Where every
   element is at most 0.1 it reads uniforms, as Beta does; else what Gamma(alpha[i], 1) reads, in order. */
size_t eweb_dirichlet(const double *alpha, size_t alpha_len, EWEB_LENT);

/* What eweb_environment answers, added where several hold. */
enum {
    EWEB_ROUNDED_OTHERWISE = 1, /* a result is not rounded to nearest, ties to even */
    EWEB_RESULTS_FLUSHED = 2,   /* a subnormal result is made 0 */
    EWEB_OPERANDS_FLUSHED = 4   /* a subnormal operand is taken as 0 */
};

/* Whether the floating-point environment of the calling thread is, now, the one that every proof assumes: 0 where it is. Operands
   and results go through memory, so that they are the machine's own, whatever the compiler was allowed. */
static inline int eweb_environment(void) {
    const volatile double one = 1, half = .5, two = 2;
    const volatile double half_step = 1.1102230246251565e-16; /* of the numbers from 1 to 2, a step is 2^-52 */
    const volatile double three_halves = 3.3306690738754696e-16;
    const volatile double smallest = 2.2250738585072014e-308; /* of the normal numbers, 2^-1022 */
    const volatile double subnormal = 1.1125369292536007e-308; /* its half */
    const volatile double down = one + half_step, up = one + three_halves; /* ties: to 1, and to two steps above it */
    const volatile double halved = smallest * half, doubled = subnormal * two;
    const volatile unsigned char *byte = (const volatile unsigned char *)&halved;
    int found = EWEB_RESULTS_FLUSHED; /* a comparison could take a subnormal for 0: its bytes can't */
    for (size_t i = 0; i < sizeof halved; i++)
        if (byte[i])
            found = 0;
    if (down != one || up != 1.0000000000000004)
        found |= EWEB_ROUNDED_OTHERWISE;
    if (doubled != smallest)
        found |= EWEB_OPERANDS_FLUSHED;
    return found;
}

#ifdef __cplusplus
}
#endif

#endif
