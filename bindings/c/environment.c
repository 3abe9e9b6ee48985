/* Whether eweb_environment sees what the floating-point environment is: in each mode that a program can set, and as the program
   starts, by the register that holds the modes: linked with -ffast-math, a program may start with numbers flushed. */
#include "eweb.h"
#include <stdio.h>

static long held, wrong;

static void hold(int seen, int expected, const char *mode) {
    held++;
    if (seen != expected && wrong++ < 20)
        printf("%s: eweb_environment answers %d, where it is %d\n", mode, seen, expected);
}

/* The register that holds the modes, and the bits that set them. On aarch64 one bit flushes results and operands alike. */
#if defined(__x86_64__)
static unsigned read_modes(void) {
    unsigned modes;
    __asm__ volatile("stmxcsr %0" : "=m"(modes));
    return modes;
}

static void set_modes(unsigned modes) {
    __asm__ volatile("ldmxcsr %0" : : "m"(modes) : "memory");
}

static const unsigned DOWNWARD = 1u << 13, UPWARD = 2u << 13, TO_ZERO = 3u << 13, RESULTS = 1u << 15, OPERANDS = 1u << 6;
static const int OF_RESULTS = EWEB_RESULTS_FLUSHED, OF_OPERANDS = EWEB_OPERANDS_FLUSHED;
#elif defined(__aarch64__)
static unsigned read_modes(void) {
    unsigned long modes;
    __asm__ volatile("mrs %0, fpcr" : "=r"(modes));
    return (unsigned)modes;
}

static void set_modes(unsigned modes) {
    __asm__ volatile("msr fpcr, %0" : : "r"((unsigned long)modes) : "memory");
}

static const unsigned UPWARD = 1u << 22, DOWNWARD = 2u << 22, TO_ZERO = 3u << 22, RESULTS = 1u << 24, OPERANDS = 1u << 24;
static const int OF_RESULTS = EWEB_RESULTS_FLUSHED | EWEB_OPERANDS_FLUSHED,
                 OF_OPERANDS = EWEB_RESULTS_FLUSHED | EWEB_OPERANDS_FLUSHED;
#else
#error "the modes of this machine are not written down here"
#endif

static int expected_of(unsigned modes) {
    return (modes & TO_ZERO ? EWEB_ROUNDED_OTHERWISE : 0) | (modes & RESULTS ? OF_RESULTS : 0) | (modes & OPERANDS ? OF_OPERANDS : 0);
}

/* The modes are as they were before anything is printed. */
static void hold_in(unsigned mode, int expected, const char *words) {
    unsigned before = read_modes();
    set_modes((before & ~(TO_ZERO | RESULTS | OPERANDS)) | mode);
    int found = eweb_environment();
    set_modes(before);
    hold(found, expected, words);
}

int main(void) {
    int start = eweb_environment();
    hold(start, expected_of(read_modes()), "at the start");
    hold_in(0, 0, "IEEE 754's default");
    hold_in(UPWARD, EWEB_ROUNDED_OTHERWISE, "upward");
    hold_in(DOWNWARD, EWEB_ROUNDED_OTHERWISE, "downward");
    hold_in(TO_ZERO, EWEB_ROUNDED_OTHERWISE, "toward zero");
    hold_in(RESULTS, OF_RESULTS, "results flushed");
    hold_in(OPERANDS, OF_OPERANDS, "operands flushed");
    hold_in(RESULTS | OPERANDS, EWEB_RESULTS_FLUSHED | EWEB_OPERANDS_FLUSHED, "both flushed");
    hold_in(UPWARD | RESULTS, EWEB_ROUNDED_OTHERWISE | OF_RESULTS, "upward, results flushed");
    printf("eweb_environment: %ld held, %ld not so; at the start it answered %d\n", held, wrong, start);
    return wrong > 0;
}
