#include "eweb.h"
#include <stdio.h>

int main(void) {
    double uniforms[] = {0.5, 0.5}, none[1] = {0}, out[1] = {0};
    size_t report[6] = {0}; /* cells 3 to 5: from the start of each slice */
    size_t refusal = eweb_beta_sample(2, 5, uniforms, 2, none, 0, none, 0, out, 1, report, 6);
    printf("refusal %zu, sample %.17g, uniforms used %zu\n", refusal, out[0], report[3]);
    return refusal != 0;
}
