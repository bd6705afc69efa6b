/* Prints what the six functions of the label library answer: for each pair of words on standard input, in
 * hexadecimal, one line of number, low, high and exact of the cut of (base, length), and of low and high of the
 * bounds of (address, metadata). */
#include <inttypes.h>
#include <stdio.h>

#include "oddersnow.h"

int main(void)
{
    uint32_t a, b;
    while (scanf("%" SCNx32 " %" SCNx32, &a, &b) == 2)
        printf("%" PRIu32 " %" PRIx32 " %" PRIx64 " %" PRIu32 " %" PRIx32 " %" PRIx64 "\n",
               oddersnow_cut_number(a, b), oddersnow_cut_low(a, b), oddersnow_cut_high(a, b), oddersnow_cut_exact(a, b),
               oddersnow_bounds_low(a, b), oddersnow_bounds_high(a, b));
    return 0;
}
