#include <math.h>
#include <stdio.h>
#include "nosingcatnip.h"

#define GRID "\0\0\0\0\0\0\0\0" "\x80\xee\x36\0" /* start: 0; step: 3,600,000 milliseconds, an hour */
#define PRESS_A "\1" "\5press" "\1A"             /* one tag: its key, its value */

int main(void) {
    /* sizes: 1 series, 3 points, 13 and 15 label bytes; start and step; the record: name and tags */
    const uint8_t fed[] = "\1\0" "\3\0" "\x0d\0" GRID "\3fed" PRESS_A;
    const uint8_t waste[] = "\1\0" "\3\0" "\x0f\0" GRID "\5waste" PRESS_A;
    union { double number[3]; uint64_t bits[3]; } left = {{10, NAN, 6}}, right = {{2, 1, 3}}, out;
    const uint8_t query[] = {4, 0, 0, 0, 0, 0, 2}; /* the operator /, no modifiers, two empty lists, allowance 2 */
    uint8_t labels[64];
    uint64_t result[NOSINGCATNIP_RESULT];

    /* a string ends with a 0 that is no part of the label part */
    nosingcatnip_exec_binop(query, sizeof query, fed, sizeof fed - 1, left.bits, 3, waste, sizeof waste - 1,
                            right.bits, 3, labels, sizeof labels, out.bits, 3, result);
    if (result[NOSINGCATNIP_NUMBER] == 0)
        printf("%g %g %g\n", out.number[0], out.number[1], out.number[2]);
    return (int)result[NOSINGCATNIP_NUMBER];
}
