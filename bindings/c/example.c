/* `/` of fed{press="A"} [10, missing, 6] and waste{press="A"} [2, 1, 3], an hour apart, through the header; then the
 * same with the right side a millisecond later, which is refused with 12, and with an allowance of 9, which is refused
 * with 13 before that. Then the count of fed by press, and an aggregate of 5, which is refused with 14. Then the text
 * of fed, with other readings, into a part that is too short, which is refused with 10, and into one that is just long
 * enough; and with a name that begins with a digit, which is refused with 15, and with a reading of 2^40, which is
 * refused with 16. Ends with 0 where all is as it should be. */
#include <math.h>
#include <string.h>

#include "nosingcatnip.h"

static uint8_t fed[] = "\x01\0\x03\0\x0d\0\0\0\0\0\0\0\0\0\x80\xee\x36\0\x03" "fed\x01\x05press\x01" "A";
static uint8_t waste[] = "\x01\0\x03\0\x0f\0\0\0\0\0\0\0\0\0\x80\xee\x36\0\x05waste\x01\x05press\x01" "A";

static uint64_t bits(double x) {
    uint64_t word;
    memcpy(&word, &x, sizeof word);
    return word;
}

/* Exports fed. Ends with 0, or with a number from 12 on that says what is not as it should be. */
static int exported(void) {
    static const char text[] = "fed{press=\"A\"} 10.000 0\nfed{press=\"A\"} -0.063 7200000\n";
    const size_t length = sizeof text - 1;
    uint64_t readings[] = {bits(10), bits(NAN), bits(-0.0625)}, result[NOSINGCATNIP_TEXT_RESULT];
    const uint64_t written[] = {0, 0, 0, sizeof text - 1};
    uint64_t refused[] = {10, 0, 0, 0};
    uint8_t out[sizeof text + 8];
    memset(out, 187, sizeof out);
    nosingcatnip_export_text(fed, sizeof fed - 1, readings, 3, out, length - 1, result);
    if (sizeof refused != sizeof result || memcmp(result, refused, sizeof result) != 0 || out[0] != 187) return 12;
    nosingcatnip_export_text(fed, sizeof fed - 1, readings, 3, out, length, result);
    if (memcmp(result, written, sizeof result) != 0 || result[NOSINGCATNIP_TEXT_BYTES] != length) return 13;
    if (memcmp(out, text, length) != 0 || out[length] != 187) return 14;
    fed[19] = '9';
    refused[NOSINGCATNIP_NUMBER] = 15;
    nosingcatnip_export_text(fed, sizeof fed - 1, readings, 3, out, sizeof out, result);
    if (memcmp(result, refused, sizeof result) != 0) return 15;
    fed[19] = 'f';
    readings[2] = bits(1099511627776.0);
    refused[NOSINGCATNIP_NUMBER] = 16;
    nosingcatnip_export_text(fed, sizeof fed - 1, readings, 3, out, sizeof out, result);
    return memcmp(result, refused, sizeof result) == 0 && memcmp(out, text, length) == 0 ? 0 : 16;
}

int main(void) {
    uint8_t query[] = {4, 0, 0, 0, 0, 0, 2}, request[] = "\x03\0\x01\x05press";
    const uint64_t left[] = {bits(10), bits(NAN), bits(6)}, right[] = {bits(2), bits(1), bits(3)};
    uint8_t labels[64];
    uint64_t out[8], result[NOSINGCATNIP_RESULT];
    const uint64_t answered[] = {0, 0, 0, 1, 3, 0, 3600000, 10};
    uint64_t refused[] = {12, 0, 0, 0, 0, 0, 0, 0};
    const uint64_t rows[] = {bits(5), 0x7ff8000000000000, bits(2)};
    const uint64_t counts[] = {bits(1), 0x7ff8000000000000, bits(1)};
    memset(labels, 187, sizeof labels);
    /* The arrays end with the string's 0, which is no part of the label part. */
    nosingcatnip_exec_binop(query, sizeof query, fed, sizeof fed - 1, left, 3, waste, sizeof waste - 1, right, 3,
                            labels, sizeof labels, out, 8, result);
    if (sizeof answered != sizeof result || memcmp(result, answered, sizeof result) != 0) return 1;
    if (result[NOSINGCATNIP_SERIES] != 1 || result[NOSINGCATNIP_POINTS] != 3 || result[NOSINGCATNIP_START] != 0 ||
        result[NOSINGCATNIP_STEP] != 3600000 || result[NOSINGCATNIP_LABEL_BYTES] != 10)
        return 2;
    if (memcmp(labels, "\0\x01\x05press\x01" "A", 10) != 0 || labels[10] != 187) return 3;
    if (memcmp(out, rows, sizeof rows) != 0) return 4;
    waste[6] = 1;
    memset(labels, 187, sizeof labels);
    nosingcatnip_exec_binop(query, sizeof query, fed, sizeof fed - 1, left, 3, waste, sizeof waste - 1, right, 3,
                            labels, sizeof labels, out, 8, result);
    if (memcmp(result, refused, sizeof result) != 0 || result[NOSINGCATNIP_NUMBER] != 12) return 5;
    query[6] = 9;
    refused[NOSINGCATNIP_NUMBER] = 13;
    nosingcatnip_exec_binop(query, sizeof query, fed, sizeof fed - 1, left, 3, waste, sizeof waste - 1, right, 3,
                            labels, sizeof labels, out, 8, result);
    if (memcmp(result, refused, sizeof result) != 0) return 6;
    if (labels[0] != 187) return 7;
    nosingcatnip_exec_aggregate(request, sizeof request - 1, fed, sizeof fed - 1, left, 3,
                                labels, sizeof labels, out, 8, result);
    if (memcmp(result, answered, sizeof result) != 0) return 8;
    if (memcmp(labels, "\0\x01\x05press\x01" "A", 10) != 0 || labels[10] != 187) return 9;
    if (memcmp(out, counts, sizeof counts) != 0) return 10;
    request[0] = 5;
    refused[NOSINGCATNIP_NUMBER] = 14;
    nosingcatnip_exec_aggregate(request, 1, fed, sizeof fed - 1, left, 3, labels, sizeof labels, out, 8, result);
    if (memcmp(result, refused, sizeof result) != 0) return 11;
    return exported();
}
