/* Labelled vector operators and aggregates over series with gaps, and their text for a screen. docs/SCOPE.md of the
 * project says what a query, a request, a label part and a refusal are.
 *
 * Link with libnosingcatnip.a and -lm. The functions keep nothing between calls, so calls on disjoint output parts may
 * run at the same time. */
#ifndef NOSINGCATNIP_H
#define NOSINGCATNIP_H

#include <stddef.h>
#include <stdint.h>

#ifdef __cplusplus
extern "C" {
#endif

/* What a call reports, by index into its result. */
enum {
    NOSINGCATNIP_NUMBER = 0,      /* 0 for an answer or a text, else the refusal's number, 1 to 16 */
    NOSINGCATNIP_FIELD_1 = 1,     /* the refusal's first field; 0 for an answer */
    NOSINGCATNIP_FIELD_2 = 2,     /* the refusal's second field; 0 for an answer */
    NOSINGCATNIP_SERIES = 3,      /* the answer's series; 0 for a refusal */
    NOSINGCATNIP_POINTS = 4,      /* the answer's points; 0 for a refusal */
    NOSINGCATNIP_START = 5,       /* the time of the answer's first point, in milliseconds; 0 for a refusal */
    NOSINGCATNIP_STEP = 6,        /* the milliseconds from a point of the answer to the next; 0 for a refusal */
    NOSINGCATNIP_LABEL_BYTES = 7, /* the answer's label bytes; 0 for a refusal */
    NOSINGCATNIP_RESULT = 8       /* the result's length */
};

/* What an export reports, by index into its result, behind the number and the two fields, which are those above. */
enum {
    NOSINGCATNIP_TEXT_BYTES = 3, /* the text's bytes; 0 for a refusal */
    NOSINGCATNIP_TEXT_RESULT = 4 /* the result's length */
};

/* Runs a query over two vectors.
 *
 * Each part is a pointer and its number of elements. A label part begins with 18 bytes of sizes, little-endian: series,
 * points and length of the label array, two bytes each; start in milliseconds, eight bytes, 0 to 2^52; step in
 * milliseconds, four bytes, 1 to 86,400,000. Then it has the label array. Readings are the bits of binary64 numbers,
 * row by row; any NaN is a missing reading. Reading i of a row is of the time start + i * step; both sides have the
 * same start and step, and so has the answer.
 *
 * The query's last byte is its allowance, 0 to 8: at how many places a row that is merged may overlap the row merged so
 * far. One above 8 is refused with 13.
 *
 * An answer's label records are written at the start of out_labels and its rows at the start of out; what lies behind
 * them stays. A refusal changes neither part. All eight numbers of result are written at each call.
 *
 * No pointer may be null, even where its length is 0; pointers to uint64_t are aligned to 8 bytes; out_labels, out and
 * result overlap no other part. */
void nosingcatnip_exec_binop(
    const uint8_t *query, size_t query_len,
    const uint8_t *left_labels, size_t left_labels_len,
    const uint64_t *left, size_t left_len,
    const uint8_t *right_labels, size_t right_labels_len,
    const uint64_t *right, size_t right_len,
    uint8_t *out_labels, size_t out_labels_len,
    uint64_t *out, size_t out_len,
    uint64_t result[NOSINGCATNIP_RESULT]);

/* Runs an aggregate over one vector.
 *
 * The request is a byte for the aggregate (0 sum, 1 min, 2 max, 3 count, 4 avg), a byte for the grouping (0 by, 1
 * without), and a list of labels: their number, one byte, 0 to 32, and each behind its length, one byte, 1 to 255. An
 * aggregate above 4 is refused with 14, whatever follows; every other fault of the request with 2.
 *
 * By keeps the listed tags, and the name if __name__ is listed; without removes the listed tags, and always the name.
 * The series whose labels are then equal, name included, form one series of the answer, in the order of their first
 * places. At each point missing readings are skipped, and a point without a reading is missing, for count too. The sum
 * adds in the order of the series; avg is that sum divided by the count.
 *
 * The vector's parts are those of a side above, and its faults are refused as a left side's. The answer has its start
 * and step. The output parts, the result and the pointers are as above. */
void nosingcatnip_exec_aggregate(
    const uint8_t *request, size_t request_len,
    const uint8_t *labels, size_t labels_len,
    const uint64_t *readings, size_t readings_len,
    uint8_t *out_labels, size_t out_labels_len,
    uint64_t *out, size_t out_len,
    uint64_t result[NOSINGCATNIP_RESULT]);

/* Writes the text of one vector in the Prometheus text exposition format, version 0.0.4, UTF-8.
 *
 * Each present reading is a line, series by series: the name; the tags in braces, where there are any, parted by
 * commas, as key="value" with \\, \" and \n for backslash, double quote and line feed; a space and the value; a space
 * and the time in milliseconds; a line feed. The value has three decimals and is the exact number rounded to the
 * nearest, a half away from zero; zero has no sign. A missing reading has no line, and no line is a text of 0 bytes.
 *
 * The vector's parts are those of a side above, and its faults are refused as a left side's. Then its series are judged
 * one by one. One is refused with 15 where its name is empty, where its name or a key begins with a digit or has a byte
 * other than ASCII letters, digits, _ and, in names, :, or where a value is not UTF-8; else with 16 where a present
 * reading has a size of 2^40 or more. The fields are 0 and the place of the first series at fault. Then a text longer
 * than out is refused with 10.
 *
 * A text is written at the start of out; what lies behind it stays. A refusal leaves out as it was. All four numbers of
 * result are written at each call. The pointers are as above. */
void nosingcatnip_export_text(
    const uint8_t *labels, size_t labels_len,
    const uint64_t *readings, size_t readings_len,
    uint8_t *out, size_t out_len,
    uint64_t result[NOSINGCATNIP_TEXT_RESULT]);

#ifdef __cplusplus
}
#endif

#endif
