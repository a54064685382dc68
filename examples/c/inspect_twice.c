/* Reads a lot file, inspects its mesh at depth 3 by both inspectors, the first and the
 * auditor, and prints each element's record and on how many elements the two agree; or
 * the first difference. Use: inspect_twice FILE */

#include <brundhal.h>
#include <inttypes.h>
#include <stdio.h>

#define LENGTH(array) (sizeof(array) / sizeof((array)[0]))

/* One byte more than the longest lot file, so that a longer one shows; space in
 * which every lot fits; and two reports of 900 elements, which a program that holds one
 * keeps to. */
static uint8_t file[BRUNDHAL_LOT_BYTES + 1];
static int32_t nodes[BRUNDHAL_LOT_NODE_WORDS];
static uint32_t elements[BRUNDHAL_LOT_ELEMENT_WORDS];
static uint8_t names[BRUNDHAL_LOT_NAME_BYTES];
static uint32_t lengths[BRUNDHAL_LOT_GROUPS], offsets[BRUNDHAL_LOT_GROUPS];
static int64_t report[BRUNDHAL_RECORD_WORDS * BRUNDHAL_SLIP_ELEMENTS];
static int64_t audited[BRUNDHAL_RECORD_WORDS * BRUNDHAL_SLIP_ELEMENTS];

/* Whether the file could be read, and its length. */
static int read_file(const char *name, size_t *len)
{
    FILE *stream = fopen(name, "rb");
    if (stream == NULL)
        return 0;
    *len = fread(file, 1, sizeof file, stream);
    int whole = !ferror(stream);
    fclose(stream);
    return whole;
}

/* Every word of the record of an element, counted from 0. */
static void print_record(uint32_t element)
{
    printf("element %" PRIu32 " record", element + 1);
    for (size_t word = 0; word < BRUNDHAL_RECORD_WORDS; word++)
        printf(" %" PRId64, report[BRUNDHAL_RECORD_WORDS * element + word]);
    printf("\n");
}

static int same_answers(BrundhalInspection x, BrundhalInspection y)
{
    return x.number == y.number && x.valid == y.valid && x.invalid == y.invalid
        && x.undecided == y.undecided && x.refused == y.refused;
}

/* Whether both reports have the same words; if not, the first that differs is said. */
static int same_reports(size_t words)
{
    for (size_t at = 0; at < words; at++) {
        if (report[at] != audited[at]) {
            fprintf(stderr, "element %zu, word %zu: %" PRId64 ", by the auditor %" PRId64 "\n",
                    at / BRUNDHAL_RECORD_WORDS + 1, at % BRUNDHAL_RECORD_WORDS,
                    report[at], audited[at]);
            return 0;
        }
    }
    return 1;
}

int main(int argc, char **argv)
{
    if (argc != 2) {
        fprintf(stderr, "use: inspect_twice FILE\n");
        return 1;
    }
    size_t file_len;
    if (!read_file(argv[1], &file_len)) {
        perror(argv[1]);
        return 1;
    }

    BrundhalLot lot = brundhal_read_lot(file, file_len, nodes, LENGTH(nodes),
                                        elements, LENGTH(elements), names, LENGTH(names),
                                        lengths, LENGTH(lengths), offsets, LENGTH(offsets));
    if (lot.number != 0) {
        fprintf(stderr, "lot refused %" PRIu32 "\n", lot.number);
        return 1;
    }
    if (lot.elements > BRUNDHAL_SLIP_ELEMENTS) {
        fprintf(stderr, "lot refused %d\n", BRUNDHAL_REFUSED_TOO_MANY);
        return 1;
    }

    /* Both are handed the same, and a report space each. */
    size_t coordinates_len = 3 * (size_t)lot.nodes, indices_len = 8 * (size_t)lot.elements;
    size_t words = BRUNDHAL_RECORD_WORDS * (size_t)lot.elements;
    BrundhalInspection answer = brundhal_inspect(nodes, coordinates_len, elements, indices_len,
                                                 3, report, words);
    BrundhalInspection by_auditor = brundhal_audit(nodes, coordinates_len, elements, indices_len,
                                                   3, audited, words);
    if (answer.number != 0) {
        fprintf(stderr, "mesh refused %" PRIu32 "\n", answer.number);
        return 1;
    }
    for (uint32_t element = 0; element < lot.elements; element++)
        print_record(element);
    if (!same_answers(answer, by_auditor)) {
        fprintf(stderr, "the answers differ\n");
        return 1;
    }
    if (!same_reports(words))
        return 1;
    printf("the two inspectors agree on %" PRIu32 " elements\n", lot.elements);
    return 0;
}
