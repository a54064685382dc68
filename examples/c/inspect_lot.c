/* Reads a lot file, inspects its mesh at depth 3 and prints the label, what the lot
 * holds, each element's name and verdict, the counts and the stamp; then writes the
 * lot and finds the file again. Use: inspect_lot FILE */

#include <brundhal.h>
#include <inttypes.h>
#include <stdio.h>
#include <string.h>

#define LENGTH(array) (sizeof(array) / sizeof((array)[0]))

/* One byte more than the longest lot file, so that a longer one shows; space in
 * which every lot fits; and a report of 900 elements, which a program that holds one
 * keeps to. */
static uint8_t file[BRUNDHAL_LOT_BYTES + 1];
static int32_t nodes[BRUNDHAL_LOT_NODE_WORDS];
static uint32_t elements[BRUNDHAL_LOT_ELEMENT_WORDS];
static uint8_t names[BRUNDHAL_LOT_NAME_BYTES];
static uint32_t lengths[BRUNDHAL_LOT_GROUPS], offsets[BRUNDHAL_LOT_GROUPS];
static int64_t report[BRUNDHAL_RECORD_WORDS * BRUNDHAL_SLIP_ELEMENTS];
static uint8_t written[BRUNDHAL_LOT_BYTES];

/* Whether the file could be read, and its length. */
static int read_file(const char *name, size_t *len)
{
    FILE *stream = fopen(name, "rb");
    if (stream == NULL)
        return 0;
    *len = fread(file, 1, sizeof file, stream);
    int whole = !ferror(stream);
    fclose(stream);
    return whole;
}

/* Each element's name, a part of the lot's names or its label, and its verdict;
 * whether all were named. */
static int print_elements(const BrundhalLot *lot)
{
    static const char *const verdicts[] = {
        [BRUNDHAL_VALID] = "valid", [BRUNDHAL_INVALID] = "invalid", [BRUNDHAL_UNDECIDED] = "undecided",
    };
    const uint8_t *label = file + lot->start;

    for (uint32_t element = 0; element < lot->elements; element++) {
        BrundhalName name = brundhal_name(label, lot->len, names, lot->names,
                                          lengths, lot->groups, offsets, lot->groups,
                                          lot->elements, element);
        if (name.number != 0) {
            fprintf(stderr, "name refused %" PRIu32 "\n", name.number);
            return 0;
        }
        const uint8_t *bytes = (name.grouped ? names : label) + name.start;
        int64_t kind = report[BRUNDHAL_RECORD_WORDS * element + BRUNDHAL_WORD_KIND];
        printf("element %" PRIu32 " of %.*s: %s\n", element + 1, (int)name.len,
               (const char *)bytes, kind <= BRUNDHAL_UNDECIDED ? verdicts[kind] : "refused");
    }
    return 1;
}

/* Whether the lot is written as the file that it was read from. */
static int writes_back(const BrundhalLot *lot, size_t file_len)
{
    BrundhalWritten answer = brundhal_write_lot(file + lot->start, lot->len,
                                                nodes, 3 * (size_t)lot->nodes,
                                                elements, 8 * (size_t)lot->elements,
                                                names, lot->names,
                                                lengths, lot->groups, offsets, lot->groups,
                                                written, sizeof written);
    return answer.number == 0 && answer.len == file_len && memcmp(written, file, file_len) == 0;
}

int main(int argc, char **argv)
{
    if (argc != 2) {
        fprintf(stderr, "use: inspect_lot FILE\n");
        return 1;
    }
    size_t file_len;
    if (!read_file(argv[1], &file_len)) {
        perror(argv[1]);
        return 1;
    }

    BrundhalLot lot = brundhal_read_lot(file, file_len, nodes, LENGTH(nodes),
                                        elements, LENGTH(elements), names, LENGTH(names),
                                        lengths, LENGTH(lengths), offsets, LENGTH(offsets));
    if (lot.number != 0) {
        fprintf(stderr, "lot refused %" PRIu32 "\n", lot.number);
        return 1;
    }
    if (lot.elements > BRUNDHAL_SLIP_ELEMENTS) {
        fprintf(stderr, "lot refused %d\n", BRUNDHAL_REFUSED_TOO_MANY);
        return 1;
    }
    printf("label %.*s\n", (int)lot.len, (const char *)file + lot.start);
    printf("nodes %" PRIu32 " elements %" PRIu32 " groups %" PRIu32 "\n",
           lot.nodes, lot.elements, lot.groups);

    /* What was read goes into the inspection as it is, three coordinates a node
     * and eight indices an element. */
    BrundhalInspection answer = brundhal_inspect(nodes, 3 * (size_t)lot.nodes,
                                                 elements, 8 * (size_t)lot.elements, 3, report,
                                                 BRUNDHAL_RECORD_WORDS * (size_t)lot.elements);
    if (answer.number != 0) {
        fprintf(stderr, "mesh refused %" PRIu32 "\n", answer.number);
        return 1;
    }
    if (!print_elements(&lot))
        return 1;
    printf("valid %" PRIu32 " invalid %" PRIu32 " undecided %" PRIu32 " refused %" PRIu32 "\n",
           answer.valid, answer.invalid, answer.undecided, answer.refused);
    /* An accepted mesh has one of these three. */
    static const char *const stamps[] = {
        [BRUNDHAL_SOUND] = "sound", [BRUNDHAL_FAULTY] = "faulty", [BRUNDHAL_OPEN] = "open",
    };
    printf("stamp %s\n", stamps[brundhal_stamp(answer)]);

    if (!writes_back(&lot, file_len)) {
        fprintf(stderr, "the lot is not written back\n");
        return 1;
    }
    printf("written back in %zu bytes\n", file_len);
    return 0;
}
