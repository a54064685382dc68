/* Inspects the unit cube at depth 3 and prints its record, the counts and the
 * stamp; before that it asks whether header and library are of one version. */

#include <brundhal.h>
#include <inttypes.h>
#include <stdio.h>

#define LENGTH(array) (sizeof(array) / sizeof((array)[0]))

int main(void)
{
    /* Three coordinates a node; eight indices an element, in the order of the
     * reference cube's corners; nine report words an element. */
    static const int32_t coordinates[] = {
        0, 0, 0,  1, 0, 0,  1, 1, 0,  0, 1, 0,
        0, 0, 1,  1, 0, 1,  1, 1, 1,  0, 1, 1,
    };
    static const uint32_t indices[] = { 0, 1, 2, 3, 4, 5, 6, 7 };
    int64_t report[BRUNDHAL_RECORD_WORDS];

    if (brundhal_version() != BRUNDHAL_VERSION) {
        fprintf(stderr, "header of version %d, library of version %" PRIu32 "\n",
                BRUNDHAL_VERSION, brundhal_version());
        return 1;
    }
    BrundhalInspection answer = brundhal_inspect(coordinates, LENGTH(coordinates),
                                                 indices, LENGTH(indices),
                                                 3, report, LENGTH(report));
    if (answer.number != 0) {
        fprintf(stderr, "refused %" PRIu32 "\n", answer.number);
        return 1;
    }
    printf("record");
    for (size_t word = 0; word < LENGTH(report); word++)
        printf(" %" PRId64, report[word]);
    printf("\nvalid %" PRIu32 " invalid %" PRIu32 " undecided %" PRIu32 " refused %" PRIu32 "\n",
           answer.valid, answer.invalid, answer.undecided, answer.refused);
    /* An accepted mesh has one of these three. */
    static const char *const stamps[] = {
        [BRUNDHAL_SOUND] = "sound", [BRUNDHAL_FAULTY] = "faulty", [BRUNDHAL_OPEN] = "open",
    };
    printf("stamp %s\n", stamps[brundhal_stamp(answer)]);
    return 0;
}
