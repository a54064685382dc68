/* The bounds of a large twisted element at depth 0 and at depth 3, compared at one
 * scale: a closer look never lowers the low bound and never raises the high one.
 * Bounds are times 8 * 64^depth, so those of depth 0 are taken 64^3 times. The
 * element is undecided; the coefficient in its record is not below the low bound. */

#include <brundhal.h>
#include <inttypes.h>
#include <stdio.h>

#define FAR BRUNDHAL_MAX_COORDINATE
#define HALF (BRUNDHAL_MAX_COORDINATE / 2)

/* A bound of depth 0 at the scale of depth 3. */
static BrundhalNumber raised(BrundhalNumber bound)
{
    return brundhal_number_mul(bound, brundhal_number_from_i64(64 * 64 * 64));
}

/* A number of two words: in decimal if one word holds it, else both in hexadecimal. */
static void print(const char *before, BrundhalNumber x)
{
    BrundhalSingle single = brundhal_number_to_i64(x);
    if (single.fits)
        printf("%s %" PRId64, before, single.value);
    else
        printf("%s 0x%016" PRIx64 "%016" PRIx64, before, x.high, x.low);
}

static void print_bounds(const char *depth, BrundhalBounds bounds)
{
    printf("%s: ", depth);
    print("low", bounds.low);
    print(" high", bounds.high);
    printf("\n");
}

int main(void)
{
    static const int32_t points[24] = {
        -HALF, -HALF, 0,   HALF, -HALF, 0,   HALF, HALF, 0,   -HALF, HALF, 0,
        FAR, FAR, HALF,   -FAR, FAR, HALF,   -FAR, -FAR, HALF,   FAR, -FAR, HALF,
    };
    static const uint32_t indices[8] = { 0, 1, 2, 3, 4, 5, 6, 7 };
    int64_t record[BRUNDHAL_RECORD_WORDS];

    BrundhalBounds first = brundhal_bounds(points, 0);
    BrundhalBounds closer = brundhal_bounds(points, 3);
    BrundhalInspection answer = brundhal_inspect(points, 24, indices, 8, 3, record, BRUNDHAL_RECORD_WORDS);
    if (first.number != 0 || closer.number != 0 || answer.number != 0) {
        fprintf(stderr, "refused %" PRIu32 " %" PRIu32 " %" PRIu32 "\n",
                first.number, closer.number, answer.number);
        return 1;
    }
    print_bounds("depth 0", first);
    print_bounds("depth 3", closer);
    printf("low does not fall: %s\n",
           brundhal_number_at_most(raised(first.low), closer.low) ? "yes" : "no");
    printf("high does not rise: %s\n",
           brundhal_number_compare(closer.high, raised(first.high)) <= 0 ? "yes" : "no");
    BrundhalNumber value = brundhal_record_value(record);
    print("coefficient", value);
    printf(" not below low: %s\n", brundhal_number_at_most(closer.low, value) ? "yes" : "no");
    return 0;
}
