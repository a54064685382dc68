/* Prints the slip of the lot file on standard input. */

#include <brundhal.h>
#include <stdio.h>

/* One byte more than the longest lot file, so that a longer one shows. */
static uint8_t file[BRUNDHAL_LOT_BYTES + 1];
static uint8_t slip[BRUNDHAL_SLIP_BYTES];

int main(void)
{
    size_t file_len = fread(file, 1, sizeof file, stdin);
    if (ferror(stdin)) {
        perror("standard input");
        return 1;
    }
    size_t len = brundhal_slip(file, file_len, slip);
    return fwrite(slip, 1, len, stdout) == len ? 0 : 1;
}
