/*
 * loader IMAGE PATH [TIME]: finds a rig's limits in an image, with the date of their volume, or stops the rig. TIME counts as a stamp does and is for trying it; without it
 * the machine's clock is asked.
 */
#include <stdio.h>
#include <stdlib.h>
#include <string.h>
#include <time.h>

#include "xdvdfs.h"

static const uint64_t greatest_age = 30 * XDVDFS_STAMP_DAY;

/* Stops the rig and says why. It does not return: after a refusal there is nothing to go on with. */
static void stop_rig(const char *path, uint32_t number)
{
    fprintf(stderr, "rig stopped: %s: %s (refusal %u)\n", path, xdvdfs_text(number), (unsigned)number);
    exit(EXIT_FAILURE);
}

int main(int argc, char **argv)
{
    static uint8_t image[1 << 21]; /* from sector 0 on; a table that lies past it is XDVDFS_TRUNCATED */
    uint32_t number, sector, size;
    uint64_t now, stamp;
    char date[XDVDFS_DATE_SIZE];
    size_t len = 0;
    FILE *f;
    if (argc != 3 && argc != 4) {
        fprintf(stderr, "usage: loader IMAGE PATH [TIME]\n");
        return 2;
    }
    f = fopen(argv[1], "rb");
    if (f != NULL) {
        len = fread(image, 1, sizeof image, f);
        fclose(f);
    } else
        perror(argv[1]); /* a window without bytes is XDVDFS_NO_VOLUME */
    now = argc == 4 ? strtoull(argv[3], NULL, 10) : XDVDFS_STAMP_1970 + (uint64_t)time(NULL) * XDVDFS_STAMP_SECOND;

    number = xdvdfs_load_limits(image, len, 0, (const uint8_t *)argv[2], strlen(argv[2]), now, greatest_age, &sector, &size, &stamp);
    if (number != XDVDFS_DONE)
        stop_rig(argv[2], number);
    printf("%s: sector %u, size %u, limits of %s\n", argv[2], (unsigned)sector, (unsigned)size, xdvdfs_date_text(stamp, date));
    return EXIT_SUCCESS;
}
