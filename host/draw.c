/* Draws a message of random frames with house indices and writes its octets to standard
 * output: `draw MODE FRAMES`, or `draw any FRAMES` for modes at random. Each run draws
 * the same. */
#include <stdio.h>
#include <stdlib.h>
#include <string.h>

#include "trial.h"

int main(int argc, char **argv)
{
    static struct message_frame frames[MESSAGE_MAX_FRAMES];
    static uint8_t octets[MESSAGE_LONGEST];

    unsigned long mode = argc == 3 ? strtoul(argv[1], NULL, 10) : MESSAGE_MODES;
    unsigned long count = argc == 3 ? strtoul(argv[2], NULL, 10) : 0;
    bool any = argc == 3 && strcmp(argv[1], "any") == 0;
    if ((!any && mode >= MESSAGE_MODES) || count > MESSAGE_MAX_FRAMES) {
        fprintf(stderr, "usage: draw 0..8|any 0..512\n");
        return EXIT_FAILURE;
    }
    for (unsigned long n = 0; n < count; n++)
        frames[n] = random_frame(any ? below(MESSAGE_MODES) : (unsigned)mode);
    size_t length = message_write(frames, count, octets);
    if (fwrite(octets, 1, length, stdout) != length || fflush(stdout) != 0)
        return EXIT_FAILURE;
    return EXIT_SUCCESS;
}
