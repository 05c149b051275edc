/* The delay sheet by message.c: the yardstick of the program `sheet`. */
#include <stdio.h>
#include <stdlib.h>

#include "message.h"

int main(void)
{
    static uint8_t octets[MESSAGE_MAX_OCTETS];
    static struct message_frame frames[MESSAGE_MAX_FRAMES];
    static char lines[MESSAGE_SHEET_ROOM];

    size_t count = fread(octets, 1, sizeof octets, stdin);
    if (ferror(stdin))
        return EXIT_FAILURE;
    size_t length = message_sheet(message_read_octets(octets, count, true, frames), frames, lines);
    if (fwrite(lines, 1, length, stdout) != length || fflush(stdout) != 0)
        return EXIT_FAILURE;
    return EXIT_SUCCESS;
}
