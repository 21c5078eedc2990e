/* What ./panel asks before anything is proved and built: whether the options are good, and where it is to run. Its exit
   status: 0 on a device, 10 on a simulated house, whose options it prints, 11 help was given, 2 they are wrong. */
#include "options.h"

#include <stdio.h>

enum { ON_A_DEVICE = 0, WRONG = 2, IN_A_HOUSE = 10, HELPED = 11 };

int main(int count, char **words) {
    struct options options;
    switch (options_read(&options, count, words)) {
    case ASKED_HELP: return HELPED;
    case ASKED_WRONG: return WRONG;
    default: break;
    }
    if (options.device) return ON_A_DEVICE;
    printf("--faster %u --baud %u\n", options.faster, options.baud);
    return IN_A_HOUSE;
}
