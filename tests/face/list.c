/* Lists the frames of a capture as framelist does, through nadrelgos_find, a few starts at a time: what it answers
   where its budget is spent is then asked for too. */
#include "nadrelgos.h"

#include <stdio.h>

/* framelist's limit and subnet, and the starts that each call may try */
enum { MOST = 4096, SUBNET = 3, BUDGET = 7 };

static void list(size_t start, const uint8_t *frame) {
    printf("%u %u %u %u %u\n", (unsigned)start, frame[0], frame[1], frame[7], frame[9]);
}

int main(void) {
    static uint8_t bytes[MOST];
    size_t count = fread(bytes, 1, sizeof bytes, stdin);
    struct nadrelgos_finding finding = {.number = NADRELGOS_SPENT};
    for (size_t at = 0; finding.number != NADRELGOS_NOTHING;) {
        finding = nadrelgos_find(SUBNET, bytes + at, count - at, BUDGET);
        if (finding.number == NADRELGOS_FOUND) list(at + finding.start, bytes + at + finding.start);
        at += finding.number == NADRELGOS_FOUND ? finding.start + finding.length : finding.tried;
    }
    return 0;
}
