/* Three offices; office 0 edits line 5, office 2 hears of it and settles it. */
#include <stdio.h>

#include "joukerpan.h"

int main(void) {
    static uint32_t log0[JOUKERPAN_LOG], log2[JOUKERPAN_LOG];
    joukerpan_weights weights = {{40, 35, 25}};
    joukerpan_record office0 = joukerpan_found(3, 0, weights, log0, JOUKERPAN_LOG).record;
    joukerpan_record office2 = joukerpan_found(3, 2, weights, log2, JOUKERPAN_LOG).record;

    joukerpan_issued issued = joukerpan_issue(office0, log0, JOUKERPAN_LOG, 5, 120);
    if (issued.number != JOUKERPAN_DONE) {
        return 1;
    }
    office0 = issued.record;

    uint8_t message[JOUKERPAN_MESSAGE];
    joukerpan_sent sent = joukerpan_send(office0, log0, JOUKERPAN_LOG, message, sizeof message);
    joukerpan_taken taken = joukerpan_take(office2, log2, JOUKERPAN_LOG, message, sent.length);
    if (taken.number != JOUKERPAN_DONE) {
        fprintf(stderr, "refused: %u\n", (unsigned)taken.number);
        return 1;
    }

    joukerpan_elected elected = joukerpan_elect(taken.record, log2, JOUKERPAN_LOG);
    office2 = elected.record;
    joukerpan_framed framed = joukerpan_settled_frame(office2, log2, JOUKERPAN_LOG, 5);
    if (framed.coded) {
        printf("settled %zu, line 5 is %u\n", elected.count, (unsigned)framed.code);
    }
    return 0;
}
