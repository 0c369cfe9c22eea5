/* Office 1's edit loses its place to office 0's, of another line; office 1 is told, and issues it again. */
#include <stdio.h>

#include "joukerpan.h"

int main(void) {
    static uint32_t log0[JOUKERPAN_LOG], log1[JOUKERPAN_LOG];
    joukerpan_weights weights = {{60, 40}};
    joukerpan_record office0 = joukerpan_found(2, 0, weights, log0, JOUKERPAN_LOG).record;
    joukerpan_record office1 = joukerpan_found(2, 1, weights, log1, JOUKERPAN_LOG).record;
    office0 = joukerpan_issue(office0, log0, JOUKERPAN_LOG, 5, 120).record;
    office0 = joukerpan_elect(office0, log0, JOUKERPAN_LOG).record; /* 60 of 100 */
    office1 = joukerpan_issue(office1, log1, JOUKERPAN_LOG, 6, 7).record;

    joukerpan_tallied next = joukerpan_standing(office1, log1, JOUKERPAN_LOG);
    printf("weight %u, missing %u\n", (unsigned)next.tallies[0], (unsigned)next.unheard);

    uint8_t message[JOUKERPAN_MESSAGE];
    joukerpan_sent sent = joukerpan_send(office0, log0, JOUKERPAN_LOG, message, sizeof message);
    joukerpan_taken taken = joukerpan_take(office1, log1, JOUKERPAN_LOG, message, sent.length);

    uint32_t rest[JOUKERPAN_TAIL];
    joukerpan_told told = joukerpan_outcome(office1, taken.record, log1, JOUKERPAN_LOG, rest, JOUKERPAN_TAIL);
    office1 = taken.record;
    printf("settled %zu, pending %zu, lost %zu\n", told.settled, told.pending, told.lost);
    for (size_t i = told.pending; i < told.pending + told.lost; i++) {
        unsigned line = rest[i] / 65536 % 256, code = rest[i] % 65536;
        printf("lost: line %u is %u\n", line, code);
        office1 = joukerpan_issue(office1, log1, JOUKERPAN_LOG, line, code).record;
    }
    return 0;
}
