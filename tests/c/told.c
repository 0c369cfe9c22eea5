/* What a supervisor is told, through the C calls: what became of her edits, and how the next place stands. */
#include "offices.h"

/* What stands in a word of the buffer that no call has written. */
enum { UNTOLD = 0xA5A5A5A5 };

/* Wants these counts, and the entries that are not settled as the first words of the buffer, the rest untouched. */
static void told(const char *what, const joukerpan_record *before, const office *after, size_t room, uint32_t number,
                 size_t settled, size_t pending, size_t lost, const uint32_t *entries) {
    uint32_t rest[JOUKERPAN_TAIL + 1];
    for (size_t i = 0; i <= JOUKERPAN_TAIL; i++) {
        rest[i] = UNTOLD;
    }
    joukerpan_told answer = joukerpan_outcome(*before, after->record, after->log, WORDS, rest, room);
    expect(what, answer.number, number);
    expect(what, answer.settled, settled);
    expect(what, answer.pending, pending);
    expect(what, answer.lost, lost);
    for (size_t i = 0; i <= JOUKERPAN_TAIL; i++) {
        expect(what, rest[i], i < pending + lost ? entries[i] : UNTOLD);
    }
}

/* A supervisor's edit loses its place to an edit of another line, is issued again, and settles. */
static void lost_and_issued_again(void) {
    static office of[3];
    uint8_t message[JOUKERPAN_MESSAGE];
    const uint32_t edits[] = {entry(1, 5, 130), entry(1, 7, 1)};
    for (size_t own = 0; own < 3; own++) {
        founded(&of[own], own, WEIGHTS, 3);
    }
    issue(&of[1], 5, 130), issue(&of[1], 7, 1), issue(&of[0], 6, 7);
    joukerpan_record before = of[1].record;
    expect("elect at 1", elect(&of[1]), 0);
    told("nothing settled yet", &before, &of[1], JOUKERPAN_TAIL, JOUKERPAN_DONE, 0, 2, 0, edits);

    take(&of[2], message, send(&of[0], message, sizeof message));
    joukerpan_record adopted = of[2].record;
    expect("elect at 2", elect(&of[2]), 1);
    told("an adopted entry is not told", &adopted, &of[2], 0, JOUKERPAN_DONE, 0, 0, 0, NULL);

    expect("take at 1", take(&of[1], message, send(&of[2], message, sizeof message)), JOUKERPAN_DONE);
    told("both are lost", &before, &of[1], JOUKERPAN_TAIL, JOUKERPAN_DONE, 0, 0, 2, edits);
    told("room for just them", &before, &of[1], 2, JOUKERPAN_DONE, 0, 0, 2, edits);
    told("too little room", &before, &of[1], 1, JOUKERPAN_OUTPUT_SHORT, 0, 0, 0, NULL);
    told("since then", &of[1].record, &of[1], 0, JOUKERPAN_DONE, 0, 0, 0, NULL);

    issue(&of[1], 5, 130), issue(&of[1], 7, 1);
    before = of[1].record;
    expect("take at 2", take(&of[2], message, send(&of[1], message, sizeof message)), JOUKERPAN_DONE);
    expect("60 above 40", elect(&of[2]), 2);
    expect("take at 1", take(&of[1], message, send(&of[2], message, sizeof message)), JOUKERPAN_DONE);
    told("issued again, both settle", &before, &of[1], 0, JOUKERPAN_DONE, 2, 0, 0, NULL);
}

/* A fold between, and each cause of a refusal. */
static void refused_outcomes(void) {
    static office x, later;
    const joukerpan_weights weights = {{60, 40}};
    const uint32_t edit = entry(0, 5, 120);
    founded(&x, 0, weights, 2);
    settle(&x, entry(0, 1, 1)), settle(&x, entry(1, 2, 2)), put(&x, 0, edit);
    x.record.noted[1] = 2;
    joukerpan_record before = x.record;
    expect("fold", fold(&x), 2);
    told("a fold leaves what is pending", &before, &x, 1, JOUKERPAN_DONE, 0, 1, 0, &edit);
    expect("elect", elect(&x), 1);
    told("settled behind the fold", &before, &x, 0, JOUKERPAN_DONE, 1, 0, 0, NULL);

    later = x, later.record.noted[1] = 3;
    expect("fold", fold(&later), 1);
    told("what was settled since is dropped", &before, &later, 0, JOUKERPAN_UNSOUND, 0, 0, 0, NULL);
    joukerpan_record other = before;
    other.own = 1;
    told("another office's record", &other, &x, 0, JOUKERPAN_UNSOUND, 0, 0, 0, NULL);
    other = before, other.n = 1;
    told("another n", &other, &x, 0, JOUKERPAN_UNSOUND, 0, 0, 0, NULL);
    other = before, other.weights[7] = 1;
    told("other weights", &other, &x, 0, JOUKERPAN_UNSOUND, 0, 0, 0, NULL);
    other = before, other.settled = 4;
    told("a longer log before", &other, &x, 0, JOUKERPAN_UNSOUND, 0, 0, 0, NULL);
    other = before, other.kept.dropped = 3;
    told("more dropped than settled before", &other, &x, 0, JOUKERPAN_UNSOUND, 0, 0, 0, NULL);
    other = before, other.ballots[1].cells[31] = 1;
    told("a cell past a tail before", &other, &x, 0, JOUKERPAN_UNSOUND, 0, 0, 0, NULL);
    other = before, other.ballots[0].len = JOUKERPAN_TAIL + 1;
    told("a tail of 33 before", &other, &x, 0, JOUKERPAN_UNSOUND, 0, 0, 0, NULL);
    other = before, other.ballots[2] = other.ballots[0];
    told("a ballot past n before", &other, &x, 0, JOUKERPAN_UNSOUND, 0, 0, 0, NULL);
    x.record.summary.codes[0]++;
    told("1 before 6", &before, &x, 0, JOUKERPAN_UNSOUND, 0, 0, 0, NULL);
}

/* Wants these rows, U, and these offices silent, as the digits of a word. */
static void stands(const char *what, const office *of, size_t rows, const uint32_t *entries, const uint32_t *tallies,
                   uint32_t unheard, const char *silent) {
    joukerpan_tallied answer = joukerpan_standing(of->record, of->log, WORDS);
    expect(what, answer.number, JOUKERPAN_DONE);
    expect(what, answer.rows, rows);
    expect(what, answer.unheard, unheard);
    for (size_t i = 0; i < JOUKERPAN_OFFICES; i++) {
        expect(what, answer.entries[i], i < rows ? entries[i] : 0);
        expect(what, answer.tallies[i], i < rows ? tallies[i] : 0);
        expect(what, answer.silent[i], strchr(silent, '0' + (int)i) != NULL);
    }
}

/* A, B, C, D and H of the paper's lettered cases, and an office that moved its weight away. */
static void standings(void) {
    static office x;
    static const joukerpan_tallied nothing;
    const uint32_t a = entry(0, 5, 120), b = entry(1, 5, 130), c = entry(2, 5, 140);
    const joukerpan_weights h = {{40, 30, 30}};
    founded(&x, 0, WEIGHTS, 3);
    stands("no votes", &x, 0, NULL, NULL, 100, "012");
    put(&x, 0, a);
    stands("A", &x, 1, &a, (uint32_t[]){40}, 60, "12");
    put(&x, 1, b);
    stands("C: office 2 decides", &x, 2, (uint32_t[]){a, b}, (uint32_t[]){40, 35}, 25, "2");
    put(&x, 2, c);
    stands("D", &x, 3, (uint32_t[]){a, b, c}, (uint32_t[]){40, 35, 25}, 0, "");
    founded(&x, 0, WEIGHTS, 3);
    put(&x, 0, a), put(&x, 2, a);
    stands("B", &x, 1, &a, (uint32_t[]){65}, 35, "1");
    founded(&x, 0, h, 3);
    put(&x, 0, a), put(&x, 0, entry(0, 6, 7)), put(&x, 1, a), put(&x, 2, c);
    stands("H", &x, 2, (uint32_t[]){a, c}, (uint32_t[]){70, 30}, 0, "");
    expect("H: count", elect(&x), 1);
    stands("H: office 0's second", &x, 1, (uint32_t[]){entry(0, 6, 7)}, (uint32_t[]){40}, 60, "12");

    founded(&x, 0, WEIGHTS, 3);
    put(&x, 0, entry(2, JOUKERPAN_LINES, 25)), put(&x, 2, entry(2, JOUKERPAN_LINES, 25));
    expect("the move settles", elect(&x), 1);
    put(&x, 0, a), put(&x, 1, b);
    stands("an office without weight", &x, 2, (uint32_t[]){a, b}, (uint32_t[]){65, 35}, 0, "2");
    joukerpan_tallied answer = joukerpan_standing(x.record, x.log, JOUKERPAN_LOG - 1);
    expect("1", answer.number, JOUKERPAN_UNSOUND);
    answer.number = 0;
    expect("nothing", answer.rows == 0 && answer.unheard == 0 && memcmp(answer.entries, nothing.entries, sizeof nothing.entries) == 0
           && memcmp(answer.tallies, nothing.tallies, sizeof nothing.tallies) == 0
           && memcmp(answer.silent, nothing.silent, sizeof nothing.silent) == 0, true);
}

void told_calls(void) {
    lost_and_issued_again();
    refused_outcomes();
    standings();
}
