/*
 * The engine through its C calls: the paper's rehearsal, some lettered cases, moves of weight, the frame whole, each
 * refusal once, the parts of a tail, logs compared from their ends; further calls in further.c and told.c.
 */
#include "offices.h"

int checks;
size_t places;

static void rehearsal(void) {
    static office of[3];
    uint8_t message[JOUKERPAN_MESSAGE];
    memset(message, 0xEE, sizeof message);
    for (size_t own = 0; own < 3; own++) {
        founded(&of[own], own, WEIGHTS, 3);
    }
    expect("issue at 0", issue(&of[0], 5, 120), JOUKERPAN_DONE);
    expect("issue at 1", issue(&of[1], 5, 130), JOUKERPAN_DONE);
    size_t length = send(&of[0], message, sizeof message);
    expect("the message's length", length, 36);
    static const uint8_t wanted[36] = {0x53, 0x48, 0, 3, 0, 40, 0, 35, 0, 25, [26] = 0x42, 0x41, 0, 1, 0, 5, 0, 120, 0x45, 0x4E};
    expect("the message's bytes", memcmp(message, wanted, sizeof wanted), 0);
    expect("the byte behind the message", message[36], 0xEE);
    expect("take at 2", take(&of[2], message, length), JOUKERPAN_DONE);
    expect("elect at 2", elect(&of[2]), 1);
    expect("the settled word", of[2].log[0], entry(0, 5, 120));
    joukerpan_framed settled = joukerpan_settled_frame(of[2].record, of[2].log, WORDS, 5);
    joukerpan_framed tentative = joukerpan_tentative_frame(of[2].record, of[2].log, WORDS, 5);
    expect("settled frame", settled.number, JOUKERPAN_DONE);
    expect("an edit is settled", settled.coded, true);
    expect("settled frame's code", settled.code, 120);
    expect("tentative frame", tentative.number, JOUKERPAN_DONE);
    expect("tentative frame's code", tentative.code, 120);
    joukerpan_part part = joukerpan_settled(of[2].record, of[2].log, WORDS);
    expect("settled", part.number, JOUKERPAN_DONE);
    expect("settled's length", part.length, 1);
    joukerpan_framed first = joukerpan_tentative_frame(of[1].record, of[1].log, WORDS, 5);
    expect("office 1 sees its own edit", first.code, 130);
    first = joukerpan_settled_frame(of[1].record, of[1].log, WORDS, 5);
    expect("which is not settled", first.coded, false);
}

/* D, G, I, J, K and L of the paper's lettered cases. */
static void cases(void) {
    const uint32_t a = entry(0, 5, 120), b = entry(1, 5, 130), c = entry(2, 5, 140), d = entry(0, 6, 7);
    static office x, y;
    uint8_t message[JOUKERPAN_MESSAGE];

    founded(&x, 0, WEIGHTS, 3);
    put(&x, 0, a), put(&x, 1, b), put(&x, 2, c);
    expect("D: count", elect(&x), 1);
    expect("D: the entry", x.log[0], a);
    expect("D: no ballots", x.record.ballots[0].len + x.record.ballots[1].len + x.record.ballots[2].len, 0);

    founded(&x, 0, WEIGHTS, 3);
    put(&x, 0, a), put(&x, 0, d), put(&x, 2, a), put(&x, 2, d);
    expect("G: count", elect(&x), 2);

    founded(&x, 2, WEIGHTS, 3), founded(&y, 1, WEIGHTS, 3);
    settle(&x, a), put(&y, 1, b);
    expect("I: take", take(&y, message, send(&x, message, sizeof message)), JOUKERPAN_DONE);
    expect("I: places", places, 0);
    expect("I: settled", y.record.settled, 1);
    expect("I: the entry", y.log[0], a);
    expect("I: own ballot", y.record.ballots[1].len, 0);

    founded(&x, 0, WEIGHTS, 3), founded(&y, 1, WEIGHTS, 3);
    put(&x, 0, a), put(&x, 0, d), settle(&y, a);
    size_t length = send(&x, message, sizeof message);
    expect("J: take", take(&y, message, length), JOUKERPAN_DONE);
    expect("J: office 0", y.record.ballots[0].len == 1 && y.record.ballots[0].cells[0] == d, true);
    expect("J: office 1", y.record.ballots[1].len == 1 && y.record.ballots[1].cells[0] == d, true);
    joukerpan_record before = y.record;
    expect("K: take", take(&y, message, length), JOUKERPAN_DONE);
    expect("K: no change", same(&before, &y.record), true);

    founded(&x, 0, WEIGHTS, 3), founded(&y, 1, WEIGHTS, 3);
    settle(&x, b), settle(&y, a);
    expect("L", take(&y, message, send(&x, message, sizeof message)), JOUKERPAN_OTHER_LOG);
    expect("L: log", y.log[0], a);
    expect("L: places", places, 1);
}

/*
 * A take at office 1, which has settled the first `own` of 1,024 entries, of the message of an office that has settled
 * the first `sent` of them, with another entry at two places. A place of 1,024 is none.
 */
static uint32_t compared(size_t own, size_t sent, size_t at, size_t also) {
    static office x, y;
    static uint8_t message[JOUKERPAN_MESSAGE];
    founded(&x, 0, WEIGHTS, 3), founded(&y, 1, WEIGHTS, 3);
    for (uint32_t i = 0; i < own; i++) {
        settle(&y, entry(2, i % 64, i));
    }
    for (uint32_t i = 0; i < sent; i++) {
        settle(&x, entry(i == at || i == also ? 0 : 2, i % 64, i));
    }
    return take(&y, message, send(&x, message, sizeof message));
}

/* The settled logs are compared from the last place that both have back to the first. */
static void compared_logs(void) {
    static const size_t lengths[] = {0, 1, 2, 700, 1023, JOUKERPAN_LOG};
    enum { LENGTHS = sizeof lengths / sizeof *lengths, NONE = JOUKERPAN_LOG };
    for (int i = 0; i < LENGTHS * LENGTHS; i++) {
        size_t own = lengths[i / LENGTHS], sent = lengths[i % LENGTHS], shared = own < sent ? own : sent;
        expect("alike", compared(own, sent, NONE, NONE), JOUKERPAN_DONE);
        expect("every shared place", places, shared);
        const size_t differ[] = {0, shared / 2, shared - 1};
        for (int j = 0; j < (shared ? 3 : 0); j++) {
            expect("not alike", compared(own, sent, differ[j], NONE), JOUKERPAN_OTHER_LOG);
            expect("up to the first difference met", places, shared - differ[j]);
            expect("nor at two places", compared(own, sent, differ[j], 0), JOUKERPAN_OTHER_LOG);
            expect("the first met counts", places, shared - differ[j]);
        }
    }
}

/* Whether the office has these present weights, and the founding ones of all offices here. */
static bool present(const office *of, uint16_t first, uint16_t second, uint16_t third) {
    const uint16_t weights[JOUKERPAN_OFFICES] = {first, second, third};
    return memcmp(of->record.summary.present, weights, sizeof weights) == 0
        && memcmp(of->record.weights, WEIGHTS.of, sizeof WEIGHTS.of) == 0;
}

/* Office 2 hands its weight on to office 0; office 1 hears of it. */
static void moves(void) {
    static office of[3];
    uint8_t message[JOUKERPAN_MESSAGE];
    for (size_t own = 0; own < 3; own++) {
        founded(&of[own], own, WEIGHTS, 3);
        expect("the present weights of a founding", present(&of[own], 40, 35, 25), true);
    }
    expect("a move to office 0", issue(&of[2], JOUKERPAN_LINES + 0, 25), JOUKERPAN_DONE);
    expect("its entry", of[2].record.ballots[2].cells[0], entry(2, 64, 25));
    expect("take at 0", take(&of[0], message, send(&of[2], message, sizeof message)), JOUKERPAN_DONE);
    expect("not settled, no effect", present(&of[0], 40, 35, 25), true);
    expect("elect at 0", elect(&of[0]), 1);
    expect("settled", present(&of[0], 65, 35, 0), true);
    expect("an edit at 0", issue(&of[0], 5, 120), JOUKERPAN_DONE);
    expect("wins alone", elect(&of[0]), 1);

    size_t length = send(&of[0], message, sizeof message);
    static const uint8_t head[10] = {0x53, 0x48, 0, 3, 0, 40, 0, 35, 0, 25};
    expect("a message has the founding weights", memcmp(message, head, sizeof head), 0);
    expect("take at 1", take(&of[1], message, length), JOUKERPAN_DONE);
    expect("the weights come with the log", present(&of[1], 65, 35, 0), true);

    expect("a move of more than there is", issue(&of[1], JOUKERPAN_LINES + 2, 36), JOUKERPAN_DONE);
    expect("take at 0", take(&of[0], message, send(&of[1], message, sizeof message)), JOUKERPAN_DONE);
    expect("elect at 0", elect(&of[0]), 1);
    expect("is settled and changes nothing", present(&of[0], 65, 35, 0), true);

    expect("a move of all", issue(&of[1], JOUKERPAN_LINES + 2, 35), JOUKERPAN_DONE);
    of[1].record.summary.present[0]--;
    expect("weights that do not follow from the log", joukerpan_sound(of[1].record, of[1].log, WORDS), false);
    expect("issue", issue(&of[1], 5, 120), JOUKERPAN_UNSOUND);
}

/* Whether all lines in one call are these, as they are stored; each must be what the single call answers. */
static bool shows(const office *of, const uint32_t codes[JOUKERPAN_LINES]) {
    joukerpan_lines lines = joukerpan_all_lines(of->record, of->log, WORDS);
    expect("all lines", lines.number, JOUKERPAN_DONE);
    for (uint32_t line = 0; line < JOUKERPAN_LINES; line++) {
        joukerpan_framed framed = joukerpan_settled_frame(of->record, of->log, WORDS, line);
        expect("a single line", framed.number, JOUKERPAN_DONE);
        expect("a line of all lines", lines.codes[line], framed.coded ? framed.code + 1 : 0);
        expect("no code without an edit", framed.coded || framed.code == 0, true);
    }
    return memcmp(lines.codes, codes, sizeof lines.codes) == 0;
}

/* The settled frame whole, as edits, a move of weight, an election and a take leave it. */
static void whole_frame(void) {
    static office of[2];
    static const uint32_t none[JOUKERPAN_LINES], settled[JOUKERPAN_LINES] = {[0] = 1, [63] = 8};
    const joukerpan_weights weights = {{60, 40}};
    uint8_t message[JOUKERPAN_MESSAGE];
    founded(&of[0], 0, weights, 2), founded(&of[1], 1, weights, 2);
    expect("the codes of a founding", shows(&of[0], none), true);
    expect("an edit", issue(&of[0], 63, 9999), JOUKERPAN_DONE);
    expect("an edit to code 0", issue(&of[0], 0, 0), JOUKERPAN_DONE);
    expect("line 63 once more", issue(&of[0], 63, 7), JOUKERPAN_DONE);
    expect("a move to office 1", issue(&of[0], JOUKERPAN_LINES + 1, 10), JOUKERPAN_DONE);
    expect("not settled, not shown", shows(&of[0], none), true);
    expect("elect at 0", elect(&of[0]), 4);
    expect("the last edit of each line, and no move", shows(&of[0], settled), true);

    expect("not heard of at 1", shows(&of[1], none), true);
    expect("take at 1", take(&of[1], message, send(&of[0], message, sizeof message)), JOUKERPAN_DONE);
    expect("the codes come with the log", shows(&of[1], settled), true);

    of[1].record.summary.codes[63]++;
    expect("a code that does not follow from the log", joukerpan_sound(of[1].record, of[1].log, WORDS), false);
    expect("issue", issue(&of[1], 5, 120), JOUKERPAN_UNSOUND);
    joukerpan_lines lines = joukerpan_all_lines(of[1].record, of[1].log, WORDS);
    expect("all lines", lines.number, JOUKERPAN_UNSOUND);
    expect("each of them 0", memcmp(lines.codes, none, sizeof none), 0);
    of[1].record.summary.codes[63]--, of[1].record.summary.codes[62] = 1;
    expect("a code of no entry", joukerpan_sound(of[1].record, of[1].log, WORDS), false);
    lines = joukerpan_all_lines(of[0].record, of[0].log, JOUKERPAN_LOG - 1);
    expect("all lines over a short log", lines.number, JOUKERPAN_UNSOUND);
    expect("each of them 0", memcmp(lines.codes, none, sizeof none), 0);
}

static void founding_refusals(void) {
    static uint32_t log[JOUKERPAN_LOG];
    static const joukerpan_record zero;
    const joukerpan_weights none = {{0}}, past = {{1, 1, 1, 1}};
    joukerpan_founded answer = joukerpan_found(0, 9, none, log, JOUKERPAN_LOG - 1);
    expect("found: 1 before 2", answer.number, JOUKERPAN_UNSOUND);
    expect("found: an all-zero record", same(&answer.record, &zero), true);
    answer = joukerpan_found(9, 0, WEIGHTS, log, JOUKERPAN_LOG);
    expect("found: n", answer.number, JOUKERPAN_FOUNDING);
    expect("found: an all-zero record", same(&answer.record, &zero), true);
    expect("found: own", joukerpan_found(3, 3, WEIGHTS, log, JOUKERPAN_LOG).number, JOUKERPAN_FOUNDING);
    expect("found: no weight", joukerpan_found(3, 0, none, log, JOUKERPAN_LOG).number, JOUKERPAN_FOUNDING);
    expect("found: past n", joukerpan_found(3, 0, past, log, JOUKERPAN_LOG).number, JOUKERPAN_FOUNDING);
}

static void issue_refusals(void) {
    static office x;
    founded(&x, 1, WEIGHTS, 3);
    expect("a move of 0", issue(&x, JOUKERPAN_LINES, 0), JOUKERPAN_NO_ENTRY);
    expect("a move of 10000", issue(&x, JOUKERPAN_LINES, JOUKERPAN_CODES), JOUKERPAN_NO_ENTRY);
    expect("a move to office 3 of 3", issue(&x, JOUKERPAN_LINES + 3, 1), JOUKERPAN_NO_ENTRY);
    expect("line 256", issue(&x, 256, 1), JOUKERPAN_NO_ENTRY);
    expect("code 10000", issue(&x, 0, JOUKERPAN_CODES), JOUKERPAN_NO_ENTRY);
    for (int i = 0; i < JOUKERPAN_TAIL / 3; i++) {
        expect("issue", issue(&x, 63, 9999), JOUKERPAN_DONE);
    }
    expect("entry 11 of one office among three", issue(&x, 63, 9999), JOUKERPAN_PART_FULL);
    expect("a move is an entry too", issue(&x, JOUKERPAN_LINES, 1), JOUKERPAN_PART_FULL);
    expect("3 before 11", issue(&x, JOUKERPAN_LINES, 0), JOUKERPAN_NO_ENTRY);
    founded(&x, 1, WEIGHTS, 3);
    for (int i = 0; i < JOUKERPAN_LOG; i++) {
        settle(&x, entry(2, 0, 1));
    }
    expect("entry 1025", issue(&x, 0, 0), JOUKERPAN_LOG_FULL);
    expect("3 before 5", issue(&x, 64, 0), JOUKERPAN_NO_ENTRY);
}

/* Each office has its part of a tail: 32 / n entries, rounded down. */
static void parts(void) {
    static office x, y;
    uint8_t message[JOUKERPAN_MESSAGE];
    const joukerpan_weights one = {{1}};
    founded(&x, 0, WEIGHTS, 3), founded(&y, 1, WEIGHTS, 3);
    for (uint32_t code = 0; code < 10; code++) {
        expect("issue", issue(&x, 5, code), JOUKERPAN_DONE);
    }
    expect("take at 1", take(&y, message, send(&x, message, sizeof message)), JOUKERPAN_DONE);
    expect("another office adds behind them", issue(&y, 5, 10), JOUKERPAN_DONE);
    expect("take at 0", take(&x, message, send(&y, message, sizeof message)), JOUKERPAN_DONE);
    expect("its own tail now", x.record.ballots[0].len, 11);
    expect("the busy office waits", issue(&x, 5, 11), JOUKERPAN_PART_FULL);
    size_t length = send(&x, message, sizeof message);
    message[length - 2 - 4] = 0; /* the last entry's office: the eleventh of office 0 */
    expect("one more than its part in a message", take(&y, message, length), JOUKERPAN_NO_MESSAGE);
    x.record.ballots[0].cells[10] = entry(0, 5, 10);
    expect("and in a record", joukerpan_sound(x.record, x.log, WORDS), false);

    founded(&x, 0, one, 1);
    for (int i = 0; i < JOUKERPAN_LOG - JOUKERPAN_TAIL; i++) {
        settle(&x, entry(0, 0, 1));
    }
    for (int i = 0; i < JOUKERPAN_TAIL; i++) {
        expect("issue", issue(&x, 63, 9999), JOUKERPAN_DONE);
    }
    expect("5 before 11", issue(&x, 63, 9999), JOUKERPAN_LOG_FULL);
    x.record.settled--;
    expect("all 32 are an only office's part", issue(&x, 63, 9999), JOUKERPAN_PART_FULL);
}

static void unsound_records(void) {
    static office x;
    static uint8_t output[4];
    founded(&x, 1, WEIGHTS, 3);
    expect("sound", joukerpan_sound(x.record, x.log, WORDS), true);
    expect("a short log", joukerpan_sound(x.record, x.log, JOUKERPAN_LOG - 1), false);
    x.record.ballots[2].cells[31] = 1;
    expect("a used cell past the tail", joukerpan_sound(x.record, x.log, WORDS), false);
    expect("issue", issue(&x, 5, 120), JOUKERPAN_UNSOUND);
    expect("take", take(&x, output, 0), JOUKERPAN_UNSOUND);
    joukerpan_part part = joukerpan_settled(x.record, x.log, WORDS);
    expect("settled", part.number, JOUKERPAN_UNSOUND);
    expect("settled's length", part.length, 0);
    joukerpan_elected elected = joukerpan_elect(x.record, x.log, WORDS);
    expect("elect", elected.number, JOUKERPAN_UNSOUND);
    expect("elect's count", elected.count, 0);
    expect("elect leaves the record", same(&elected.record, &x.record), true);
    joukerpan_sent sent = joukerpan_send(x.record, x.log, WORDS, output, sizeof output);
    expect("send", sent.number, JOUKERPAN_UNSOUND);
    expect("send's length", sent.length, 0);
    joukerpan_framed framed = joukerpan_settled_frame(x.record, x.log, WORDS, 64);
    expect("settled frame", framed.number, JOUKERPAN_UNSOUND);
    framed = joukerpan_tentative_frame(x.record, x.log, WORDS, 64);
    expect("tentative frame", framed.number, JOUKERPAN_UNSOUND);
    expect("no edit yet", framed.coded, false);
    expect("tentative frame's code", framed.code, 0);
}

static void message_refusals(void) {
    static office x, y;
    uint8_t message[JOUKERPAN_MESSAGE];
    const joukerpan_weights others = {{40, 35, 26}};
    founded(&x, 0, WEIGHTS, 3), founded(&y, 1, WEIGHTS, 3);
    memset(message, 0xEE, sizeof message);
    joukerpan_sent sent = joukerpan_send(x.record, x.log, WORDS, message, 27);
    expect("an output of 27 bytes", sent.number, JOUKERPAN_OUTPUT_SHORT);
    expect("its length", sent.length, 0);
    expect("its bytes", message[0], 0xEE);
    size_t length = send(&x, message, 28);
    expect("an output of 28 bytes", length, 28);
    expect("one byte short", take(&y, message, length - 1), JOUKERPAN_NO_MESSAGE);
    expect("one byte more", take(&y, message, length + 1), JOUKERPAN_NO_MESSAGE);
    expect("no bytes", take(&y, message, 0), JOUKERPAN_NO_MESSAGE);
    expect("own message", take(&x, message, length), JOUKERPAN_OWN_MESSAGE);
    founded(&x, 0, others, 3);
    expect("other weights", take(&y, message, send(&x, message, sizeof message)), JOUKERPAN_OTHER_OFFICES);
    joukerpan_framed framed = joukerpan_settled_frame(y.record, y.log, WORDS, 64);
    expect("settled frame of line 64", framed.number, JOUKERPAN_NO_ENTRY);
    expect("no edit yet", framed.coded, false);
}

/* The longest message: settled length 992 and eight tails of 32. */
static void longest_message(void) {
    static office x, y;
    static uint8_t message[JOUKERPAN_MESSAGE];
    const joukerpan_weights alike = {{1, 1, 1, 1, 1, 1, 1, 1}};
    founded(&x, 0, alike, 8), founded(&y, 7, alike, 8);
    for (int i = 0; i < 992; i++) {
        settle(&x, entry((uint32_t)i % 8, (uint32_t)i % 64, 9999));
    }
    for (size_t place = 0; place < 8; place++) {
        for (int i = 0; i < JOUKERPAN_TAIL; i++) {
            put(&x, place, entry((uint32_t)i % 8, (uint32_t)i % 64, 1));
        }
    }
    expect("the longest message", send(&x, message, sizeof message), JOUKERPAN_MESSAGE);
    expect("take", take(&y, message, sizeof message), JOUKERPAN_DONE);
    expect("settled by it", y.record.settled, 992);
    expect("elect", elect(&y), 32);
    expect("a full log", y.record.settled, JOUKERPAN_LOG);
    uint32_t codes[JOUKERPAN_LINES];
    for (int line = 0; line < JOUKERPAN_LINES; line++) {
        codes[line] = line < 32 ? 1 + 1 : 9999 + 1;
    }
    expect("its codes", shows(&y, codes), true);
}

int main(void) {
    rehearsal();
    cases();
    compared_logs();
    moves();
    whole_frame();
    founding_refusals();
    issue_refusals();
    parts();
    unsound_records();
    message_refusals();
    longest_message();
    further_calls();
    told_calls();
    printf("embed: %d answers as expected\n", checks);
    return 0;
}
