/* Further calls: household sheets, forecasts, the frame as of an earlier place, version vectors, folding. */
#include "offices.h"

/* A household's record at the front of the bytes; where the next one goes. */
static uint8_t *household(uint8_t *bytes, uint8_t line, uint32_t weight) {
    const uint8_t record[JOUKERPAN_HOUSEHOLD] = {0x48, 0x52, line, (uint8_t)(weight >> 24), (uint8_t)(weight >> 16),
                                                 (uint8_t)(weight >> 8), (uint8_t)weight};
    memcpy(bytes, record, sizeof record);
    return bytes + sizeof record;
}

static void refused_sheet(const char *what, joukerpan_tabulated sheet, uint32_t number) {
    static const joukerpan_row none[JOUKERPAN_LINES];
    expect(what, sheet.number, number);
    expect("its rows", sheet.count, 0);
    for (int i = 0; i < JOUKERPAN_LINES; i++) {
        expect("each of them zero", sheet.rows[i].code == none[i].code && sheet.rows[i].total == none[i].total, true);
    }
}

static void household_sheet(void) {
    static office x;
    uint8_t bytes[6 * JOUKERPAN_HOUSEHOLD], *end = bytes;
    founded(&x, 0, WEIGHTS, 3);
    settle(&x, entry(1, 5, 140)), settle(&x, entry(2, 6, 0)), settle(&x, entry(0, 63, 140));
    put(&x, 0, entry(0, 8, 9)); /* pending, so line 8 has no code yet */
    end = household(end, 5, 0xFFFFFFFF), end = household(end, 8, 257), end = household(end, 6, 0);
    end = household(end, 9, 2), end = household(end, 63, 0xFFFFFFFF), end = household(end, 5, 2);
    joukerpan_tabulated sheet = joukerpan_sheet(x.record, x.log, WORDS, bytes, sizeof bytes);
    expect("sheet", sheet.number, JOUKERPAN_DONE);
    expect("its rows", sheet.count, 3);
    const joukerpan_row wanted[3] = {{0, 259}, {0 + 1, 0}, {140 + 1, 0x200000000}}; /* uncoded, 0 and 140 */
    for (int i = 0; i < 3; i++) {
        expect("a row's code", sheet.rows[i].code, wanted[i].code);
        expect("a row's total", sheet.rows[i].total, wanted[i].total);
    }
    expect("the row behind them", sheet.rows[3].code == 0 && sheet.rows[3].total == 0, true);
    refused_sheet("no households", joukerpan_sheet(x.record, x.log, WORDS, bytes, 0), JOUKERPAN_DONE);
    for (size_t short_by = 1; short_by < JOUKERPAN_HOUSEHOLD; short_by++) {
        refused_sheet("a record cut short", joukerpan_sheet(x.record, x.log, WORDS, bytes, sizeof bytes - short_by), JOUKERPAN_NO_HOUSEHOLDS);
    }
    bytes[sizeof bytes - JOUKERPAN_HOUSEHOLD + 2] = 64;
    refused_sheet("line 64", joukerpan_sheet(x.record, x.log, WORDS, bytes, sizeof bytes), JOUKERPAN_NO_HOUSEHOLDS);
    refused_sheet("1 before 12", joukerpan_sheet(x.record, x.log, JOUKERPAN_LOG - 1, bytes, sizeof bytes), JOUKERPAN_UNSOUND);
}

static void forecast(const office *of, const char *what, joukerpan_weights lowest, joukerpan_weights highest, uint32_t number, uint32_t named) {
    joukerpan_foreseen answer = joukerpan_forecast(of->record, of->log, WORDS, lowest, highest);
    expect(what, answer.number, number);
    expect("whether an entry is named", answer.named, named != 0);
    expect("the entry", answer.entry, named);
}

static void forecasts(void) {
    static office x;
    const uint32_t a = entry(0, 5, 120), b = entry(1, 5, 130);
    const joukerpan_weights most = {{65535, 65535, 65535}}, none = {{0}};
    founded(&x, 0, WEIGHTS, 3);
    put(&x, 0, a), put(&x, 1, b);
    forecast(&x, "bounds that meet", (joukerpan_weights){{50, 40, 9}}, (joukerpan_weights){{50, 40, 9}}, JOUKERPAN_DONE, a);
    forecast(&x, "a tie at the bound", (joukerpan_weights){{50, 0, 0}}, (joukerpan_weights){{60, 40, 10}}, JOUKERPAN_DONE, a);
    forecast(&x, "beyond it", (joukerpan_weights){{49, 0, 0}}, (joukerpan_weights){{60, 40, 10}}, JOUKERPAN_DONE, 0);
    forecast(&x, "zero bounds", none, none, JOUKERPAN_DONE, 0);
    forecast(&x, "any weights", none, most, JOUKERPAN_DONE, 0);
    forecast(&x, "a bound from place n on", (joukerpan_weights){{50, 40, 9, 1}}, (joukerpan_weights){{50, 40, 9}}, JOUKERPAN_DONE, a);
    forecast(&x, "a lowest above its highest", (joukerpan_weights){{50, 40, 9}}, (joukerpan_weights){{50, 40, 8}}, JOUKERPAN_NO_WEIGHTS, 0);
    settle(&x, entry(0, 6, 7));
    forecast(&x, "the tie behind an entry of office 0", (joukerpan_weights){{50, 0, 0}}, (joukerpan_weights){{60, 40, 10}}, JOUKERPAN_DONE, 0);
    x.record.n = 9;
    forecast(&x, "1 before 15", most, none, JOUKERPAN_UNSOUND, 0);
}

/* The frame as of an earlier place, over entries for lines 63, 0 and 63 and a move. */
static void earlier_frame(void) {
    static office of;
    static const joukerpan_earlier zero;
    static uint32_t many[JOUKERPAN_LINES + 1];
    const joukerpan_weights weights = {{60, 40}};
    const uint32_t lines[] = {63, 0, 63, 5};
    founded(&of, 0, weights, 2);
    expect("an edit", issue(&of, 63, 9999), JOUKERPAN_DONE);
    expect("an edit to code 0", issue(&of, 0, 0), JOUKERPAN_DONE);
    expect("line 63 once more", issue(&of, 63, 7), JOUKERPAN_DONE);
    expect("a move to office 1", issue(&of, JOUKERPAN_LINES + 1, 10), JOUKERPAN_DONE);
    expect("elect", elect(&of), 4);

    joukerpan_earlier at = joukerpan_frame_at(of.record, of.log, WORDS, 2, lines, 3);
    expect("as of place 2", at.number, JOUKERPAN_DONE);
    expect("words read", at.words, 2);
    expect("line 63 before it was edited again", at.edits[0], 10000);
    expect("code 0", at.edits[1], 1);
    expect("a line named twice", at.edits[2], 10000);
    expect("past the lines", at.edits[3], 0);
    at = joukerpan_frame_at(of.record, of.log, WORDS, 4, lines, 1);
    expect("behind a move", at.words, 2);
    expect("the settled code", at.edits[0], 8);
    at = joukerpan_frame_at(of.record, of.log, WORDS, 4, lines, 4);
    expect("a line with no edit", at.edits[3], 0);
    expect("all is read", at.words, 4);
    at = joukerpan_frame_at(of.record, of.log, WORDS, 4, lines, 0);
    expect("no lines", at.number, JOUKERPAN_DONE);
    expect("nothing read", at.words, 0);
    expect("no edit yet", memcmp(at.edits, zero.edits, sizeof zero.edits), 0);

    at = joukerpan_frame_at(of.record, of.log, WORDS, 5, lines, 4);
    expect("past the settled length", at.number, JOUKERPAN_NO_PLACE);
    expect("no words", at.words, 0);
    expect("no edit yet", memcmp(at.edits, zero.edits, sizeof zero.edits), 0);
    expect("64 lines", joukerpan_frame_at(of.record, of.log, WORDS, 4, many, 64).number, JOUKERPAN_DONE);
    expect("65 lines", joukerpan_frame_at(of.record, of.log, WORDS, 4, many, 65).number, JOUKERPAN_NO_PLACE);
    many[64] = 64;
    expect("3 before 13", joukerpan_frame_at(of.record, of.log, WORDS, 5, many, 65).number, JOUKERPAN_NO_ENTRY);
    expect("1 first", joukerpan_frame_at(of.record, of.log, JOUKERPAN_LOG - 1, 5, many, 65).number, JOUKERPAN_UNSOUND);
}

/* The standings of the log and of the paths of three offices, each a digit: 0 before, 1 equal, 2 after, 3 beside. */
static void stands(const char *what, const office *of, const uint8_t *vector, size_t length, uint32_t number, const char *wanted) {
    joukerpan_compared answer = joukerpan_compare_vector(of->record, of->log, WORDS, vector, length);
    expect(what, answer.number, number);
    for (int i = 0; i <= JOUKERPAN_OFFICES; i++) {
        expect(what, answer.answers[i], i < 4 ? (uint32_t)(wanted[i] - '0') : JOUKERPAN_BESIDE);
    }
}

/* Version vectors over a log with entries of offices 1, 2 and 1, and ballots of offices 0 and 2. */
static void vectors(void) {
    enum { SIZE = 3 * JOUKERPAN_COUNT, ALL = 4 * SIZE };
    static office x;
    static const uint8_t counts[] = {0, 2, 1, 1, 2, 1, 0, 2, 1, 0, 2, 2};
    uint8_t wanted[ALL] = {0};
    for (size_t i = 0; i < sizeof counts; i++) {
        wanted[JOUKERPAN_COUNT * (i + 1) - 1] = counts[i];
    }
    uint8_t output[ALL + 1], kept[ALL + 1], vector[SIZE + 1] = {0};
    memset(kept, 0xA5, sizeof kept), memcpy(output, kept, sizeof output);
    founded(&x, 0, WEIGHTS, 3);
    settle(&x, entry(1, 5, 140)), settle(&x, entry(2, 6, 0)), settle(&x, entry(1, 63, 140));
    put(&x, 0, entry(0, 8, 9)), put(&x, 2, entry(2, 8, 9));

    joukerpan_written written = joukerpan_write_vectors(x.record, x.log, WORDS, output, ALL - 1);
    expect("an output a byte short", written.number, JOUKERPAN_OUTPUT_SHORT);
    expect("nothing written", written.length == 0 && memcmp(output, kept, sizeof kept) == 0, true);
    written = joukerpan_write_vectors(x.record, x.log, JOUKERPAN_LOG - 1, output, ALL - 1);
    expect("1 before 6", written.number, JOUKERPAN_UNSOUND);
    written = joukerpan_write_vectors(x.record, x.log, WORDS, output, sizeof output);
    expect("vectors", written.number, JOUKERPAN_DONE);
    expect("their length", written.length, ALL);
    expect("their bytes, and one behind them", memcmp(output, wanted, ALL) == 0 && output[ALL] == 0xA5, true);

    stands("the log's own", &x, output, SIZE, JOUKERPAN_DONE, "1212");
    stands("the path of office 0", &x, output + SIZE, SIZE, JOUKERPAN_DONE, "0103");
    stands("the path of office 2", &x, output + 3 * SIZE, SIZE, JOUKERPAN_DONE, "0301");
    stands("no entries", &x, vector, SIZE, JOUKERPAN_DONE, "2222");
    stands("a byte less", &x, vector, SIZE - 1, JOUKERPAN_NO_VECTOR, "3333");
    stands("a byte more", &x, vector, SIZE + 1, JOUKERPAN_NO_VECTOR, "3333");
    stands("no bytes", &x, vector, 0, JOUKERPAN_NO_VECTOR, "3333");
    vector[0] = 255;
    stands("very many entries of office 0", &x, vector, SIZE, JOUKERPAN_DONE, "3333");
    vector[JOUKERPAN_COUNT] = vector[2 * JOUKERPAN_COUNT] = 128;
    stands("of all offices", &x, vector, SIZE, JOUKERPAN_DONE, "0000");
    x.record.n = 9;
    stands("1 before 14", &x, vector, SIZE, JOUKERPAN_UNSOUND, "3333");
}

/*
 * Two offices that have settled 1,024 entries and hear of each other: the log is full, is folded, and goes on. Then
 * messages that begin past the own length and end inside the dropped part.
 */
static void folding(void) {
    static office x, y, z;
    static uint8_t first[JOUKERPAN_MESSAGE], message[JOUKERPAN_MESSAGE];
    const joukerpan_weights weights = {{60, 40}};
    const uint32_t lines[] = {63, 5, 7};
    founded(&x, 0, weights, 2), founded(&y, 1, weights, 2), founded(&z, 1, weights, 2);
    size_t first_length = send(&x, first, sizeof first);
    for (uint32_t i = 0; i < JOUKERPAN_LOG; i++) {
        expect("issue", issue(&x, i % 63, i), JOUKERPAN_DONE);
        expect("elect", elect(&x), 1);
    }
    expect("a full log", issue(&x, 63, 1), JOUKERPAN_LOG_FULL);
    expect("office 1 was never heard of", fold(&x), 0);
    expect("take at 1", take(&y, message, send(&x, message, sizeof message)), JOUKERPAN_DONE);
    expect("take at 0", take(&x, message, send(&y, message, sizeof message)), JOUKERPAN_DONE);
    expect("every place compared", places, JOUKERPAN_LOG);
    expect("noted", x.record.noted[1], JOUKERPAN_LOG);
    joukerpan_record before = x.record;
    expect("fold", fold(&x), JOUKERPAN_LOG);
    expect("once more", fold(&x), 0);
    expect("the summary stays", memcmp(&x.record.summary, &before.summary, sizeof before.summary), 0);
    expect("its counts", x.record.kept.counts[0] == JOUKERPAN_LOG && x.record.kept.counts[1] == 0, true);
    expect("nothing is handed back", joukerpan_settled(x.record, x.log, WORDS).length, 0);
    expect("room again", issue(&x, 63, 1), JOUKERPAN_DONE);
    expect("elect", elect(&x), 1);
    expect("at the front", x.log[0], entry(0, 63, 1));

    joukerpan_earlier at = joukerpan_frame_at(x.record, x.log, WORDS, JOUKERPAN_LOG + 1, lines, 3);
    expect("as of the last place", at.number, JOUKERPAN_DONE);
    expect("a word read", at.words, 1);
    expect("its code, and kept ones", at.edits[0] == 2 && at.edits[1] == 1013 + 1 && at.edits[2] == 1015 + 1, true);
    at = joukerpan_frame_at(x.record, x.log, WORDS, JOUKERPAN_LOG, lines, 3);
    expect("as of the dropped count", at.number == JOUKERPAN_DONE && at.words == 0 && at.edits[0] == 0, true);
    at = joukerpan_frame_at(x.record, x.log, WORDS, JOUKERPAN_LOG - 1, lines, 0);
    expect("inside the dropped part", at.number, JOUKERPAN_NO_PLACE);

    size_t length = send(&x, message, sizeof message);
    expect("a folded message", length, 24 + 6 + 2);
    expect("take at 1", take(&y, message, length), JOUKERPAN_DONE);
    expect("drops too", y.record.kept.dropped == JOUKERPAN_LOG && held(&y) == 1 && y.log[0] == x.log[0], true);
    expect("no place shared", places, 0);
    expect("an old message", take(&y, first, first_length), JOUKERPAN_ENDS_INSIDE);
    expect("an office that lost all", take(&z, message, length), JOUKERPAN_BEGINS_PAST);
    expect("kept counts that do not add up", (x.record.kept.counts[1]++, joukerpan_sound(x.record, x.log, WORDS)), false);
    joukerpan_folded folded = joukerpan_fold(x.record, x.log, WORDS);
    expect("1", folded.number == JOUKERPAN_UNSOUND && folded.count == 0 && same(&folded.record, &x.record), true);
}

/* An office at the end of all lengths, 2^63: what it has dropped is made up, and sound. */
static void longest_length(void) {
    static office x;
    founded(&x, 1, WEIGHTS, 3);
    x.record.kept.dropped = JOUKERPAN_LENGTH - 1, x.record.settled = JOUKERPAN_LENGTH - 1;
    x.record.kept.counts[2] = JOUKERPAN_LENGTH - 1;
    expect("sound", joukerpan_sound(x.record, x.log, WORDS), true);
    expect("the last entry", issue(&x, 5, 120), JOUKERPAN_DONE);
    expect("no more", issue(&x, 5, 120), JOUKERPAN_LOG_FULL);
    x.record.settled++, x.record.kept.dropped++, x.record.kept.counts[2]++;
    expect("length and tail above 2^63", joukerpan_sound(x.record, x.log, WORDS), false);
}

void further_calls(void) {
    household_sheet();
    forecasts();
    earlier_frame();
    vectors();
    folding();
    longest_length();
}
