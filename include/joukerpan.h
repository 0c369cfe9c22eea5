/*
 * The shared coding frame of up to eight field offices: the proved engine, for a service to link.
 *
 * The engine holds no state, takes no memory and opens no file. One office's state is a record, passed
 * and answered by value, and a log, an array of at least 1,024 words that the caller lends. A call gives
 * a defined answer to every record, log, message and number. It answers 0 when it is done; any other
 * number is a refusal (below), and then the record in the answer is the one that was handed in (of a
 * refused founding: all zero), and log and output keep their contents.
 *
 * What is asked of a caller is what C asks of every call: a pointer with its count names that many
 * elements (count elements, not bytes), is aligned and is not null, even where the count is 0; a log
 * that a call writes is not the memory of its message; an output is not the memory of its log.
 *
 * And what no call can see to: that no two offices settle differently is proved for offices whose every
 * call gets the record and log that the last call at that office left, and for messages that nobody
 * alters. So a service stores both durably before anything of them is sent or shown; never restores an
 * older state, nor founds a number again; never runs two copies of an office number; and hands take what
 * an office of the same frame sent, late, twice or never. docs/EMBEDDING.md shows the harm where this is
 * not kept, what to do after a disk is lost, and that an edit can lose with no call refused: ask
 * joukerpan_outcome after each take, elect and fold.
 *
 * Link with target/staticlib/libembed.a (x86-64 Linux), which `tools/build embed` writes.
 */
#ifndef JOUKERPAN_H
#define JOUKERPAN_H

#include <stdbool.h>
#include <stddef.h>
#include <stdint.h>

#ifdef __cplusplus
extern "C" {
#endif

/* Limits. */
enum {
    JOUKERPAN_OFFICES = 8,     /* offices, at most; places of a record */
    JOUKERPAN_TAIL = 32,       /* entries of a ballot's tail, at most; of one office of n at most 32 / n, its part */
    JOUKERPAN_LINES = 64,      /* lines of the frame: 0 to 63; line 64 + j moves weight to office j */
    JOUKERPAN_CODES = 10000,   /* codes of a line: 0 to 9999; weight that a move moves: 1 to 9999 */
    JOUKERPAN_LOG = 1024,      /* settled entries that are not dropped, at most; words of a log, at least */
    JOUKERPAN_MESSAGE = 7046,  /* bytes of a message, at most */
    JOUKERPAN_HOUSEHOLD = 7,   /* bytes of a household record: 0x48 0x52, line, weight (4, most significant first) */
    JOUKERPAN_HOUSEHOLDS = 1000000, /* household records of a sheet, at most */
    JOUKERPAN_COUNT = 8,       /* bytes of a count in a version vector, most significant first; a vector has n */
    JOUKERPAN_VECTORS = 576    /* bytes of an office's version vectors, at most: of n offices 8 * n * (n + 1) */
};

/* Settled entries and a tail behind them, dropped entries included, at most: 2^63. */
#define JOUKERPAN_LENGTH (UINT64_C(1) << 63)

/* Numbers that a call answers. Where several hold, the smallest is given. */
enum {
    JOUKERPAN_DONE = 0,           /* the call was done */
    JOUKERPAN_UNSOUND = 1,        /* record unsound, or log below 1,024 words */
    JOUKERPAN_FOUNDING = 2,       /* founding: n, own office or weights outside the limits */
    JOUKERPAN_NO_ENTRY = 3,       /* line or code outside the limits: see issue; of a frame: line above 63 */
    JOUKERPAN_TAIL_FULL = 4,      /* no longer given: an own tail that is 32 long has the own office's part (11) */
    JOUKERPAN_LOG_FULL = 5,       /* undropped entries and own tail make 1,024 (fold makes room, where every office
                                     was heard of), or all settled ones and it 2^63 */
    JOUKERPAN_OUTPUT_SHORT = 6,   /* output shorter than what is to be written */
    JOUKERPAN_NO_MESSAGE = 7,     /* message not of the layout, or a number in it outside the limits */
    JOUKERPAN_OTHER_OFFICES = 8,  /* message's n or founding weights differ from the record's */
    JOUKERPAN_OWN_MESSAGE = 9,    /* sender is the receiver's own office */
    JOUKERPAN_OTHER_LOG = 10,     /* the settled logs differ in the part that both still have: stop (see above) */
    JOUKERPAN_PART_FULL = 11,     /* own tail has the own office's part, 32 / n entries of it: wait for votes */
    JOUKERPAN_NO_HOUSEHOLDS = 12, /* bytes are no household records, have a line above 63, or are too many */
    JOUKERPAN_NO_PLACE = 13,      /* earlier frame: p outside what is settled and not dropped, or over 64 lines named */
    JOUKERPAN_NO_VECTOR = 14,     /* bytes are not exactly n counts */
    JOUKERPAN_NO_WEIGHTS = 15,    /* a lowest weight of an office exceeds its highest */
    JOUKERPAN_BEGINS_PAST = 16,   /* message's log begins past the own length; no sent message meets it */
    JOUKERPAN_ENDS_INSIDE = 17    /* message's log ends inside the own dropped part: an old message */
};

/* How a version, the settled log or a ballot's path, stands to a version vector, by its counts of entries. */
enum {
    JOUKERPAN_BEFORE = 0,  /* each of its counts is at most the vector's, and one is less */
    JOUKERPAN_EQUAL = 1,   /* its counts are the vector's */
    JOUKERPAN_AFTER = 2,   /* each of its counts is at least the vector's, and one is more */
    JOUKERPAN_BESIDE = 3   /* one of its counts is less and one is more; past the last version, and where refused */
};

/*
 * A ballot: a tail of entries, of which each of n offices has at most 32 / n, rounded down, edits and moves
 * together. Length 0 means none, or unknown. Unused cells are zero.
 */
typedef struct {
    size_t len;
    uint32_t cells[JOUKERPAN_TAIL];
} joukerpan_ballot;

/*
 * What settled entries have done. Of the record, take and elect keep it true; a record with any other summary
 * than what is kept of its dropped entries and the undropped ones give is unsound.
 */
typedef struct {
    uint16_t present[JOUKERPAN_OFFICES];  /* present weights, by which elect counts votes; same total */
    uint32_t codes[JOUKERPAN_LINES];      /* of each line: 0 for no edit yet, else its settled code + 1 */
} joukerpan_summary;

/*
 * What is kept of the settled entries that were dropped (fold, and take after the sender's fold): the first
 * `dropped` ones of the order. With none dropped its weights are the founding weights, and all else is zero.
 */
typedef struct {
    uint64_t dropped;                    /* how many they are */
    joukerpan_summary summary;           /* what they have done */
    uint64_t counts[JOUKERPAN_OFFICES];  /* how many of them each office issued; they add up to `dropped` */
} joukerpan_kept;

/*
 * What one office knows, apart from its log. The first `settled - kept.dropped` words of the log are the settled
 * entries that are not dropped, one a word: office * 16777216 + line * 65536 + code. Store record and log as
 * they are, before anything of them is sent or shown; sound() says whether what was read back is a record with
 * its log, and cannot say whether it is the newest.
 */
typedef struct {
    size_t n;                                     /* offices there are */
    size_t own;                                   /* this office, below n */
    uint16_t weights[JOUKERPAN_OFFICES];          /* founding weights, which messages carry; zero from place n on */
    joukerpan_kept kept;                          /* what is kept of the dropped entries */
    uint64_t noted[JOUKERPAN_OFFICES];            /* longest settled length heard of each other office; own place 0 */
    joukerpan_summary summary;                    /* what all settled entries have done, dropped ones included */
    uint64_t settled;                             /* settled length, dropped entries included */
    joukerpan_ballot ballots[JOUKERPAN_OFFICES];  /* last known ballot of each office */
} joukerpan_record;

/* Eight weights, by value. */
typedef struct {
    uint16_t of[JOUKERPAN_OFFICES];
} joukerpan_weights;

/* The answers. A record stands in front of the number, so that it is copied from a whole word on. */
typedef struct {
    joukerpan_record record;  /* all zero where the founding is refused */
    uint32_t number;
} joukerpan_founded;

typedef struct {
    joukerpan_record record;
    uint32_t number;
} joukerpan_issued;

typedef struct {
    uint32_t number;
    size_t length;  /* settled words at the front of the log, those not dropped; 0 where refused */
} joukerpan_part;

typedef struct {
    uint32_t number;
    bool coded;     /* whether the line has an edit; false for no edit yet, and where refused */
    uint32_t code;  /* its code, of which 0 is one like another; 0 where it has no edit */
} joukerpan_framed;

typedef struct {
    uint32_t number;
    uint32_t codes[JOUKERPAN_LINES];  /* one a line: 0 for no edit yet, else the code + 1; each 0 where refused */
} joukerpan_lines;

typedef struct {
    uint32_t number;
    size_t words;                     /* words of the log that were read; 0 where refused */
    uint32_t edits[JOUKERPAN_LINES];  /* one a line named: 0 for no edit yet, else the code + 1; 0 past them and where refused */
} joukerpan_earlier;

typedef struct {
    joukerpan_record record;
    uint32_t number;
    size_t count;  /* entries settled; 0 where none won, and where refused */
} joukerpan_elected;

typedef struct {
    joukerpan_record record;
    uint32_t number;
    uint64_t count;  /* entries dropped; 0 where refused */
} joukerpan_folded;

typedef struct {
    uint32_t number;
    size_t length;  /* bytes written; 0 where refused */
} joukerpan_sent;

typedef struct {
    joukerpan_record record;
    uint32_t number;
    size_t places;  /* places of the two settled logs that were compared: see take; 0 on any refusal but 10 */
} joukerpan_taken;

/* A row of a sheet: a class, and the weights of the households under it. */
typedef struct {
    uint32_t code;   /* as joukerpan_lines has it: 0 for no edit yet, the uncoded households, else the code + 1 */
    uint64_t total;  /* below 2^52 */
} joukerpan_row;

typedef struct {
    uint32_t number;
    size_t count;                         /* rows there are; 0 where refused */
    joukerpan_row rows[JOUKERPAN_LINES];  /* uncoded first, then codes rising; zero from place count on */
} joukerpan_tabulated;

typedef struct {
    uint32_t number;
    size_t length;  /* bytes written; 0 where refused */
} joukerpan_written;

typedef struct {
    uint32_t number;
    uint32_t answers[JOUKERPAN_OFFICES + 1];  /* of the settled log, then of each office's path */
} joukerpan_compared;

typedef struct {
    uint32_t number;
    bool named;      /* whether an entry wins under every choice; false where refused */
    uint32_t entry;  /* that entry; 0 where none is named */
} joukerpan_foreseen;

typedef struct {
    uint32_t number;
    size_t settled;  /* own entries that were pending and are settled; 0 where refused, as the two below */
    size_t pending;  /* those that are pending still */
    size_t lost;     /* those that are lost for good */
} joukerpan_told;

typedef struct {
    uint32_t number;
    size_t rows;                          /* supported entries there are; 0 where refused */
    uint32_t unheard;                     /* U: the present weight of the offices whose vote is missing */
    uint32_t entries[JOUKERPAN_OFFICES];  /* the supported entries, each once; zero from place rows on */
    uint32_t tallies[JOUKERPAN_OFFICES];  /* T of each: the present weight of the offices that vote for it */
    uint32_t silent[JOUKERPAN_OFFICES];   /* of each office: 1 if its vote is missing, else 0 */
} joukerpan_tallied;

/*
 * A fresh record: an empty log, no ballots, present weights as founded, no edit of any line, nothing dropped,
 * no office heard of.
 * Refused: 1 (log size alone), 2.
 */
joukerpan_founded joukerpan_found(size_t n, size_t own, joukerpan_weights weights,
                                  const uint32_t *log, size_t log_len);

/*
 * Whether the record with its log is sound: a log of 1,024 words or more, every limit kept, what is kept of
 * the dropped entries within its limits (their counts add up to the dropped count, their weights to the total;
 * with none dropped the founding weights and no code), no noted length above the own one, and a summary that
 * follows from what is kept and the undropped entries.
 */
bool joukerpan_sound(joukerpan_record record, const uint32_t *log, size_t log_len);

/*
 * Appends the entry to the office's own ballot: an edit, with line 0 to 63 and code 0 to 9999; or a move
 * of weight, with line JOUKERPAN_LINES + j, j below n, and code 1 to 9999, the weight that the own office
 * gives to office j. A move has its effect where it is settled, and only if its office then has that much
 * and office j stays at or below 65535; else, or where j is the own office, it changes no weight. It
 * changes no code, and can lose as an edit can. Refused: 1, 3, 5, 11. An office below its part of its own
 * tail, 32 / n entries rounded down, is never stopped by others' entries, save by 5.
 */
joukerpan_issued joukerpan_issue(joukerpan_record record, const uint32_t *log, size_t log_len,
                                 uint32_t line, uint32_t code);

/*
 * How many words at the front of the log are settled, the entries that no office will contradict: those that
 * are not dropped. Refused: 1.
 */
joukerpan_part joukerpan_settled(joukerpan_record record, const uint32_t *log, size_t log_len);

/*
 * The settled frame whole: for each of the 64 lines what joukerpan_settled_frame answers, in one number: 0
 * for no edit yet, else the code + 1. One call tests the record and its log once, as every call does, so a
 * screen that shows all lines asks this one. Refused: 1.
 */
joukerpan_lines joukerpan_all_lines(joukerpan_record record, const uint32_t *log, size_t log_len);

/* The code of the last settled entry for the line, dropped ones included, or no edit yet. Refused: 1, 3. */
joukerpan_framed joukerpan_settled_frame(joukerpan_record record, const uint32_t *log, size_t log_len,
                                         uint32_t line);

/*
 * The code of the last entry for the line in the settled log followed by the own tail, or no edit yet.
 * Refused: 1, 3.
 */
joukerpan_framed joukerpan_tentative_frame(joukerpan_record record, const uint32_t *log, size_t log_len,
                                           uint32_t line);

/*
 * The frame as it stood after the first p settled entries, dropped ones included, for the lines named, at most
 * 64: the answer's place i is for lines[i], and a line named twice is answered twice. With p the settled length
 * it is what joukerpan_settled_frame answers. The log is read back from p until each line has its edit: `words`
 * is the length of the shortest undropped run ending at p that has an edit for each, or p less the dropped
 * count; a line without an edit there has the kept code. No lines read nothing. Refused: 1, 3 (any line above
 * 63, also among more than 64), 13 (p below the dropped count, too).
 */
joukerpan_earlier joukerpan_frame_at(joukerpan_record record, const uint32_t *log, size_t log_len,
                                     uint64_t p, const uint32_t *lines, size_t lines_len);

/*
 * Settles entries, one a step, until none wins, and answers how many. Each winner is written to the log
 * behind the settled words; other words keep their contents. A step counts by the present weights that
 * the step before left; a tie goes to the entry whose office has fewer settled entries then, and then to
 * the lower value. Refused: 1.
 */
joukerpan_elected joukerpan_elect(joukerpan_record record, uint32_t *log, size_t log_len);

/*
 * Drops the first settled entries, all that every office is known to have, and answers how many went: those up
 * to the least of the own length and the lengths noted of the other offices, an office never heard of counting
 * as 0. What they have done stays in the record, so frames, weights, ties, vectors and sheets answer as before;
 * the rest of the settled words moves to the front of the log, and words past it keep their contents. Where
 * entries went, a full log has room again (5). Refused: 1.
 */
joukerpan_folded joukerpan_fold(joukerpan_record record, uint32_t *log, size_t log_len);

/*
 * Writes the office's message and answers its length, at most JOUKERPAN_MESSAGE. Later bytes of the
 * output keep their contents. Refused: 1, 6.
 */
joukerpan_sent joukerpan_send(joukerpan_record record, const uint32_t *log, size_t log_len,
                              uint8_t *output, size_t output_len);

/*
 * Works in another office's message, any bytes: first drops what its sender had dropped, then writes the
 * settled entries that this office misses, with the weights that they move and the codes that they set, then
 * adopts every ballot whose path extends the known one, and notes the sender's settled length. Refused: 1, 7,
 * 8, 9, 16, 17, 10, all before anything is dropped.
 *
 * The settled logs are compared from the last place that both still have back to the first, and `places` says
 * how many that needed: done, all that both still have; refused with 10, up to and including the first
 * difference met. So with `end` the shorter settled length, 10 means that place end - places (the first is
 * 0, dropped or not) differs and those behind it do not; those before it were not looked at.
 */
joukerpan_taken joukerpan_take(joukerpan_record record, uint32_t *log, size_t log_len,
                               const uint8_t *message, size_t message_len);

/*
 * What became of the own edits, and moves of weight, that were pending: `before` is the record that a take, an
 * elect or a fold was handed, `after` the one that it answered, with the log as it is then. Each own entry of the
 * own tail of `before` is one of three: settled, where the settled log has it at its place with all before it;
 * pending, where the own path has; lost, where neither has, and then no office will ever settle that issue of
 * it. Issued again it is a new entry, at a later place. Entries that the office adopted from others are not told.
 * Those that are not settled are written to `rest` in their order, pending ones in front of lost ones; later
 * words keep their contents. JOUKERPAN_TAIL words always do. After one call no entry is pending where one is
 * lost. Several calls may lie between the two records, if no entry past the settled length of `before` was
 * dropped since. Refused: 1 (`after` with its log unsound; another frame's or office's record before; its ballots
 * outside their limits; settled lengths that do not follow each other), 6.
 */
joukerpan_told joukerpan_outcome(joukerpan_record before, joukerpan_record after,
                                 const uint32_t *log, size_t log_len, uint32_t *rest, size_t rest_len);

/*
 * How the next place of the settled log stands: the entries that ballots vote for, each once, in the order of the
 * lowest office that does, with the present weight behind each (T); the weight of the offices whose vote is
 * missing (U), and which these are. T and U add up to the total. Elect settles first the entry with T above U and
 * above every other T + U; where its T is just another T + U, a tie, see elect. Refused: 1.
 */
joukerpan_tallied joukerpan_standing(joukerpan_record record, const uint32_t *log, size_t log_len);

/*
 * The household sheet: the weights of the households pooled under the settled codes of their lines, a row
 * for each code met, codes rising. Households under lines that no one has coded, if there are any, are the
 * first row, apart from code 0. The bytes are household records, JOUKERPAN_HOUSEHOLD bytes each, and nothing
 * else; none of them is a done, empty sheet. Two offices of one frame with equal settled logs, dropped
 * entries included, answer equal sheets. Refused: 1, 12.
 */
joukerpan_tabulated joukerpan_sheet(joukerpan_record record, const uint32_t *log, size_t log_len,
                                    const uint8_t *households, size_t households_len);

/*
 * The entry that would win the first election step on the office's ballots whichever weights within the
 * bounds are chosen, a lowest and a highest for each of the n offices, or that none would. The record's own
 * weights play no part; ties go by the settled log, as in elect; all weights zero is a choice. Bounds from
 * place n on are not looked at. Refused: 1, 15.
 */
joukerpan_foreseen joukerpan_forecast(joukerpan_record record, const uint32_t *log, size_t log_len,
                                      joukerpan_weights lowest, joukerpan_weights highest);

/*
 * Writes the version vectors of the settled log and then of each office's path, offices rising, and answers
 * their length: 8 * n * (n + 1), at most JOUKERPAN_VECTORS. A vector has a count of entries for each of the n
 * offices, dropped entries included, JOUKERPAN_COUNT bytes each. The path of an office without a ballot is the
 * settled log. Later bytes of the output keep their contents. Refused: 1, 6.
 */
joukerpan_written joukerpan_write_vectors(joukerpan_record record, const uint32_t *log, size_t log_len,
                                          uint8_t *output, size_t output_len);

/*
 * How the settled log and then each office's path stand to a version vector. In one office this says which of
 * its versions is a beginning of which: of vectors that it has written itself, by the record and log that it
 * has. A vector that another office wrote may come after a version that is no beginning of what it counts.
 * Refused: 1, 14.
 */
joukerpan_compared joukerpan_compare_vector(joukerpan_record record, const uint32_t *log, size_t log_len,
                                            const uint8_t *vector, size_t vector_len);

#ifdef __cplusplus
}
#define JOUKERPAN_ASSERT static_assert
#else
#define JOUKERPAN_ASSERT _Static_assert
#endif

/* The layout that the engine was compiled for. */
JOUKERPAN_ASSERT(sizeof(size_t) == 8, "joukerpan: a 64-bit target");
JOUKERPAN_ASSERT(sizeof(joukerpan_ballot) == 136 && offsetof(joukerpan_ballot, cells) == 8, "joukerpan_ballot");
JOUKERPAN_ASSERT(sizeof(joukerpan_summary) == 272 && offsetof(joukerpan_summary, codes) == 16, "joukerpan_summary");
JOUKERPAN_ASSERT(sizeof(joukerpan_kept) == 344 && offsetof(joukerpan_kept, summary) == 8 &&
                 offsetof(joukerpan_kept, counts) == 280, "joukerpan_kept");
JOUKERPAN_ASSERT(sizeof(joukerpan_record) == 1808 && offsetof(joukerpan_record, own) == 8 &&
                 offsetof(joukerpan_record, weights) == 16 && offsetof(joukerpan_record, kept) == 32 &&
                 offsetof(joukerpan_record, noted) == 376 && offsetof(joukerpan_record, summary) == 440 &&
                 offsetof(joukerpan_record, settled) == 712 &&
                 offsetof(joukerpan_record, ballots) == 720, "joukerpan_record");
JOUKERPAN_ASSERT(sizeof(joukerpan_weights) == 16, "joukerpan_weights");
JOUKERPAN_ASSERT(sizeof(joukerpan_founded) == 1816 &&
                 offsetof(joukerpan_founded, number) == 1808, "joukerpan_founded");
JOUKERPAN_ASSERT(sizeof(joukerpan_issued) == 1816 &&
                 offsetof(joukerpan_issued, number) == 1808, "joukerpan_issued");
JOUKERPAN_ASSERT(sizeof(joukerpan_part) == 16 && offsetof(joukerpan_part, length) == 8, "joukerpan_part");
JOUKERPAN_ASSERT(sizeof(joukerpan_framed) == 12 && offsetof(joukerpan_framed, coded) == 4 &&
                 offsetof(joukerpan_framed, code) == 8, "joukerpan_framed");
JOUKERPAN_ASSERT(sizeof(joukerpan_lines) == 260 && offsetof(joukerpan_lines, codes) == 4, "joukerpan_lines");
JOUKERPAN_ASSERT(sizeof(joukerpan_earlier) == 272 && offsetof(joukerpan_earlier, words) == 8 &&
                 offsetof(joukerpan_earlier, edits) == 16, "joukerpan_earlier");
JOUKERPAN_ASSERT(sizeof(joukerpan_elected) == 1824 && offsetof(joukerpan_elected, number) == 1808 &&
                 offsetof(joukerpan_elected, count) == 1816, "joukerpan_elected");
JOUKERPAN_ASSERT(sizeof(joukerpan_folded) == 1824 && offsetof(joukerpan_folded, number) == 1808 &&
                 offsetof(joukerpan_folded, count) == 1816, "joukerpan_folded");
JOUKERPAN_ASSERT(sizeof(joukerpan_sent) == 16 && offsetof(joukerpan_sent, length) == 8, "joukerpan_sent");
JOUKERPAN_ASSERT(sizeof(joukerpan_taken) == 1824 && offsetof(joukerpan_taken, number) == 1808 &&
                 offsetof(joukerpan_taken, places) == 1816, "joukerpan_taken");
JOUKERPAN_ASSERT(sizeof(joukerpan_row) == 16 && offsetof(joukerpan_row, total) == 8, "joukerpan_row");
JOUKERPAN_ASSERT(sizeof(joukerpan_tabulated) == 1040 && offsetof(joukerpan_tabulated, count) == 8 &&
                 offsetof(joukerpan_tabulated, rows) == 16, "joukerpan_tabulated");
JOUKERPAN_ASSERT(sizeof(joukerpan_foreseen) == 12 && offsetof(joukerpan_foreseen, named) == 4 &&
                 offsetof(joukerpan_foreseen, entry) == 8, "joukerpan_foreseen");
JOUKERPAN_ASSERT(sizeof(joukerpan_written) == 16 && offsetof(joukerpan_written, length) == 8, "joukerpan_written");
JOUKERPAN_ASSERT(sizeof(joukerpan_compared) == 40 && offsetof(joukerpan_compared, answers) == 4, "joukerpan_compared");
JOUKERPAN_ASSERT(sizeof(joukerpan_told) == 32 && offsetof(joukerpan_told, settled) == 8 &&
                 offsetof(joukerpan_told, pending) == 16 && offsetof(joukerpan_told, lost) == 24, "joukerpan_told");
JOUKERPAN_ASSERT(sizeof(joukerpan_tallied) == 120 && offsetof(joukerpan_tallied, rows) == 8 &&
                 offsetof(joukerpan_tallied, unheard) == 16 && offsetof(joukerpan_tallied, entries) == 20 &&
                 offsetof(joukerpan_tallied, tallies) == 52 &&
                 offsetof(joukerpan_tallied, silent) == 84, "joukerpan_tallied");

#undef JOUKERPAN_ASSERT

#endif
