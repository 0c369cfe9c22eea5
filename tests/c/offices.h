/* What the tests of the C calls share: offices, and calls on them that look at what every answer must have. */
#ifndef OFFICES_H
#define OFFICES_H

#include <stdio.h>
#include <stdlib.h>
#include <string.h>

#include "joukerpan.h"

/* Words of every log here; the words past 1,024 must keep their contents. */
enum { WORDS = JOUKERPAN_LOG + 3, FILL = 0x5A5A5A5A };

typedef struct {
    joukerpan_record record;
    uint32_t log[WORDS];
} office;

static const joukerpan_weights WEIGHTS = {{40, 35, 25}};

/* Answers compared so far, and places of the logs that the last take compared. */
extern int checks;
extern size_t places;

static inline void expect(const char *what, unsigned long long got, unsigned long long wanted) {
    checks++;
    if (got != wanted) {
        fprintf(stderr, "embed: %s is %llu, expected %llu\n", what, got, wanted);
        exit(1);
    }
}

static inline uint32_t entry(uint32_t office, uint32_t line, uint32_t code) {
    return office * 16777216u + line * 65536u + code;
}

static inline bool same(const joukerpan_record *a, const joukerpan_record *b) {
    return memcmp(a, b, sizeof *a) == 0; /* a record has no padding */
}

static inline void founded(office *of, size_t own, joukerpan_weights weights, size_t n) {
    for (size_t i = 0; i < WORDS; i++) {
        of->log[i] = FILL;
    }
    joukerpan_founded answer = joukerpan_found(n, own, weights, of->log, WORDS);
    expect("found", answer.number, JOUKERPAN_DONE);
    of->record = answer.record;
}

static inline void put(office *of, size_t place, uint32_t e) {
    joukerpan_ballot *ballot = &of->record.ballots[place];
    ballot->cells[ballot->len++] = e;
}

/* Settles an edit, its code with it. */
static inline void settle(office *of, uint32_t e) {
    of->log[of->record.settled++ - of->record.kept.dropped] = e;
    of->record.summary.codes[e / 65536 % 256] = e % 65536 + 1;
}

static inline uint32_t issue(office *of, uint32_t line, uint32_t code) {
    joukerpan_issued answer = joukerpan_issue(of->record, of->log, WORDS, line, code);
    expect("a refused issue leaves the record",
           answer.number == JOUKERPAN_DONE || same(&answer.record, &of->record), true);
    of->record = answer.record;
    return answer.number;
}

static inline uint32_t take(office *of, const uint8_t *message, size_t length) {
    joukerpan_taken answer = joukerpan_take(of->record, of->log, WORDS, message, length);
    expect("a refused take leaves the record",
           answer.number == JOUKERPAN_DONE || same(&answer.record, &of->record), true);
    expect("a place compared, or none",
           answer.number == JOUKERPAN_OTHER_LOG ? answer.places > 0 : answer.number == JOUKERPAN_DONE || answer.places == 0, true);
    of->record = answer.record;
    places = answer.places;
    return answer.number;
}

/* Settled words at the front of the log. */
static inline size_t held(const office *of) {
    return (size_t)(of->record.settled - of->record.kept.dropped);
}

static inline size_t elect(office *of) {
    uint64_t before = of->record.settled;
    joukerpan_elected answer = joukerpan_elect(of->record, of->log, WORDS);
    expect("elect", answer.number, JOUKERPAN_DONE);
    expect("the settled length rises by the count", answer.record.settled, before + answer.count);
    of->record = answer.record;
    expect("the word behind the settled ones", of->record.kept.dropped || of->log[held(of)] == FILL, true);
    return answer.count;
}

static inline uint64_t fold(office *of) {
    joukerpan_folded answer = joukerpan_fold(of->record, of->log, WORDS);
    expect("fold", answer.number, JOUKERPAN_DONE);
    expect("the dropped count rises by the count", answer.record.kept.dropped, of->record.kept.dropped + answer.count);
    expect("the settled length stays", answer.record.settled, of->record.settled);
    of->record = answer.record;
    return answer.count;
}

static inline size_t send(const office *of, uint8_t *output, size_t length) {
    joukerpan_sent answer = joukerpan_send(of->record, of->log, WORDS, output, length);
    expect("send", answer.number, JOUKERPAN_DONE);
    return answer.length;
}

/* The calls beside document 01's: in further.c. */
void further_calls(void);

/* What a supervisor is told: in told.c. */
void told_calls(void);

#endif
