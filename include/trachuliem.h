/* Trachuliem for C: every public operation, proved, from the archive that `rt lib` in crates/handheld writes (x86-64).
 *
 * Document 01's words hold here. A machine has n states (1 to 48; state 0 is the start) and k letters (1 to 12); it is lent as n*k words, state
 * by state and letter by letter, each 256*next + output. Each area is lent as a pointer and its length, in bytes, or in words for words.
 *
 * Every operation takes every number and every content and refuses by the numbers of `enum trachuliem_refusal`. A refusal changes no lent
 * byte, but for 10, which zeroes the first TRACHULIEM_TABLE_AREA bytes of the table area. Nothing is kept from call to call, nothing is
 * allocated, and no input and output is done.
 *
 * What the caller sees to: a pointer is never null, also where its length is 0; it points to as many bytes or words as its length says; an
 * area that is written overlaps no other that is lent in the same call. Learning takes some 29 KB of stack, checking a proof sheet 1.4 KB, the
 * others less (docs/BENCHMARK.md).
 */
#ifndef TRACHULIEM_H
#define TRACHULIEM_H

#include <stddef.h>
#include <stdint.h>

#ifdef __cplusplus
extern "C" {
#endif

enum {
    TRACHULIEM_MOST_STATES = 48,
    TRACHULIEM_MOST_LETTERS = 12,
    TRACHULIEM_MOST_ROUNDS = 47,
    TRACHULIEM_WORD_AREA = 576,           /* words: what reading a machine sheet asks for */
    TRACHULIEM_TABLE_AREA = 34043,        /* bytes: what the learner asks for */
    TRACHULIEM_TABLE_WIDTH = 59,          /* cell (row, column) lies at row*59 + column of the table area */
    TRACHULIEM_MACHINE_SHEET_AREA = 1252, /* bytes: what writing a machine sheet asks for, and the longest sheet */
    TRACHULIEM_PROOF_SHEET_AREA = 9368,   /* bytes: what the learner asks for, and the longest proof sheet */
};

enum trachuliem_refusal {
    TRACHULIEM_ENDS_EARLY = 1,    /* bytes or words end too early */
    TRACHULIEM_WRONG_MARK = 2,    /* a mark is not the one due */
    TRACHULIEM_OUT_OF_RANGE = 3,  /* n, k, m or c outside its range */
    TRACHULIEM_NO_SUCH_STATE = 4, /* a next state not below the count, or an SM byte neither below m nor 255 */
    TRACHULIEM_LEFT_OVER = 5,     /* bytes or words left over */
    TRACHULIEM_BAD_WORD = 6,      /* a length outside its range or a letter not below k */
    TRACHULIEM_BAD_LIMIT = 7,     /* limit or most outside its range */
    TRACHULIEM_SMALL_AREA = 8,    /* table area under 34,043 bytes, or word area under 576 words */
    TRACHULIEM_SMALL_SHEET = 9,   /* sheet area under 9,368 bytes (learner) or 1,252 (machine writer) */
    TRACHULIEM_OVER_LIMIT = 10,   /* S, closed after at most `most` rounds, has more than `limit` words */
    TRACHULIEM_OTHER_SIZE = 11,   /* checker: wrong n or k */
    TRACHULIEM_NOT_REACHED = 12,  /* checker: reaching word */
    TRACHULIEM_NOT_APART = 13,    /* checker: states not told apart */
    TRACHULIEM_WRONG_MAP = 14,    /* checker: state map */
};

/* In each struct `refusal` is the refusal's number, 0 for none; at a refusal the other numbers are 0. */

typedef struct {
    uint8_t refusal;
    uint8_t output;
} trachuliem_output;

typedef struct {
    uint8_t refusal;
    size_t n;
    size_t k;
} trachuliem_size;

typedef struct {
    uint8_t refusal;
    size_t length;
} trachuliem_length;

enum trachuliem_kind {
    TRACHULIEM_REFUSED = 0,
    TRACHULIEM_DONE = 1, /* no counterexample exists */
    TRACHULIEM_OPEN = 2, /* the rounds are past and a counterexample exists */
};

typedef struct {
    uint8_t kind;
    uint8_t refusal;
    size_t states; /* words in S */
    size_t rounds; /* rounds past */
    size_t cells;  /* rows times columns */
    size_t bytes;  /* written to the sheet area */
} trachuliem_outcome;

typedef struct {
    uint8_t refusal;
    size_t m; /* model states */
    size_t k;
    size_t n; /* machine states */
    size_t c; /* columns */
} trachuliem_counts;

/* Why two states are apart: kind is 0 for a refusal, 1 where a word tells them apart and 2 for none. */
typedef struct {
    uint8_t kind;
    uint8_t refusal;
    size_t length;  /* letters of the word, at the start of the area */
    uint8_t first;  /* the word's last output from the first state */
    uint8_t second; /* and from the second */
} trachuliem_apart;

/* A part of a lent sheet: its first byte's place in the sheet, and its length. The empty part is 0, 0. */
typedef struct {
    size_t place;
    size_t length;
} trachuliem_part;

/* Checks lent words. Answers 0 or the refusal's number: 3, then 1 or 5, then 4. */
uint8_t trachuliem_check_machine(const uint16_t *words, size_t words_length, size_t n, size_t k);

/* A question, a word of one or more letters: its answer is the last output. Refusals: machine, then 6 for the empty word or a letter not
 * below k. */
trachuliem_output trachuliem_question(const uint16_t *words, size_t words_length, size_t n, size_t k,
                                      const uint8_t *word, size_t word_length);

/* Learns the machine's smallest model with a state limit (1 to 48) and at most so many rounds (0 to 47). Done and Open leave the cells in the
 * table area, with the other bytes of its first 34,043 zero. Done writes the proof sheet at the start of the sheet area, Open the mark CX, a
 * length byte and the counterexample's letters. Bytes beyond, in either area, are untouched. Refusals: 7, machine, 8, 9, 10. */
trachuliem_outcome trachuliem_learn(const uint16_t *words, size_t words_length, size_t n, size_t k, size_t limit,
                                    size_t most, uint8_t *table, size_t table_length, uint8_t *sheet,
                                    size_t sheet_length);

/* Reads a machine sheet: gives n and k and sets the first n*k words of the area only. Refusals: sheet (1 to 5), then 8. */
trachuliem_size trachuliem_read_machine(const uint8_t *sheet, size_t sheet_length, uint16_t *area, size_t area_length);

/* Writes a machine sheet: gives its length and sets that many bytes of the area only. Refusals: words, then 9. */
trachuliem_length trachuliem_write_machine(const uint16_t *words, size_t words_length, size_t n, size_t k,
                                           uint8_t *area, size_t area_length);

/* Reads a proof sheet: gives m, k, n and c and writes nothing. Refusals: 1 to 6. */
trachuliem_counts trachuliem_read_proof(const uint8_t *sheet, size_t sheet_length);

/* A state's AW record, mark included, as a part of the lent sheet; the empty part for a sheet refused when read or a state not below m. */
trachuliem_part trachuliem_aw_record(const uint8_t *sheet, size_t sheet_length, size_t state);

/* Checks a proof sheet against a machine and writes nothing. Answers 0 or the refusal's number: machine, sheet, 11 to 14. */
uint8_t trachuliem_check_proof(const uint16_t *words, size_t words_length, size_t n, size_t k, const uint8_t *sheet,
                               size_t sheet_length);

/* The least word that the states s and t of a machine answer differently goes to an area of 47 bytes; bytes past it stay. Refusals: machine, then
 * 4 for a state not below n, then 9 for a smaller area. */
trachuliem_apart trachuliem_why_apart(const uint16_t *words, size_t words_length, size_t n, size_t k, size_t s, size_t t,
                                      uint8_t *area, size_t area_length);

#ifdef __cplusplus
}
#endif

#endif
