/* The handhelds' way through the library, on document 01's M1: reads its machine sheet, learns it, has the proof sheet checked, asks a question,
 * shows where a reaching word lies, and what a refusal looks like. */
#include <stdio.h>

#include "trachuliem.h"

static const uint8_t m1[] = {'M', 'H', 4,   2,   'M', 'R', 0, 1, 0,   0,   'M', 'R', 0, 2,
                             0,   1,   'M', 'R', 1,   0,   0, 2, 'M', 'R', 1,   3,   0, 0};

/* Not on the stack: a handheld's is small. */
static uint16_t words[TRACHULIEM_WORD_AREA];
static uint8_t table[TRACHULIEM_TABLE_AREA];
static uint8_t sheet[TRACHULIEM_PROOF_SHEET_AREA];
static uint8_t written[TRACHULIEM_MACHINE_SHEET_AREA];

static void print_bytes(const char *name, const uint8_t *bytes, size_t length) {
    printf("%s", name);
    for (size_t i = 0; i < length; i++)
        printf(" %02X", bytes[i]);
    printf("\n");
}

static void print_learnt(const char *name, trachuliem_outcome learnt) {
    static const char *const kinds[] = {"refused", "done", "open"};
    printf("%s %s %u: %zu states, %zu rounds, %zu cells, %zu bytes\n", name, kinds[learnt.kind], learnt.refusal,
           learnt.states, learnt.rounds, learnt.cells, learnt.bytes);
}

int main(void) {
    trachuliem_size size = trachuliem_read_machine(m1, sizeof m1, words, TRACHULIEM_WORD_AREA);
    size_t length = size.n * size.k;
    printf("read %u: %zu states, %zu letters\n", size.refusal, size.n, size.k);
    printf("machine %u\n", trachuliem_check_machine(words, length, size.n, size.k));

    trachuliem_length back = trachuliem_write_machine(words, length, size.n, size.k, written, sizeof written);
    printf("written %u: %zu bytes\n", back.refusal, back.length);

    static const uint8_t word[] = {0, 0, 0};
    trachuliem_output answer = trachuliem_question(words, length, size.n, size.k, word, sizeof word);
    printf("question %u: output %u\n", answer.refusal, answer.output);

    trachuliem_outcome open =
        trachuliem_learn(words, length, size.n, size.k, 1, 0, table, sizeof table, sheet, sizeof sheet);
    print_learnt("learnt", open);
    print_bytes("counterexample", sheet, open.bytes);
    print_learnt("learnt", trachuliem_learn(words, length, size.n, size.k, 2, TRACHULIEM_MOST_ROUNDS, table,
                                            sizeof table, sheet, sizeof sheet));
    trachuliem_outcome done = trachuliem_learn(words, length, size.n, size.k, TRACHULIEM_MOST_STATES,
                                               TRACHULIEM_MOST_ROUNDS, table, sizeof table, sheet, sizeof sheet);
    print_learnt("learnt", done);
    print_bytes("proof sheet", sheet, done.bytes);

    trachuliem_counts counts = trachuliem_read_proof(sheet, done.bytes);
    printf("read %u: m %zu, k %zu, n %zu, c %zu\n", counts.refusal, counts.m, counts.k, counts.n, counts.c);
    for (size_t state = 0; state <= counts.m; state++) {
        trachuliem_part part = trachuliem_aw_record(sheet, done.bytes, state);
        printf("record of state %zu at %zu:", state, part.place);
        print_bytes("", sheet + part.place, part.length);
    }
    printf("checked %u\n", trachuliem_check_proof(words, length, size.n, size.k, sheet, done.bytes));
    sheet[done.bytes - 1] = 2; /* the state map's last byte: state 3 is not the model's state 2 */
    printf("checked %u\n", trachuliem_check_proof(words, length, size.n, size.k, sheet, done.bytes));

    for (size_t state = 1; state <= size.n; state++) {
        uint8_t area[47];
        trachuliem_apart why = trachuliem_why_apart(words, length, size.n, size.k, 0, state, area, sizeof area);
        printf("0 and %zu %u %u: outputs %u and %u after", state, why.kind, why.refusal, why.first, why.second);
        print_bytes("", area, why.length);
    }
    return 0;
}
