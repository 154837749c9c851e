/* How much stack each operation takes. Each is called in a thread whose stack was painted before; after the call the lowest byte that lost
 * the paint is looked for, from below, and its distance from the caller's frame is printed. The machines have 48 states and 12 letters. */
#define _GNU_SOURCE /* pthread_attr_setstack */
#include <pthread.h>
#include <stdio.h>
#include <stdlib.h>
#include <string.h>

#include "trachuliem.h"

enum {
    STATES = TRACHULIEM_MOST_STATES,
    LETTERS = TRACHULIEM_MOST_LETTERS,
    LENGTH = STATES * LETTERS,
    STACK = 1 << 20,
    PAINT = 0xA5
};

static _Alignas(4096) uint8_t stack[STACK];
static uint16_t words[TRACHULIEM_WORD_AREA];
static uint8_t table[TRACHULIEM_TABLE_AREA];
static uint8_t sheet[TRACHULIEM_PROOF_SHEET_AREA];
static uint8_t machine_sheet[TRACHULIEM_MACHINE_SHEET_AREA];
static uint8_t word[94];
static size_t proof_length;
static size_t machine_length;

static void learn(void) {
    proof_length = trachuliem_learn(words, LENGTH, STATES, LETTERS, TRACHULIEM_MOST_STATES, TRACHULIEM_MOST_ROUNDS,
                                    table, sizeof table, sheet, sizeof sheet)
                       .bytes;
}
static void check_proof(void) {
    trachuliem_check_proof(words, LENGTH, STATES, LETTERS, sheet, proof_length);
}
static void read_proof(void) {
    trachuliem_read_proof(sheet, proof_length);
}
static void aw_record(void) {
    trachuliem_aw_record(sheet, proof_length, STATES - 1);
}
static void write_machine(void) {
    machine_length =
        trachuliem_write_machine(words, LENGTH, STATES, LETTERS, machine_sheet, sizeof machine_sheet).length;
}
static void read_machine(void) {
    trachuliem_read_machine(machine_sheet, machine_length, words, TRACHULIEM_WORD_AREA);
}
static void check_machine(void) {
    trachuliem_check_machine(words, LENGTH, STATES, LETTERS);
}
static void question(void) {
    trachuliem_question(words, LENGTH, STATES, LETTERS, word, sizeof word);
}

/* In this order: what a later one needs, an earlier one leaves. */
static const struct {
    const char *name;
    void (*call)(void);
} operations[] = {
    {"learn", learn},
    {"check_proof", check_proof},
    {"read_proof", read_proof},
    {"aw_record", aw_record},
    {"write_machine", write_machine},
    {"read_machine", read_machine},
    {"check_machine", check_machine},
    {"question", question},
};

/* Runs in the painted stack. The look for the paint calls nothing, so that it stays above what it looks at. */
static void *measure(void *call) {
    const volatile uint8_t *at = stack;
    (*(void (*const *)(void))call)();
    while (*at == PAINT)
        at++;
    return (void *)((size_t)((const uint8_t *)__builtin_frame_address(0) - (const uint8_t *)at));
}

static size_t stack_of(void (*const *call)(void)) {
    pthread_attr_t attributes;
    pthread_t thread;
    void *used;
    memset(stack, PAINT, sizeof stack);
    if (pthread_attr_init(&attributes) || pthread_attr_setstack(&attributes, stack, sizeof stack) ||
        pthread_create(&thread, &attributes, measure, (void *)call) || pthread_join(thread, &used))
        exit(EXIT_FAILURE);
    pthread_attr_destroy(&attributes);
    return (size_t)used;
}

/* A ring with one odd output, which has the longest words; or a machine of random next states and outputs. */
static void ring(void) {
    for (size_t state = 0; state < STATES; state++)
        for (size_t letter = 0; letter < LETTERS; letter++)
            words[state * LETTERS + letter] =
                (uint16_t)(256 * ((letter == 0 ? state + 1 : state) % STATES) + (letter == 0 && state == STATES - 1));
}

static void random_machine(void) {
    uint32_t x = 1;
    for (size_t i = 0; i < LENGTH; i++) {
        x = x * 1664525 + 1013904223;
        words[i] = (uint16_t)(256 * ((x >> 16) % STATES) + (x >> 8) % 2);
    }
}

int main(void) {
    static void (*const machines[])(void) = {ring, random_machine};
    for (size_t i = 0; i < sizeof operations / sizeof operations[0]; i++) {
        size_t most = 0;
        for (size_t j = 0; j < 2; j++) {
            machines[j]();
            learn();
            write_machine();
            size_t used = stack_of(&operations[i].call);
            most = used > most ? used : most;
        }
        printf("%s %zu\n", operations[i].name, most);
    }
    return 0;
}
