/*
 * Plays the calls that plays.py wrote on the library that it is linked with, and compares the answer, every cell
 * that is handed over and the bytes around it: player PLAYS
 *
 * The calls are played twice: what is filled beforehand holds the opposite bits the second time, and where a call
 * succeeds each place that is filled has three cells more, which must stay. How much of the stack they use, with
 * this program's own few kilobytes, must be what crr.h says is enough.
 */
#include <stdio.h>
#include <stdlib.h>
#include <string.h>
#include "crr.h"

union word {
    void *p;
    uint64_t n;
};
#include "table.h"

enum { MARGIN = 64, PARAMETERS = 32, SLOTS = 256, MORE = 3, PAINTED = 400000 };

/* A buffer or a figure between margins, and what should stand there after the call. */
struct lent {
    size_t length, size, bytes;
    unsigned char *memory, *expected;
};

static char *text;           /* what is left to be read */
static int opposite;         /* the second time */
static struct lent slots[SLOTS];

static const char *word(void) {
    const char *found = strtok(text, " \n");

    text = NULL;
    if (!found) {
        fprintf(stderr, "player: the calls end too early\n");
        exit(2);
    }
    return found;
}

static uint64_t number(const char *digits) {
    return *digits == '-' ? (uint64_t)strtoll(digits, NULL, 10) : strtoull(digits, NULL, 10);
}

static struct lent filled(char type, size_t length) {
    struct lent new;
    uint64_t bits = 88172645463325252u + length;
    size_t i;

    new.length = length;
    new.size = type == 'B' ? 1 : 8;
    new.bytes = MARGIN + length * new.size + MARGIN;
    new.memory = malloc(new.bytes);
    new.expected = malloc(new.bytes);
    if (!new.memory || !new.expected) exit(2);
    for (i = 0; i < new.bytes; i++) {
        bits = bits * 6364136223846793005u + 1442695040888963407u;
        new.memory[i] = (unsigned char)(bits >> 56) ^ (opposite ? 0xff : 0);
    }
    memcpy(new.expected, new.memory, new.bytes);
    return new;
}

/* Reads cells into `to`, from cell `at` on. */
static void take_cells(const struct lent *lent, unsigned char *to, size_t at, size_t count) {
    while (count > 0) {
        const char *digits = word(), *star = strchr(digits, '*');
        uint64_t value = number(digits);
        size_t times = star ? (size_t)number(star + 1) : 1;

        if (times > count || at + times > lent->length) exit(2);
        for (count -= times; times > 0; times--, at++) memcpy(to + MARGIN + at * lent->size, &value, lent->size);
    }
}

static void keep(struct lent *slot, struct lent new) {
    free(slot->memory);
    free(slot->expected);
    *slot = new;
}

/* What is handed over for a parameter that is no number. */
static struct lent taken(char form, int succeeds) {
    char type = *word();
    struct lent lent;
    size_t length;

    if (form == 'f') return filled(type, 1);
    length = (size_t)number(word());
    if (form == 's') {
        size_t slot = (size_t)number(word());

        if (slot >= SLOTS) exit(2);
        if (strcmp(word(), "new") == 0) keep(&slots[slot], filled(type, length));
        return slots[slot];
    }
    if (form == 'w') return filled(type, length + (opposite && succeeds ? MORE : 0));
    lent = filled(type, length);
    take_cells(&lent, lent.memory, 0, length);
    memcpy(lent.expected, lent.memory, lent.bytes);
    return lent;
}

static uint64_t called(const char *name, const union word *words) {
    size_t i;

    for (i = 0; i < sizeof calls / sizeof *calls; i++)
        if (strcmp(calls[i].name, name) == 0) return calls[i].call(words);
    fprintf(stderr, "player: no %s\n", name);
    exit(2);
}

/* Plays the call whose first word was read; whether nothing differs. */
static int play(void) {
    const char *name = word(), *answer = word(), *place = word(), *form;
    struct lent lent[PARAMETERS];
    char forms[PARAMETERS];
    union word words[2 * PARAMETERS];
    size_t count = 0, passed = 0, i;
    int same;

    for (form = word(); *form != 'x' && *form != 'g' && count < PARAMETERS; form = word(), count++) {
        forms[count] = *form;
        if (*form == 'n') {
            words[passed++].n = number(word());
            continue;
        }
        lent[count] = taken(*form, strcmp(answer, "0") == 0);
        words[passed++].p = lent[count].memory + MARGIN;
        if (*form != 'f' && *form != 'c') words[passed++].n = lent[count].length;
    }
    for (; *form == 'x'; form = word()) {
        size_t which = (size_t)number(word()), at = (size_t)number(word());

        if (which >= count) exit(2);
        take_cells(&lent[which], lent[which].expected, at, (size_t)number(word()));
    }
    same = called(name, words) == number(answer);
    if (!same) printf("%s: %s answers another number than %s\n", place, name, answer);
    for (i = 0; i < count; i++) {
        if (forms[i] == 'n') continue;
        if (memcmp(lent[i].memory, lent[i].expected, lent[i].bytes) != 0) {
            printf("%s: parameter %u of %s is not as it should be\n", place, (unsigned)i, name);
            same = 0;
        }
        if (forms[i] != 's') keep(&lent[i], (struct lent){0, 0, 0, NULL, NULL});
    }
    return same;
}

static char *whole_file(const char *name) {
    FILE *file = fopen(name, "rb");
    char *bytes;
    long length;

    if (!file || fseek(file, 0, SEEK_END) != 0 || (length = ftell(file)) < 0 || fseek(file, 0, SEEK_SET) != 0) exit(2);
    bytes = malloc((size_t)length + 1);
    if (!bytes || fread(bytes, 1, (size_t)length, file) != (size_t)length) exit(2);
    bytes[length] = 0;
    fclose(file);
    return bytes;
}

/* Paints the stack below the caller, or gives how many bytes of it are no longer so. */
static __attribute__((noinline)) size_t stack_used(int paint) {
    volatile unsigned char stack[PAINTED];
    size_t i;

    /* cppcheck-suppress uninitvar ; it is what earlier calls left there that is read */
    for (i = 0; i < PAINTED && (paint || stack[i] == 0xa5); i++) stack[i] = 0xa5;
    return PAINTED - i;
}

int main(int argc, char **argv) {
    unsigned long played = 0, differ = 0;
    size_t used;

    if (argc != 2) {
        fprintf(stderr, "usage: player PLAYS\n");
        return 2;
    }
    stack_used(1);
    for (opposite = 0; opposite < 2; opposite++) {
        char *bytes = text = whole_file(argv[1]);
        const char *first = strtok(text, " \n");

        for (text = NULL; first; first = strtok(NULL, " \n")) {
            played++;
            differ += !play();
        }
        free(bytes);
    }
    used = stack_used(0);
    printf("%lu calls, %lu differ; %lu bytes of stack\n", played, differ, (unsigned long)used);
    return differ > 0 || played == 0 || used > CRR_TEXT_STACK_BYTES;
}
