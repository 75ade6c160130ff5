/*
 * Tries awards tier by tier on the grid of a folder: a running test, led by the lines
 * of standard input:
 *
 *   add KIND PERIOD HOLDER SOURCE SINK QUANTITY
 *   mark TIER
 *   return TIER
 *
 * all by number, as in crr.h. Prints a line for each, `answer,held,counted`: the
 * refusal's number or 0, the awards held, and how many of them the period counts. At
 * the end writes the awards held as a book's file.
 *
 * Started in that folder, which has grid.bin, with the process, the period and the name
 * of that file: tiers PROCESS PERIOD NEW_BOOK. Written as book.bin beside its grid.bin,
 * it is ready for ./run.
 * Made by gcc -I include -o tiers examples/c/tiers.c dist/x86-64-linux/libcrr.a
 */
#include <inttypes.h>
#include <stdio.h>
#include "crr.h"

static uint8_t grid[CRR_MAX_GRID_BYTES + 1], file[CRR_MAX_BOOK_BYTES];
static uint64_t limits[CRR_MAX_CONSTRAINTS];
static int64_t factors[CRR_MAX_NODES * CRR_MAX_CONSTRAINTS];
static size_t nodes, constraints;
static uint64_t process, period;
static struct crr_running state;

static size_t load(const char *name, uint8_t *bytes, size_t room) {
    FILE *in = fopen(name, "rb");
    size_t n = in ? fread(bytes, 1, room, in) : 0;
    if (in) fclose(in);
    return n;
}

static int refused(const char *what, uint64_t number) {
    uint8_t text[CRR_REFUSAL_TEXT_BYTES];
    size_t bytes = 0;

    if (number == CRR_OK) return 0;
    crr_refusal_text(number, text, sizeof text, &bytes);
    fprintf(stderr, "%s refused: %" PRIu64 ", %.*s\n", what, number, (int)bytes, (const char *)text);
    return 1;
}

static int number(const char *word, uint64_t *value) {
    int end = 0;
    return sscanf(word, "%" SCNu64 "%n", value, &end) == 1 && !word[end];
}

/* Does what a line says, with its answer; false where the line is none of the three. */
static int carried_out(const char *line, uint64_t *answer) {
    uint64_t award[6], tier;
    int end = 0;

    if (sscanf(line, "add %" SCNu64 " %" SCNu64 " %" SCNu64 " %" SCNu64 " %" SCNu64 " %" SCNu64 " %n",
               &award[0], &award[1], &award[2], &award[3], &award[4], &award[5], &end) == 6 && end && !line[end]) {
        *answer = crr_add_award(nodes, constraints, process, period, limits, constraints, factors, nodes * constraints, award, 6, CRR_RUNNING(&state));
    } else if (sscanf(line, "mark %" SCNu64 " %n", &tier, &end) == 1 && end && !line[end]) {
        *answer = crr_mark_tier(tier, CRR_RUNNING_MARKS(&state));
    } else if (sscanf(line, "return %" SCNu64 " %n", &tier, &end) == 1 && end && !line[end]) {
        *answer = crr_return_to_tier(tier, CRR_RUNNING_MARKS(&state));
    } else {
        return 0;
    }
    return 1;
}

int main(int count, char **words) {
    size_t grid_len = load("grid.bin", grid, sizeof grid), bytes;
    uint64_t form, answer;
    char line[256];
    FILE *out;

    if (count != 4 || !number(words[1], &process) || !number(words[2], &period)) {
        fprintf(stderr, "usage: %s PROCESS PERIOD NEW_BOOK, in a folder with grid.bin\n"
                "process: %d annual, %d Tier LT, %d monthly; period: %d off-peak, %d on-peak\n",
                words[0], CRR_ANNUAL, CRR_TIER_LT, CRR_MONTHLY, CRR_OFF_PEAK, CRR_ON_PEAK);
        return 2;
    }
    if (refused("grid", crr_read_grid(grid, grid_len, limits, CRR_MAX_CONSTRAINTS, factors,
                                      CRR_MAX_NODES * CRR_MAX_CONSTRAINTS, &nodes, &constraints, &form))) return 1;
    if (refused("opening", crr_open_running(nodes, constraints, process, period, limits, constraints, factors, nodes * constraints, CRR_RUNNING(&state)))) return 1;
    while (fgets(line, sizeof line, stdin)) {
        if (!carried_out(line, &answer)) {
            fprintf(stderr, "neither add, mark nor return: %s", line);
            return 1;
        }
        printf("%" PRIu64 ",%" PRIu64 ",%" PRIu64 "\n", answer, state.numbers[0], state.numbers[1]);
    }
    form = nodes <= 256 ? CRR_NARROW : CRR_WIDE;
    if (refused("book", crr_write_book(form, nodes, (size_t)state.numbers[0], state.awards, CRR_RUNNING_AWARDS, file, sizeof file, &bytes))) return 1;
    out = fopen(words[3], "wb");
    if (!out || fwrite(file, 1, bytes, out) != bytes || fclose(out) != 0) {
        fprintf(stderr, "%s can't be written\n", words[3]);
        return 1;
    }
    return 0;
}
