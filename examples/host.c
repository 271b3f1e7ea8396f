/*
 * An example host: checks and runs the program file that the command line names.
 * Standard output has the lines of its listing, or `refused NUMBER PLACE`; standard error has its type, in preorder.
 * With a second name the listing is checked as one from elsewhere would be, and its bytes are written to that file; with a third
 * one its text in OpenQASM 2.0 is written to that. A listing with Init or Discard has none: standard error then has
 * `refused NUMBER PLACE`.
 * Exit status: 0 finished, 1 refused, 2 the file cannot be read or the output, the listing or the text not written.
 */
#include "gawipsol.h"

#include <stdio.h>

#define LIMIT 1000000

static uint8_t file[GAWIPSOL_LONGEST_FILE + 1]; /* one byte more shows that a file is too long */

static struct gawipsol_machine machine;
static uint8_t type[GAWIPSOL_CHECK_OUT];
static uint8_t listing[GAWIPSOL_RUN_OUT];
static uint8_t work[GAWIPSOL_LISTING_WORK];
static uint8_t text[GAWIPSOL_EXPORT_OUT];
static uint8_t export_work[GAWIPSOL_EXPORT_WORK];

static const char *const type_names[] = {"Bit", "Qubit", "pair", "function", "reusable", "circuit", "unit"};

/* The gates by their numbers, with how many wires each makes. */
static const struct {
    const char *name;
    unsigned made;
} gate_table[GAWIPSOL_GATES] = {
    {"H", 1},    {"X", 1},  {"Z", 1},  {"S", 1},    {"T", 1},       {"CNOT", 2},
    {"Meas", 1}, {"BX", 2}, {"BZ", 2}, {"Init", 1}, {"Discard", 0}, {"CCX", 3},
};

/* The 16-bit word at a place of the listing, low byte first. */
static unsigned word(size_t at)
{
    return listing[at] | (unsigned)listing[at + 1] << 8;
}

static void print_type(size_t length)
{
    size_t at;

    fprintf(stderr, "type");
    for (at = 0; at < length; at++)
        fprintf(stderr, " %s", type_names[type[at]]);
    fprintf(stderr, "\n");
}

static void print_listing(uint32_t steps)
{
    const unsigned inputs = word(0), entries = inputs + word(2), outputs = word(4);
    const size_t kinds = 6, slots = kinds + entries, outs = slots + 2 * GAWIPSOL_SLOTS * (size_t)entries;
    unsigned wire, entry, slot, at;

    for (wire = 0; wire < inputs; wire++)
        printf("in %u %s\n", wire, listing[kinds + wire] == GAWIPSOL_BIT_INPUT ? "Bit" : "Qubit");
    for (entry = inputs; entry < entries; entry++) {
        const unsigned gate = listing[kinds + entry], next = wire + gate_table[gate].made;

        printf("gate %s", gate_table[gate].name);
        for (slot = 0; slot < GAWIPSOL_SLOTS; slot++) {
            const unsigned taken = word(slots + 2 * (GAWIPSOL_SLOTS * (size_t)entry + slot));

            if (taken != GAWIPSOL_NO_WIRE)
                printf(" %u", taken);
        }
        printf(" :");
        for (; wire < next; wire++)
            printf(" %u", wire);
        printf("\n");
    }
    printf("out");
    for (at = 0; at < outputs; at++)
        printf(" %u", word(outs + 2 * (size_t)at));
    printf("\nsteps %lu\n", (unsigned long)steps);
}

/* Checks the file and prints its type, then runs it and prints its listing; the listing's length, 0 if it is refused. */
static size_t check_and_run(size_t length)
{
    uint64_t answer = gawipsol_check_in(&machine, file, length, type, sizeof type);

    if (gawipsol_number(answer) == GAWIPSOL_ACCEPTED) {
        print_type(gawipsol_check_length(answer));
        answer = gawipsol_run_in(&machine, file, length, LIMIT, listing, sizeof listing);
    }
    if (gawipsol_number(answer) != GAWIPSOL_ACCEPTED) {
        printf("refused %u %u\n", gawipsol_number(answer), gawipsol_place(answer));
        return 0;
    }
    print_listing(gawipsol_run_steps(answer));
    return gawipsol_run_length(answer);
}

/* Writes bytes to a file; whether they are written. */
static int write_file(const char *name, const uint8_t *bytes, size_t length)
{
    FILE *to = fopen(name, "wb");
    size_t written;

    if (to == NULL) {
        perror(name);
        return 0;
    }
    written = fwrite(bytes, 1, length, to);
    if (fclose(to) != 0 || written != length) {
        fprintf(stderr, "%s: cannot be written\n", name);
        return 0;
    }
    return 1;
}

/* Whether an answer about the listing is no refusal; a refusal is printed. */
static int is_accepted(uint64_t answer)
{
    if (gawipsol_number(answer) == GAWIPSOL_ACCEPTED)
        return 1;
    fprintf(stderr, "refused %u %u\n", gawipsol_number(answer), gawipsol_place(answer));
    return 0;
}

/* Checks the listing and writes its bytes to a file; the exit status. */
static int write_listing(const char *name, size_t length)
{
    if (!is_accepted(gawipsol_check_listing(listing, length, work, sizeof work)))
        return 1;
    return write_file(name, listing, length) ? 0 : 2;
}

/* Exports the listing and writes its text to a file; the exit status. */
static int write_text(const char *name, size_t length)
{
    const uint64_t answer = gawipsol_export(listing, length, text, sizeof text, export_work, sizeof export_work);

    if (!is_accepted(answer))
        return 1;
    return write_file(name, text, gawipsol_export_length(answer)) ? 0 : 2;
}

int main(int count, char **words)
{
    FILE *from;
    size_t length, listing_length;
    int unread, status = 0;

    if (count < 2 || count > 4) {
        fprintf(stderr, "usage: host FILE [LISTING [TEXT]]; of a program that finishes the listing is written to LISTING, its text"
                        " in OpenQASM 2.0 to TEXT\n");
        return 2;
    }
    from = fopen(words[1], "rb");
    if (from == NULL) {
        perror(words[1]);
        return 2;
    }
    length = fread(file, 1, sizeof file, from);
    unread = ferror(from);
    fclose(from);
    if (unread) {
        fprintf(stderr, "%s: cannot be read\n", words[1]);
        return 2;
    }
    listing_length = check_and_run(length);
    if (fflush(stdout) != 0)
        return 2;
    if (listing_length == 0)
        return 1;
    if (count > 2)
        status = write_listing(words[2], listing_length);
    if (count > 3 && status == 0)
        status = write_text(words[3], listing_length);
    return status;
}
