/*
 * The header against the library: every exported function and every accessor, on the cases of 01 and 02, on files with large
 * numbers, on listings and on texts, whose answers are known. It is C99 and C++. Each difference is a sentence on standard error;
 * the exit status is 1 if there is one. The program cases_header of tests/comparing prints cases.h, the cases from the table of the
 * comparisons, listing_cases_header of tests/listings prints listing_cases.h, the table of listings, and qasm_cases_header of
 * tests/qasm prints qasm_cases.h, the tables of texts and of listings that have none.
 */
#include "gawipsol.h"

#include <stdio.h>
#include <string.h>

/* A byte that no answer has at its place, so that a change shows. */
#define MARK 0xA5

/* The length of a listing of these sizes. */
#define LISTING_LENGTH(inputs, gates, outputs) (6 + (1 + 2 * GAWIPSOL_SLOTS) * ((inputs) + (gates)) + 2 * (outputs))

static struct gawipsol_machine machine;
static uint8_t work[GAWIPSOL_CHECK_WORK];
static uint8_t type[GAWIPSOL_CHECK_OUT];
static uint8_t out[GAWIPSOL_RUN_OUT];
static uint8_t listing_work[GAWIPSOL_LISTING_WORK];
static uint8_t text[GAWIPSOL_EXPORT_OUT];
static uint8_t export_work[GAWIPSOL_EXPORT_WORK];
static uint8_t imported[GAWIPSOL_IMPORT_OUT];
static struct gawipsol_importer importer;

static uint8_t file[GAWIPSOL_LONGEST_FILE];
static size_t file_length;

static const char *name; /* of the file or the listing */
static int differences;

/* What is answered, by name, and what should be. */
static void same(const char *operation, const char *what, unsigned long is, unsigned long should)
{
    if (is == should)
        return;
    fprintf(stderr, "%s, %s: the %s is %lu, and should be %lu.\n", name, operation, what, is, should);
    differences++;
}

static void holds(const char *operation, const char *sentence, int is_so)
{
    if (is_so)
        return;
    fprintf(stderr, "%s, %s: it does not hold that %s.\n", name, operation, sentence);
    differences++;
}

static int all(const void *from, size_t count, uint8_t byte)
{
    const uint8_t *bytes = (const uint8_t *)from;
    size_t at;

    for (at = 0; at < count; at++)
        if (bytes[at] != byte)
            return 0;
    return 1;
}

static void put_word(size_t at, unsigned word)
{
    file[at] = (uint8_t)(word & 0xFF);
    file[at + 1] = (uint8_t)(word >> 8);
}

/* Starts a file of these sizes, all of whose entries are 0. */
static void sizes(const char *of, unsigned labels, unsigned types, unsigned terms)
{
    name = of;
    file_length = 6 + 3 * (size_t)(labels + types + terms);
    memset(file, 0, sizeof file);
    put_word(0, labels);
    put_word(2, types);
    put_word(4, terms);
}

static void entry(unsigned number, unsigned kind, unsigned argument)
{
    file[6 + number] = (uint8_t)kind;
    put_word(6 + (file_length - 6) / 3 + 2 * (size_t)number, argument);
}

/* What each operation answers: its number and place, and what it answers where the number is 0. */
struct answers {
    unsigned read_number, read_place, labels, types, terms;
    unsigned check_number, check_place, type_length;
    uint32_t limit;
    unsigned run_number, run_place, gates, length, steps;
};

static void refusal(const char *operation, uint64_t answer, unsigned number, unsigned place)
{
    same(operation, "number", gawipsol_number(answer), number);
    if (number != GAWIPSOL_ACCEPTED)
        same(operation, "place", gawipsol_place(answer), place);
}

/* The check of a listing of these sizes, with working memory of the least length and with one byte less. */
static void check_listing(const uint8_t *listing, size_t length, unsigned number, unsigned place,
                          unsigned inputs, unsigned gates, unsigned outputs)
{
    uint64_t answer;

    memset(listing_work, MARK, sizeof listing_work);
    answer = gawipsol_check_listing(listing, length, listing_work, sizeof listing_work - 1);
    refusal("check of a listing in short memory", answer, GAWIPSOL_BUFFER_TOO_SHORT, 0);
    holds("check of a listing in short memory", "no buffer is touched", all(listing_work, sizeof listing_work, MARK));

    answer = gawipsol_check_listing(listing, length, listing_work, sizeof listing_work);
    refusal("check of a listing", answer, number, place);
    if (number == GAWIPSOL_ACCEPTED) {
        same("check of a listing", "number of inputs", gawipsol_listing_inputs(answer), inputs);
        same("check of a listing", "number of gates", gawipsol_listing_gates(answer), gates);
        same("check of a listing", "number of outputs", gawipsol_listing_outputs(answer), outputs);
    }
    holds("check of a listing", "the working memory is zero", all(listing_work, sizeof listing_work, 0));
}

static void check_answers(const struct answers *known)
{
    size_t written;
    uint64_t answer = gawipsol_read(file, file_length);

    refusal("read", answer, known->read_number, known->read_place);
    if (known->read_number == GAWIPSOL_ACCEPTED) {
        same("read", "number of labels", gawipsol_read_labels(answer), known->labels);
        same("read", "number of type entries", gawipsol_read_types(answer), known->types);
        same("read", "number of term entries", gawipsol_read_terms(answer), known->terms);
    }

    memset(type, MARK, sizeof type);
    memset(work, MARK, sizeof work);
    answer = gawipsol_check(file, file_length, type, sizeof type, work, sizeof work);
    refusal("check", answer, known->check_number, known->check_place);
    written = 0;
    if (known->check_number == GAWIPSOL_ACCEPTED) {
        written = known->type_length;
        same("check", "length of the type", (unsigned long)gawipsol_check_length(answer), known->type_length);
    }
    holds("check", "the output buffer past the type is unchanged", all(type + written, sizeof type - written, MARK));
    holds("check", "the working memory is zero", all(work, sizeof work, 0));

    memset(&machine, MARK, sizeof machine);
    same("check in a machine", "answer", (unsigned long)gawipsol_check_in(&machine, file, file_length, type, sizeof type),
         (unsigned long)answer);

    memset(out, MARK, sizeof out);
    memset(&machine, MARK, sizeof machine);
    answer = gawipsol_run_in(&machine, file, file_length, known->limit, out, sizeof out);
    refusal("run", answer, known->run_number, known->run_place);
    written = 0;
    if (known->run_number == GAWIPSOL_ACCEPTED) {
        written = known->length;
        same("run", "number of gates", gawipsol_run_gates(answer), known->gates);
        same("run", "length of the listing", (unsigned long)gawipsol_run_length(answer), known->length);
        same("run", "number of steps", gawipsol_run_steps(answer), known->steps);
    }
    holds("run", "the output buffer past the listing is unchanged", all(out + written, sizeof out - written, MARK));
    holds("run", "the machine is zero", all(&machine, sizeof machine, 0));
    if (known->run_number == GAWIPSOL_ACCEPTED)
        check_listing(out, written, GAWIPSOL_ACCEPTED, 0, known->labels, known->gates, out[4] | (unsigned)out[5] << 8);
}

/* A case with a limit: its file, what each operation answers, and the bytes of its type and its listing, if it has them. */
struct known_case {
    const char *name;
    const char *file;
    size_t file_length;
    struct answers known;
    const char *type;
    const char *listing;
};

#include "cases.h"

static void load(const struct known_case *of)
{
    name = of->name;
    file_length = of->file_length;
    memcpy(file, of->file, file_length);
}

static void check_cases(void)
{
    size_t at;

    for (at = 0; at < sizeof cases / sizeof cases[0]; at++) {
        const struct known_case *of = &cases[at];

        load(of);
        check_answers(&of->known);
        holds("check", "the type is that of the case", memcmp(type, of->type, of->known.type_length) == 0);
        holds("run", "the listing is that of the case", memcmp(out, of->listing, of->known.length) == 0);
    }
}

/* A listing, and what its check answers: the number and the place, or the sizes. */
struct listing_case {
    const char *name;
    const uint8_t *listing;
    size_t length;
    unsigned number, place, inputs, gates, outputs;
};

#include "listing_cases.h"

static void check_listings(void)
{
    size_t at;

    for (at = 0; at < sizeof listing_cases / sizeof listing_cases[0]; at++) {
        const struct listing_case *of = &listing_cases[at];

        name = of->name;
        check_listing(of->listing, of->length, of->number, of->place, of->inputs, of->gates, of->outputs);
    }
}

/* The export of a listing, whose text is known, or which is refused. */
static void check_export(const uint8_t *listing, size_t length, unsigned number, unsigned place,
                         const uint8_t *known, size_t known_length)
{
    uint64_t answer;

    memset(text, MARK, sizeof text);
    memset(export_work, MARK, sizeof export_work);
    answer = gawipsol_export(listing, length, text, sizeof text, export_work, sizeof export_work);
    refusal("export", answer, number, place);
    if (number == GAWIPSOL_ACCEPTED)
        same("export", "length of the text", (unsigned long)gawipsol_export_length(answer), (unsigned long)known_length);
    holds("export", "the text is that of the case", memcmp(text, known, known_length) == 0);
    holds("export", "the output buffer past the text is unchanged",
          all(text + known_length, sizeof text - known_length, MARK));
    holds("export", "the working memory is zero", all(export_work, sizeof export_work, 0));
}

/* The import of a text, whose listing is known, or which is refused. */
static void check_import(const uint8_t *of, size_t length, unsigned number, const uint8_t *known, size_t known_length)
{
    uint64_t answer;

    memset(imported, MARK, sizeof imported);
    memset(&importer, MARK, sizeof importer);
    answer = gawipsol_import_in(&importer, of, length, imported, sizeof imported);
    refusal("import", answer, number, 0);
    if (number == GAWIPSOL_ACCEPTED)
        same("import", "length of the listing", (unsigned long)gawipsol_import_length(answer), (unsigned long)known_length);
    holds("import", "the listing is that of the case", memcmp(imported, known, known_length) == 0);
    holds("import", "the output buffer past the listing is unchanged",
          all(imported + known_length, sizeof imported - known_length, MARK));
    holds("import", "the importer is zero", all(&importer, sizeof importer, 0));
}

/* A text, and the listing whose export it is, or the number with which it is refused. */
struct text_case {
    const char *name;
    unsigned number;
    const uint8_t *listing;
    size_t listing_length;
    const uint8_t *text;
    size_t text_length;
};

/* A listing that is accepted and has no text, and the first entry for which there is no word. */
struct wordless_case {
    const char *name;
    const uint8_t *listing;
    size_t length;
    unsigned place;
};

#include "qasm_cases.h"

static void check_texts(void)
{
    static const uint8_t nothing[1] = {0};
    size_t at;

    for (at = 0; at < sizeof text_cases / sizeof text_cases[0]; at++) {
        const struct text_case *of = &text_cases[at];

        name = of->name;
        check_import(of->text, of->text_length, of->number, of->listing, of->listing_length);
        if (of->number == GAWIPSOL_ACCEPTED)
            check_export(of->listing, of->listing_length, of->number, 0, of->text, of->text_length);
    }
    for (at = 0; at < sizeof listing_cases / sizeof listing_cases[0]; at++) {
        const struct listing_case *of = &listing_cases[at];

        name = of->name;
        if (of->number != GAWIPSOL_ACCEPTED)
            check_export(of->listing, of->length, of->number, of->place, nothing, 0);
    }
    for (at = 0; at < sizeof wordless_cases / sizeof wordless_cases[0]; at++) {
        const struct wordless_case *of = &wordless_cases[at];

        name = of->name;
        check_export(of->listing, of->length, GAWIPSOL_NO_WORD, of->place, nothing, 0);
    }
}

/* The buffers of an import. */
enum import_buffer {
    IMPORTED,
    SLOTS,
    LISTING,
    TABLE,
    EXPORTED,
    IMPORT_BUFFERS
};

/* The lengths of export and import in the header are the least ones: 19 with one byte less. */
static void check_text_lengths(void)
{
    const struct text_case *of = &text_cases[0];
    size_t lengths[IMPORT_BUFFERS] = {
        sizeof imported,
        sizeof importer.slots,
        sizeof importer.listing,
        sizeof importer.table,
        sizeof importer.exported,
    };
    int shorter;

    name = of->name;
    memset(text, MARK, sizeof text);
    memset(export_work, MARK, sizeof export_work);
    refusal("export with a short output buffer",
            gawipsol_export(of->listing, of->listing_length, text, sizeof text - 1, export_work, sizeof export_work),
            GAWIPSOL_BUFFER_TOO_SHORT, 0);
    refusal("export with a short working memory",
            gawipsol_export(of->listing, of->listing_length, text, sizeof text, export_work, sizeof export_work - 1),
            GAWIPSOL_BUFFER_TOO_SHORT, 0);
    holds("export with a short buffer", "no buffer is touched",
          all(text, sizeof text, MARK) && all(export_work, sizeof export_work, MARK));

    for (shorter = 0; shorter < IMPORT_BUFFERS; shorter++) {
        char operation[40];

        sprintf(operation, "import with buffer %d short", shorter);
        memset(imported, MARK, sizeof imported);
        memset(&importer, MARK, sizeof importer);
        lengths[shorter]--;
        refusal(operation,
                gawipsol_import(of->text, of->text_length,
                                imported, lengths[IMPORTED],
                                importer.slots, lengths[SLOTS],
                                importer.listing, lengths[LISTING],
                                importer.table, lengths[TABLE],
                                importer.exported, lengths[EXPORTED]),
                GAWIPSOL_BUFFER_TOO_SHORT, 0);
        lengths[shorter]++;
        holds(operation, "no buffer is touched",
              all(imported, sizeof imported, MARK) && all(&importer, sizeof importer, MARK));
    }
}

/* Lifts from an entry on around a gate. */
static void lifts(unsigned from, unsigned gate)
{
    for (; from < gate; from++)
        entry(from, 22, 0);
    entry(gate, 26, 0);
}

/* So many applies of a gate from an entry on, each to the one behind. */
static void applies(unsigned from, unsigned count, unsigned gate)
{
    for (; count > 0; count--) {
        entry(from++, 25, 0);
        entry(from++, 26, gate);
    }
}

/* Files with large numbers. */
static void check_large(void)
{
    /* The 510th lift around a gate has a type of 513 entries. */
    static const struct answers too_large = {0, 0, 64, 512, 2048, 16, 2113, 0, 9, 16, 2113, 0, 0, 0};
    static const struct answers left_over = {8, 2623, 0, 0, 0, 8, 2623, 0, 9, 8, 2623, 0, 0, 0};
    static const struct answers longest = {0, 0, 0, 0, 510, 0, 0, 512, 9, 20, 0, 0, 0, 0};
    static const struct answers gates = {0, 0, 1, 0, 2047, 0, 0, 1, 1023, 0, 0, 1023, LISTING_LENGTH(1, 1023, 1), 1023};
    static const struct answers on_three = {0, 0, 3, 0, 2047, 0, 0, 5, 1021, 0, 0, 1021, LISTING_LENGTH(3, 1021, 3), 1021};
    unsigned number;

    sizes("2,047 lifts around a gate", 64, 512, 2048);
    lifts(576, 2623);
    check_answers(&too_large);

    sizes("2,046 lifts around a gate, and one gate more", 64, 512, 2048);
    lifts(576, 2622);
    entry(2623, 26, 0);
    check_answers(&left_over);

    sizes("509 lifts around a gate", 0, 0, 510);
    lifts(0, 509);
    check_answers(&longest);

    sizes("1,023 gates on one wire", 1, 0, 2047);
    entry(0, 1, 0);
    applies(1, 1023, 0);
    entry(2047, 17, 0);
    check_answers(&gates);

    sizes("1,021 gates on three wires", 3, 0, 2047);
    for (number = 0; number < 3; number++)
        entry(number, 1, 0);
    applies(3, 1021, GAWIPSOL_GATES - 1);
    for (number = 0; number < 2; number++) {
        entry(2045 + 2 * number, 20, 0);
        entry(2046 + 2 * number, 17, number);
    }
    entry(2049, 17, 2);
    check_answers(&on_three);
}

/* The buffers of a run. */
enum buffer {
    OUT,
    NODES,
    STACK,
    TYPES,
    FRAMES,
    GATES,
    CIRCUITS,
    RESULTS0,
    RESULTS1,
    RESULTS2,
    RESULTS3,
    BUFFERS
};

/* The lengths in the header are the least ones: 19 with one byte less. */
static void check_lengths(void)
{
    size_t lengths[BUFFERS] = {
        sizeof out,
        sizeof machine.nodes,
        sizeof machine.stack,
        sizeof machine.types,
        sizeof machine.frames,
        sizeof machine.gates,
        sizeof machine.circuits,
        sizeof machine.results0,
        sizeof machine.results1,
        sizeof machine.results2,
        sizeof machine.results3,
    };
    size_t sum = 0;
    int shorter;
    uint64_t answer;

    load(&cases[0]);
    memset(type, MARK, sizeof type);
    memset(work, MARK, sizeof work);
    refusal("check with a short output buffer",
            gawipsol_check(file, file_length, type, sizeof type - 1, work, sizeof work), GAWIPSOL_BUFFER_TOO_SHORT, 0);
    refusal("check with a short working memory",
            gawipsol_check(file, file_length, type, sizeof type, work, sizeof work - 1), GAWIPSOL_BUFFER_TOO_SHORT, 0);
    holds("check with a short buffer", "no buffer is touched",
          all(type, sizeof type, MARK) && all(work, sizeof work, MARK));

    for (shorter = 0; shorter <= BUFFERS; shorter++) {
        const unsigned number = shorter < BUFFERS ? GAWIPSOL_BUFFER_TOO_SHORT : GAWIPSOL_ACCEPTED;
        char operation[40];

        sprintf(operation, "run with buffer %d short", shorter);
        memset(out, MARK, sizeof out);
        memset(&machine, MARK, sizeof machine);
        if (shorter < BUFFERS)
            lengths[shorter]--;
        answer = gawipsol_run(file, file_length, 0,
                              out, lengths[OUT],
                              machine.nodes, lengths[NODES],
                              machine.stack, lengths[STACK],
                              machine.types, lengths[TYPES],
                              machine.frames, lengths[FRAMES],
                              machine.gates, lengths[GATES],
                              machine.circuits, lengths[CIRCUITS],
                              machine.results0, lengths[RESULTS0],
                              machine.results1, lengths[RESULTS1],
                              machine.results2, lengths[RESULTS2],
                              machine.results3, lengths[RESULTS3]);
        if (shorter < BUFFERS)
            lengths[shorter]++;
        refusal(operation, answer, number, 0);
        if (number != GAWIPSOL_ACCEPTED)
            holds(operation, "no buffer is touched", all(out, sizeof out, MARK) && all(&machine, sizeof machine, MARK));
    }

    /* The machine has no byte besides its buffers, in the order in which they are lent. */
    for (shorter = NODES; shorter < BUFFERS; shorter++)
        sum += lengths[shorter];
    same("machine", "sum of its buffers' lengths", (unsigned long)sum, (unsigned long)sizeof machine);
}

/* Each accessor has all the bits of its field, those of numbers that no operation answers today too. */
static void check_fields(void)
{
    const uint64_t ones = UINT64_MAX;

    name = "all bits set";
    same("any operation", "number", gawipsol_number(ones), 63);
    same("any operation", "place", gawipsol_place(ones), 65535);
    same("read", "number of labels", gawipsol_read_labels(ones), 127);
    same("read", "number of type entries", gawipsol_read_types(ones), 1023);
    same("read", "number of term entries", gawipsol_read_terms(ones), 4095);
    same("check", "length of the type", (unsigned long)gawipsol_check_length(ones), 65535);
    same("run", "number of gates", gawipsol_run_gates(ones), 4095);
    same("run", "length of the listing", (unsigned long)gawipsol_run_length(ones), 16383);
    same("run", "number of steps", gawipsol_run_steps(ones), 4294967295u);
    same("check of a listing", "number of inputs", gawipsol_listing_inputs(ones), 127);
    same("check of a listing", "number of gates", gawipsol_listing_gates(ones), 4095);
    same("check of a listing", "number of outputs", gawipsol_listing_outputs(ones), 511);
    same("export", "length of the text", (unsigned long)gawipsol_export_length(ones), 65535);
    same("import", "length of the listing", (unsigned long)gawipsol_import_length(ones), 65535);

    /* The lengths of the header follow from the most inputs, gates and outputs, and a byte for each wire. */
    name = "the longest listing";
    same("run", "least length of the output buffer", GAWIPSOL_RUN_OUT, LISTING_LENGTH(64, 2048, 256));
    holds("run", "the field of its length holds that of the longest listing", gawipsol_run_length(ones) >= GAWIPSOL_RUN_OUT);
    same("check of a listing", "least length of the working memory", GAWIPSOL_LISTING_WORK, 64 + GAWIPSOL_SLOTS * 2048);
    same("import", "least length of the slots", (unsigned long)sizeof importer.slots,
         2 * (GAWIPSOL_SLOTS * (64 + 2048) + 256));
}

int main(void)
{
    check_fields();
    check_cases();
    check_large();
    check_lengths();
    check_listings();
    check_texts();
    check_text_lengths();
    if (differences != 0)
        fprintf(stderr, "%d differences between header and library.\n", differences);
    return differences != 0;
}
