/*
 * The reading, the check and the run of program files, the check of listings, and their export to OpenQASM 2.0 and import from it,
 * for hosts in C (C99) and C++ on x86-64.
 * All are in crates/cabinet/out/libcabinet.a; docs/FORMATS.md has the layout of files, listings, texts and buffers.
 *
 * What the host owes: each pointer with its length is one buffer, readable and, all but the file, the listing or the text that is
 * taken, writable; no pointer is null, even with length 0; no two buffers overlap; nothing else writes them meanwhile; 1 MiB of
 * stack is free (measured; docs/FORMATS.md, "Stack").
 * Nothing is kept between calls, so calls with buffers of their own may run at the same time.
 *
 * An operation on programs takes a file, one on listings takes a listing: one that a run has written, or any other bytes. An import
 * takes a text: one that an export has written, or any other bytes.
 *
 * What is promised, for every file, every listing, every text and every length of buffer:
 * - Refusal 19 comes before all else: a buffer is shorter than its least length, and no buffer is touched.
 * - After any other answer every working memory is zero, in its whole length.
 * - Accepted or finished: the answer is at the start of `out`, and the bytes of `out` past it keep their values.
 * - Refused: `out` is unchanged.
 */
#ifndef GAWIPSOL_H
#define GAWIPSOL_H

#include <stddef.h>
#include <stdint.h>

#ifdef __cplusplus
extern "C" {
#endif

/* The longest program file, in bytes. */
#define GAWIPSOL_LONGEST_FILE 7878

/* The least lengths of the buffers of a check, in bytes. */
#define GAWIPSOL_CHECK_OUT 512
#define GAWIPSOL_CHECK_WORK 54880

/* The least length of the output buffer of a run, in bytes, which is the length of the longest listing. */
#define GAWIPSOL_RUN_OUT 15302

/* The least length of the working memory of a check of a listing, in bytes. */
#define GAWIPSOL_LISTING_WORK 6208

/* The least lengths of the buffers of an export, in bytes. No text is longer than its output buffer. */
#define GAWIPSOL_EXPORT_OUT 55211
#define GAWIPSOL_EXPORT_WORK GAWIPSOL_LISTING_WORK

/* The least length of the output buffer of an import, in bytes, which is the length of the longest listing. */
#define GAWIPSOL_IMPORT_OUT GAWIPSOL_RUN_OUT

/*
 * The number of an answer: 0, or that of the refusal. A place is an entry number where one is named here, else 0; where several
 * entries are such, it is the first of them in the file or in the listing.
 */
enum gawipsol_number {
    GAWIPSOL_ACCEPTED = 0, /* of a run: finished */

    /* The form of the file. */
    GAWIPSOL_FILE_TOO_SHORT = 1,    /* under 6 bytes */
    GAWIPSOL_SIZE_OUT_OF_RANGE = 2, /* of labels, type entries or term entries */
    GAWIPSOL_WRONG_LENGTH = 3,      /* the length is not the one that the sizes give */
    GAWIPSOL_WRONG_KIND = 4,        /* place: the entry */
    GAWIPSOL_WRONG_ARGUMENT = 5,    /* place: the entry */
    GAWIPSOL_TYPE_RUNS_OUT = 6,     /* place: the entry where the type starts */
    GAWIPSOL_NO_WIRE_TYPE = 7,      /* place: the circuit type or box */
    GAWIPSOL_NOT_ONE_TERM = 8,      /* place: the first entry left over; if the term runs out, the number of entries */
    GAWIPSOL_NO_BINDER = 9,         /* place: the variable */

    /* Typing. */
    GAWIPSOL_RULE_FAILS = 16,    /* place: the node */
    GAWIPSOL_NOT_USED_ONCE = 17, /* place: the label or the binder of a linear variable */
    GAWIPSOL_USE_IN_LIFT = 18,   /* place: the use, linear, of what is bound outside the lift */

    /* Buffers. */
    GAWIPSOL_BUFFER_TOO_SHORT = 19,

    /* The run. */
    GAWIPSOL_RESULT_NO_WIRES = 20, /* the program's type is no wire type */
    GAWIPSOL_LIMIT_REACHED = 21,   /* the limit's steps are done, and it is unfinished */
    GAWIPSOL_SIZE_EXCEEDED = 22,   /* earlier than that, the next step exceeds a size */

    /* Listings, whose entries are the inputs and then the gates. */
    GAWIPSOL_LISTING_SIZES = 24, /* a size out of range, or a length that is not the one that the sizes give */
    GAWIPSOL_LISTING_ENTRY = 25, /* a kind not allowed there, or a wire in a slot that is not used; place: the entry */
    /*
     * A wire not made before it is taken, of another type, gone already, or left over. Place: the gate that takes it, else the
     * number of entries and the number of the output, else the entry that made the lowest wire left over.
     */
    GAWIPSOL_LISTING_WIRES = 26,

    /* Texts in OpenQASM 2.0. */
    GAWIPSOL_NO_EXPORT = 27, /* the text is the export of no listing that is accepted */
    GAWIPSOL_NO_WORD = 28    /* of an export: Init or Discard, for which OpenQASM has no word; place: the entry */
};

/*
 * An answer is one number. Bits 0 to 5: 0, or the refusal's number. Refused: bits 6 to 21 its place. Else from bit 6 on what
 * the operation answers. crates/cabinet_answers proves that this gives back every answer.
 */
static inline unsigned gawipsol_number(uint64_t answer)
{
    return (unsigned)(answer & 0x3F);
}

/* Refused: the place. */
static inline unsigned gawipsol_place(uint64_t answer)
{
    return (unsigned)(answer >> 6 & 0xFFFF);
}

/* The reading alone: the form of the file. No buffer is lent. */
uint64_t gawipsol_read(const uint8_t *file, size_t file_length);

/* Accepted: the number of labels. */
static inline unsigned gawipsol_read_labels(uint64_t answer)
{
    return (unsigned)(answer >> 6 & 0x7F);
}

/* Accepted: the number of type entries. */
static inline unsigned gawipsol_read_types(uint64_t answer)
{
    return (unsigned)(answer >> 13 & 0x3FF);
}

/* Accepted: the number of term entries. */
static inline unsigned gawipsol_read_terms(uint64_t answer)
{
    return (unsigned)(answer >> 23 & 0xFFF);
}

/* The check. Accepted: `out` has the program's type in preorder, one kind byte an entry. `work` is working memory. */
uint64_t gawipsol_check(const uint8_t *file, size_t file_length,
                        uint8_t *out, size_t out_length,
                        uint8_t *work, size_t work_length);

/* The kind bytes of a type. */
enum gawipsol_type {
    GAWIPSOL_BIT = 0,
    GAWIPSOL_QUBIT = 1,
    GAWIPSOL_PAIR = 2,     /* two parts */
    GAWIPSOL_FUNCTION = 3, /* two parts */
    GAWIPSOL_REUSABLE = 4, /* one part */
    GAWIPSOL_CIRCUIT = 5,  /* two parts */
    GAWIPSOL_UNIT = 6
};

/* Accepted: the length of the type, in bytes. */
static inline size_t gawipsol_check_length(uint64_t answer)
{
    return (size_t)(answer >> 6 & 0xFFFF);
}

/*
 * The run: the check, then at most `limit` steps. Finished: `out` has the listing. All buffers after `out` are working
 * memory; their least lengths are those of the arrays below.
 */
uint64_t gawipsol_run(const uint8_t *file, size_t file_length,
                      uint32_t limit,
                      uint8_t *out, size_t out_length,
                      uint8_t *nodes, size_t nodes_length,
                      uint8_t *stack, size_t stack_length,
                      uint8_t *types, size_t types_length,
                      uint8_t *frames, size_t frames_length,
                      uint8_t *gates, size_t gates_length,
                      uint8_t *circuits, size_t circuits_length,
                      uint8_t *results0, size_t results0_length,
                      uint8_t *results1, size_t results1_length,
                      uint8_t *results2, size_t results2_length,
                      uint8_t *results3, size_t results3_length);

/* Finished: the number of gates. */
static inline unsigned gawipsol_run_gates(uint64_t answer)
{
    return (unsigned)(answer >> 6 & 0xFFF);
}

/* Finished: the length of the listing, in bytes. */
static inline size_t gawipsol_run_length(uint64_t answer)
{
    return (size_t)(answer >> 18 & 0x3FFF);
}

/* Finished: the number of steps. */
static inline uint32_t gawipsol_run_steps(uint64_t answer)
{
    return (uint32_t)(answer >> 32);
}

/*
 * The kind byte of an input in a listing; that of a gate is its number, below GAWIPSOL_GATES. Each entry has GAWIPSOL_SLOTS slots
 * of 16 bits for the wires that it takes; GAWIPSOL_NO_WIRE stands in a slot that takes none.
 */
#define GAWIPSOL_BIT_INPUT 128
#define GAWIPSOL_QUBIT_INPUT 129
#define GAWIPSOL_GATES 12
#define GAWIPSOL_SLOTS 3
#define GAWIPSOL_NO_WIRE 65535

/*
 * The check of a listing of any length: each wire is made before it is taken, has the type that its taker needs, and goes
 * exactly once to a gate or an output. `work` is working memory. Every listing that a run writes is accepted.
 */
uint64_t gawipsol_check_listing(const uint8_t *listing, size_t listing_length,
                                uint8_t *work, size_t work_length);

/* Accepted: the number of inputs. */
static inline unsigned gawipsol_listing_inputs(uint64_t answer)
{
    return (unsigned)(answer >> 6 & 0x7F);
}

/* Accepted: the number of gates. */
static inline unsigned gawipsol_listing_gates(uint64_t answer)
{
    return (unsigned)(answer >> 13 & 0xFFF);
}

/* Accepted: the number of outputs. */
static inline unsigned gawipsol_listing_outputs(uint64_t answer)
{
    return (unsigned)(answer >> 25 & 0x1FF);
}

/*
 * The export of a listing of any length: `out` has its text in OpenQASM 2.0. A listing that is not accepted is refused as its check
 * refuses it, and an accepted one with Init or Discard by 28; every other one has a text. `work` is working memory.
 */
uint64_t gawipsol_export(const uint8_t *listing, size_t listing_length,
                         uint8_t *out, size_t out_length,
                         uint8_t *work, size_t work_length);

/* Written: the length of the text, in bytes. */
static inline size_t gawipsol_export_length(uint64_t answer)
{
    return (size_t)(answer >> 6 & 0xFFFF);
}

/*
 * The import of a text of any length: `out` has the listing whose export the text is, byte for byte; any other text is refused.
 * All buffers after `out` are working memory; their least lengths are those of the arrays of `struct gawipsol_importer`.
 */
uint64_t gawipsol_import(const uint8_t *text, size_t text_length,
                         uint8_t *out, size_t out_length,
                         uint8_t *slots, size_t slots_length,
                         uint8_t *listing, size_t listing_length,
                         uint8_t *table, size_t table_length,
                         uint8_t *exported, size_t exported_length);

/* Written: the length of the listing, in bytes. */
static inline size_t gawipsol_import_length(uint64_t answer)
{
    return (size_t)(answer >> 6 & 0xFFFF);
}

/*
 * The working memory of a run as one object, with each buffer in its least length, in the order in which they are lent. Its
 * bytes need not be set before a call.
 */
struct gawipsol_machine {
    uint8_t nodes[65536];
    uint8_t stack[32768];
    uint8_t types[1152];
    uint8_t frames[32776];
    uint8_t gates[32768];
    uint8_t circuits[2048];
    uint8_t results0[65536];
    uint8_t results1[65536];
    uint8_t results2[65536];
    uint8_t results3[65536];
};

/* The run in the memory of a machine. */
static inline uint64_t gawipsol_run_in(struct gawipsol_machine *machine,
                                       const uint8_t *file, size_t file_length,
                                       uint32_t limit,
                                       uint8_t *out, size_t out_length)
{
    return gawipsol_run(file, file_length,
                        limit,
                        out, out_length,
                        machine->nodes, sizeof machine->nodes,
                        machine->stack, sizeof machine->stack,
                        machine->types, sizeof machine->types,
                        machine->frames, sizeof machine->frames,
                        machine->gates, sizeof machine->gates,
                        machine->circuits, sizeof machine->circuits,
                        machine->results0, sizeof machine->results0,
                        machine->results1, sizeof machine->results1,
                        machine->results2, sizeof machine->results2,
                        machine->results3, sizeof machine->results3);
}

/* The check in the memory of a machine, whose nodes are longer than its working memory has to be. */
static inline uint64_t gawipsol_check_in(struct gawipsol_machine *machine,
                                         const uint8_t *file, size_t file_length,
                                         uint8_t *out, size_t out_length)
{
    return gawipsol_check(file, file_length, out, out_length, machine->nodes, sizeof machine->nodes);
}

/* The working memory of an import as one object, in the same way. */
struct gawipsol_importer {
    uint8_t slots[13184];
    uint8_t listing[GAWIPSOL_IMPORT_OUT];
    uint8_t table[GAWIPSOL_LISTING_WORK];
    uint8_t exported[GAWIPSOL_EXPORT_OUT];
};

/* The import in the memory of an importer. */
static inline uint64_t gawipsol_import_in(struct gawipsol_importer *importer,
                                          const uint8_t *text, size_t text_length,
                                          uint8_t *out, size_t out_length)
{
    return gawipsol_import(text, text_length,
                           out, out_length,
                           importer->slots, sizeof importer->slots,
                           importer->listing, sizeof importer->listing,
                           importer->table, sizeof importer->table,
                           importer->exported, sizeof importer->exported);
}

#ifdef __cplusplus
}
#endif

#endif
