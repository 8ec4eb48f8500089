/* The programs lnorm and lexplain for callers: texts go in and out as bytes.
 *
 * The library is liblnorm_c.a, which `tools/library` makes. It calls malloc, realloc and free of the program that links it, and nothing
 * else. docs/use/FROM_RUST_AND_C.md says how to make and link it.
 *
 * Calls keep no state, and the caller frees nothing that they answer. Calls may run at once, in any threads.
 *
 * What the caller owes, which nothing checks:
 *
 * - Each pointer points to as many bytes as the size behind it says, and is not null, even where that size is 0.
 * - Nobody writes to these bytes during the call, and nobody else reads or writes a buffer. The buffers overlap nothing.
 * - malloc, realloc and free are those of one allocator, and what malloc and realloc give is aligned to each power of two, up to 16,
 *   that divides its size.
 * - No call is made in a signal handler, nor in the forked child of a process with threads.
 * - The stack is large enough: docs/use/FROM_RUST_AND_C.md has figures.
 * - The names below, and rattle_alloc, rattle_realloc and rattle_dealloc, mean the functions of this archive alone.
 */
#ifndef LNORM_H
#define LNORM_H

#include <stddef.h>
#include <stdint.h>

#ifdef __cplusplus
extern "C" {
#endif

/* The statuses: the exit statuses of the programs (docs/use/FORMATS.md). */
enum {
    /* The output is the text that was asked for; there is no line of faults. */
    LNORM_DONE = 0,
    /* The grammar, or a derivation tree, has a fault, or two trees show no ambiguity. The line of faults has the error code, and its span
     * or path. */
    LNORM_FAULT = 1,
    /* The arguments are no options, the input is no tree of a grammar, or the lines are those of no derivation tree, or no two; the line
     * of faults says which. */
    LNORM_REFUSED = 2,
    /* An allocation failed, or a pattern of the grammar is past the size that a regular expression may have; the line of faults is
     * "lnorm: out of memory\n". */
    LNORM_NO_MEMORY = 3
};

/* What a call answers beside its buffers. */
struct lnorm_answer {
    /* One of the statuses above. */
    uint8_t status;
    /* How many bytes the whole output has: 0 with each status but LNORM_DONE. If that is more than the room of the buffer, the buffer
     * has a beginning of it, and a second call with that much room gets the whole. */
    size_t output_size;
    /* How many bytes the whole line of faults has, with its line feed: 0 with LNORM_DONE. */
    size_t faults_size;
};

/* Lowers a grammar.
 *
 * words    the arguments of the program lnorm (docs/use/FORMATS.md), as "--limit", "50", "--origins": UTF-8, each ended by a zero byte,
 *          the last one included. Without arguments the size is 0.
 * input    a tree in JSON (docs/use/FORMATS.md).
 * output   the lines of the lowered grammar, each ended by a line feed; not ended by a zero byte. What they do not show, as which
 *          nonterminals are inline, is listed there; lnorm_whole answers all of it.
 * faults   the line of faults, as that of the program on standard error.
 *
 * A buffer may have no room: then the call answers the size. What is behind a text in its buffer stays as it was. */
struct lnorm_answer lnorm_run(
    const char *words, size_t words_size,
    const char *input, size_t input_size,
    char *output, size_t output_room,
    char *faults, size_t faults_room);

/* Lowers a grammar, and answers the whole of the lowered grammar as JSON, as `lexplain grammar` does.
 *
 * words, input, faults   those of lnorm_run.
 * output                 one line of JSON, `{"grammar":{..},"origins":null}`, with a line feed behind it (docs/use/FORMATS.md). With
 *                        --origins "origins" is the list of the origins of the actions, by their numbers. */
struct lnorm_answer lnorm_whole(
    const char *words, size_t words_size,
    const char *input, size_t input_size,
    char *output, size_t output_room,
    char *faults, size_t faults_room);

/* Takes a derivation tree of the lowered grammar back to the grammar as it was written, as `lexplain explain` does.
 *
 * words    arguments as above, without --origins.
 * grammar  a tree in JSON.
 * lines    the derivation tree, before inlining, in lines of JSON (docs/use/FORMATS.md).
 * output   the tree of the grammar as it was written, in such lines.
 * faults   a line that says why there is none. With LNORM_FAULT it is a fault of the grammar, as above, or the first fault of the tree,
 *          as "X3 /0/1\n" (docs/use/FAULTS.md); with LNORM_REFUSED the first of these that holds:
 *          "lexplain: words: [--limit N] [--feature F]...\n", if the arguments are no options;
 *          "lexplain: the file is no tree of a grammar\n"; "lexplain: the lines are no tree\n". What is not UTF-8 is neither. */
struct lnorm_answer lnorm_explain(
    const char *words, size_t words_size,
    const char *grammar, size_t grammar_size,
    const char *lines, size_t lines_size,
    char *output, size_t output_room,
    char *faults, size_t faults_room);

/* Takes two derivation trees of the lowered grammar back to two readings in the grammar as it was written, as `lexplain ambiguous` does:
 * different trees of one rule with one sequence of terminals, so the grammar is ambiguous.
 *
 * words, grammar   those of lnorm_explain.
 * lines            the lines of two derivation trees, before inlining, one behind the other.
 * output           the lines of the first tree of the grammar as it was written, those of the second, and a line `{"Differ":[0,2]}`: the
 *                  child indexes that lead from both roots to the smallest trees that hold all that differs.
 * faults           a line that says why there are none: as for lnorm_explain, with the tree in front, as "first X3 /0/1\n"; or that the
 *                  trees show no ambiguity: "X5\n", "X6 4\n" or "X7\n" (docs/use/FAULTS.md). */
struct lnorm_answer lnorm_ambiguous(
    const char *words, size_t words_size,
    const char *grammar, size_t grammar_size,
    const char *lines, size_t lines_size,
    char *output, size_t output_room,
    char *faults, size_t faults_room);

/* The version of the forms of trees, lines and lowered grammars in JSON (docs/use/FORMATS.md): 2. In version 1 there was no lnorm_whole and
 * no lnorm_ambiguous. */
uint32_t lnorm_form_version(void);

/* The toolchain that the sources are proved with, as its `rt version` names it: a constant of the sources, also where a library was built
 * by another one. Its line, without a line feed, is put into the buffer, as much as there is room for; the answer is the size of the
 * whole line. */
size_t lnorm_toolchain(char *line, size_t room);

#ifdef __cplusplus
}
#endif

#endif
