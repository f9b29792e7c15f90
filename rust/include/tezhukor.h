/* Where a printed Rust expression needs parentheses: the functions of libanswers.a.
 *
 * Build it with `bash tools/libraries` and link target/staticlib/libanswers.a.
 *
 * Each function is total: no argument is wrong, and a refusal is a reply. A length is
 * a number of elements. Buffers of one call must not overlap; a pointer whose length
 * is 0 is not followed. On a refusal every lent cell keeps its contents, otherwise
 * cells past the answer keep theirs. No function keeps a pointer, allocates, or has
 * state: any number of threads may call them.
 *
 * Refusals, of which the first that applies is told:
 *    1 the tree file is longer than 65,536 bytes
 *    2 a header number is malformed
 *    3 the context is above 3
 *    4 the node count is 0 or above 4,096, or the table is shorter than that many nodes
 *    5 a number of a node is malformed, or bytes follow the last one
 *    6 a form, attribute or detail number is not allowed, or a symbol is not 0 on a node
 *      that has none
 *    7 an operand is absent, present or of the wrong class, or node 1 is no expression
 *    8 an operand's number is not above its owner's or is above the count, or a node
 *      is not owned exactly once
 *    9 a path type has no segment, or a list of bounds is empty
 *   10 a closure with a written output has another body than a bare block
 *   11 a path from the root holds more than 128 nodes
 *   12 a lent buffer is too short
 *   13 the tree is not plain, or the context is neither 0 nor 3; the reader tells it
 *      straight after 3
 *   14 the token list has more than 24,576 tokens, an odd number of cells, a code above
 *      46, or a symbol that is not 0 on a token that has none
 *   15 the plain grammar gives the tokens no reading
 *   16 the reading needs more than 4,096 nodes, or a path of more than 128
 *   17 the named node is absent or is no expression
 *   18 the edited tree would have more than 4,096 nodes, a path of more than 128, or a
 *      closure with a written output over another body than a bare block
 *   19 a form or operand restored from the columns falls outside 0 to 65,535; told
 *      straight after 5
 *   20 more than three operators are left open
 *   21 a node whose operator is left open is absent or no Binary, or is named twice
 *   22 of an operator that is left open the lowest is above the highest, or the highest
 *      above 27
 */
#ifndef TEZHUKOR_H
#define TEZHUKOR_H

#include <stddef.h>
#include <stdint.h>

#ifdef __cplusplus
extern "C" {
#endif

/* The contexts of a root: an expression of its own, the beginning of a statement, a match
 * arm, a condition. Plain tokens are written and read in the first and the last. */
enum {
    TEZHUKOR_NONE = 0,
    TEZHUKOR_STATEMENT = 1,
    TEZHUKOR_MATCH_ARM = 2,
    TEZHUKOR_CONDITION = 3
};

/* The callee orders that an open sheet can hold: which rule comes first where a Call tells
 * whether its callee needs a pair. In the crate's a Field goes by its member alone and anything
 * else by its precedence; in ours the precedence comes first, and then whether it is a named
 * Field, also in Groups. Sheets that were opened before there was ours hold the crate's until
 * they are carried. Any number but 0 is ours; tezhukor_decide takes ours. */
enum {
    TEZHUKOR_CRATES_ORDER = 0,
    TEZHUKOR_OUR_ORDER = 1
};

/* Whether an expression has an outer pair, where operators are not chosen yet: for no choice,
 * for every choice, or for some. */
enum {
    TEZHUKOR_NEVER = 0,
    TEZHUKOR_ALWAYS = 1,
    TEZHUKOR_DEPENDS = 2
};

/* Cells that a node takes in a table and in rows, and tokens at the most;
 * cells that a token takes. */
#define TEZHUKOR_NODE_CELLS 6
#define TEZHUKOR_ROW_CELLS 5
#define TEZHUKOR_TOKENS_PER_NODE 6
#define TEZHUKOR_TOKEN_CELLS 2
#define TEZHUKOR_MOST_NODES 4096
#define TEZHUKOR_MOST_TOKENS 24576

/* Operators that can be left open at most, and cells that each entry takes. */
#define TEZHUKOR_MOST_ENTRIES 3
#define TEZHUKOR_ENTRY_CELLS 3

/* Bytes that are enough for the saved, put back or rearranged file of so many nodes: three
 * for the header, and of each node one for form, attributes and detail, two for an operand,
 * three for the symbol. */
#define TEZHUKOR_FILE_BYTES(nodes) (3 + 10 * (size_t)(nodes))

/* The refusal in a reply of load, save, compare, read, edit, preview and carry; 0 if
 * there is none. */
#define TEZHUKOR_REFUSAL(reply) ((uint16_t)((reply) >> 16))
/* Without a refusal: the context and the count in a reply of load. */
#define TEZHUKOR_CONTEXT(reply) ((uint16_t)((reply) / 8192))
#define TEZHUKOR_COUNT(reply) ((uint16_t)((reply) % 8192))

/* Loads a tree file into a table, six cells a node: form, attributes, detail, first,
 * second, symbol. Symbols are for Path, Lit, Field, MethodCall and path types with a
 * segment, and 0 elsewhere; files of five numbers a node are no longer read. Replies the
 * refusal times 65,536 (1 to 11), or the context times 8,192 and the count. */
uint32_t tezhukor_load(const uint8_t *file, size_t file_length, uint16_t *table,
                       size_t table_length);

/* Saves the tree of a table as a tree file, its nodes numbered from the root on, the
 * first operand's before the second's: one file for one context and tree. Replies the
 * refusal times 65,536 (3, 4, 6 to 11, then 12 for a buffer shorter than the file), or
 * the number of bytes. */
uint32_t tezhukor_save(uint16_t context, uint16_t count, const uint16_t *table,
                       size_t table_length, uint8_t *file, size_t file_length);

/* Compares two tree files: contexts, then nodes in turn, number by number. Replies the
 * refusal times 65,536 (1 to 11 of the first, then of the second), or 0 where the
 * first comes before the second, 1 where they are equal, 2 where it comes after. */
uint32_t tezhukor_compare(const uint8_t *first, size_t first_length, const uint8_t *second,
                          size_t second_length);

/* Decides the rows of a table, five cells a node: pair (1 outer, plus 2 inner),
 * precedence, previous operator, next operator, flags; zeros for types and links.
 * Replies 0 or the refusal (3, 4, 6 to 12). */
uint16_t tezhukor_decide(uint16_t context, uint16_t count, const uint16_t *table,
                         size_t table_length, uint16_t *rows, size_t rows_length);

/* Writes the tokens of a plain table in context 0 or 3, two cells a token: its code, and the
 * symbol of its node on names (32), literals (33) and numbered members (44), else 0.
 * Twelve cells a node must be lent. Replies the refusal times 2^32 (3, 4, 6 to 13), or the
 * number of pairs that were added times 65,536 and the number of tokens. The pairs are the
 * rows whose outer pair is 1. Of a tree without Parens in context 0, no way of putting pairs
 * round its operands that reads back as it has fewer. */
#define TEZHUKOR_WRITE_REFUSAL(reply) ((uint16_t)((reply) >> 32))
#define TEZHUKOR_PAIRS(reply) ((uint16_t)((reply) >> 16))
#define TEZHUKOR_TOKENS(reply) ((uint16_t)(reply))
uint64_t tezhukor_write(uint16_t context, uint16_t count, const uint16_t *table,
                        size_t table_length, uint16_t *tokens, size_t tokens_length);

/* Reads a token list in context 0 or 3, two cells a token and so many cells as
 * tokens_length says, into a table with room for the most nodes; a name's, a literal's and
 * a numbered member's symbol stands on the node that it names. In context 3 a struct (46)
 * outside every parenthesis, bracket and argument list has no reading. Replies the refusal
 * times 65,536 (3, then 13, then 12, then 14 to 16), or the number of nodes.
 * It was measured to take up to 644 KiB of stack, for the longest lists (docs/PERFORMANCE.md). */
uint32_t tezhukor_read(uint16_t context, const uint16_t *tokens, size_t tokens_length,
                       uint16_t *table, size_t table_length);

/* How an operator binds: its level, the precedence from Jump 0 to Unambiguous 15, times
 * 4, plus which way it leans: 0 left, 1 right, 2 neither. Operators are 0 to 27, as in
 * a Binary's detail, 28 for `=` and 29 for a Range's. Replies 65,535 for any other
 * number. */
#define TEZHUKOR_NO_OPERATOR 65535
#define TEZHUKOR_LEVEL(binding) ((uint16_t)((binding) / 4))
#define TEZHUKOR_LEAN(binding) ((uint16_t)((binding) % 4))
uint16_t tezhukor_binding(uint16_t operator_number);

/* Edits an open sheet, which is a context, a count, a callee order, a table and its rows: what
 * stands at the node, with all under it, is replaced by the second tree. The result is numbered
 * as a saved tree; its nodes go into the table and its rows, worked out afresh in the sheet's
 * order whatever rows were lent, into the rows. The sheet's context and order stay, the second
 * tree's context is checked and not used. Node 1 may be named. None of the buffers may overlap another, so a tree is not
 * put into a sheet from the sheet's own table. Replies the refusal times 65,536 (3, 4, 6 to
 * 11 of the sheet, then of the second tree, 17, 18, and last 12, for a table or rows too
 * short for the result), or the result's count. */
uint32_t tezhukor_edit(uint16_t context, uint16_t count, uint16_t order, uint16_t *table,
                       size_t table_length, uint16_t *rows, size_t rows_length, uint16_t node,
                       uint16_t second_context, uint16_t second_count,
                       const uint16_t *second, size_t second_length);

/* Looks before the edit: what it would give on a copy of the sheet in buffers as long as
 * the sheet's own. The result's table and rows go into two more buffers; 12 is told, last,
 * where these are too short for it as well. The sheet is only read, so the next preview
 * sees it as it is. Replies as tezhukor_edit does. */
uint32_t tezhukor_preview(uint16_t context, uint16_t count, uint16_t order,
                          const uint16_t *table, size_t table_length,
                          const uint16_t *rows, size_t rows_length, uint16_t node,
                          uint16_t second_context, uint16_t second_count,
                          const uint16_t *second, size_t second_length,
                          uint16_t *result_table, size_t result_table_length,
                          uint16_t *result_rows, size_t result_rows_length);

/* Carries an open sheet to our callee order. The tree stays, with its numbers. If the sheet
 * holds the crate's order, its rows become those of a fresh walk in ours, whatever they were;
 * a sheet that holds ours is left as it is, whatever its rows are. Replies the refusal times
 * 65,536 (3, 4, 6 to 11, and last 12, for rows too short for the count, in either order), or 1:
 * from then on the sheet holds our order. */
uint32_t tezhukor_carry(uint16_t context, uint16_t count, uint16_t order, const uint16_t *table,
                        size_t table_length, uint16_t *rows, size_t rows_length);

/* Rearranges a tree file by columns: the header, then all forms, each as its difference
 * from the one before, the first from 0; all attributes; all details; all first operands and
 * all second ones, each as its distance from its owner, or 0 when absent; all symbols. A
 * difference d is held as 2 * d when it is not negative and as -2 * d - 1 otherwise. The
 * bytes do not tell which kind a file is. Replies the refusal times 65,536 (1 to 11, then 12
 * for a buffer shorter than the bytes to be written), or the number of bytes; of this and the
 * next two TEZHUKOR_REFUSAL takes the refusal. */
uint32_t tezhukor_to_columns(const uint8_t *file, size_t file_length, uint8_t *columns,
                             size_t columns_length);

/* Puts a rearranged file back: the bytes of the tree file that it comes from. Replies the
 * refusal times 65,536 (1 to 5, 19, 6 to 11, then 12), or the number of bytes. */
uint32_t tezhukor_from_columns(const uint8_t *columns, size_t columns_length, uint8_t *file,
                               size_t file_length);

/* Loads a rearranged file into a table. Replies as tezhukor_load does, with 19 straight
 * after 5. */
uint32_t tezhukor_load_columns(const uint8_t *columns, size_t columns_length, uint16_t *table,
                               size_t table_length);

/* Decides which pairs stand while operators are not chosen yet. There are `entered` entries,
 * three cells each: a Binary's number, and the lowest and the highest operator that may be
 * chosen there, both included; the operator that the table holds there plays no part. Of each
 * node, one cell of answers says whether it has an outer pair for no choice of operators at all
 * entries, for every choice or for some; 0 for types and links. Without entries that is the
 * row's outer pair. The pairs are those of the callee order. Replies 0 or the refusal (3, 4, 6
 * to 11, then 12 for fewer answers than nodes or fewer cells than the entries take, 20, 21 and
 * 22, each over all entries before the next). */
uint16_t tezhukor_decide_open(uint16_t context, uint16_t count, uint16_t order,
                              const uint16_t *table, size_t table_length, uint16_t entered,
                              const uint16_t *entries, size_t entries_length,
                              uint16_t *answers, size_t answers_length);

#ifdef __cplusplus
}
#endif

#endif
