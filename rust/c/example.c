/* offset - (station - start): which operand needs a pair, and what is written.
 * From the root of the repository, after `bash tools/libraries`:
 *   cc -Irust/include rust/c/example.c target/staticlib/libanswers.a -o example
 */
#include <stdio.h>
#include <string.h>
#include "tezhukor.h"

/* Of each node its form, attributes, detail, first and second operand, and symbol. */
static const uint8_t file[] = {TEZHUKOR_NONE, 5,    /* context, count */
                               5, 0, 1, 2, 3, 0,    /* - */
                               26, 0, 0, 0, 0, 1,   /* offset */
                               5, 0, 1, 4, 5, 0,    /* - */
                               26, 0, 0, 0, 0, 2,   /* station */
                               26, 0, 0, 0, 0, 3};  /* start */

/* Another tree: offset - station. */
static const uint16_t second[] = {5, 0, 1, 2, 3, 0, 26, 0, 0, 0, 0, 1, 26, 0, 0, 0, 0, 2};

/* A call of a Group over a named Field, in a sheet that was opened before our callee order. */
static const uint16_t older[] = {8, 0, 0, 2, 0, 0, 15, 0, 0, 3, 0, 0,
                                 13, 0, 0, 4, 0, 2, 26, 0, 0, 0, 0, 1};

static const char *const names[] = {"", "offset", "station", "start"};

enum {
    NODES = 5, /* of the file */
    CELLS = TEZHUKOR_NODE_CELLS * TEZHUKOR_MOST_NODES,
    ROWS = TEZHUKOR_ROW_CELLS * NODES,
    TOKENS = TEZHUKOR_TOKEN_CELLS * TEZHUKOR_TOKENS_PER_NODE * NODES,
    BYTES = TEZHUKOR_FILE_BYTES(NODES),
    SECOND_NODES = 3,
    SECOND_CELLS = TEZHUKOR_NODE_CELLS * SECOND_NODES,
    OLDER_NODES = 4,
    OLDER_CELLS = TEZHUKOR_NODE_CELLS * OLDER_NODES,
    OLDER_ROWS = TEZHUKOR_ROW_CELLS * OLDER_NODES,
    SHEET_ROWS = TEZHUKOR_ROW_CELLS * TEZHUKOR_MOST_NODES
};

static uint8_t columns[BYTES], back[BYTES];
static uint16_t table[CELLS];
static uint16_t again[CELLS];
static uint16_t sheet_rows[SHEET_ROWS];
static uint16_t seen_rows[SHEET_ROWS];

int main(void) {
    uint16_t rows[ROWS], tokens[TOKENS];
    uint8_t saved[BYTES];
    uint32_t loaded = tezhukor_load(file, sizeof file, table, CELLS);
    if (TEZHUKOR_REFUSAL(loaded) != 0) {
        printf("refused %u\n", (unsigned)TEZHUKOR_REFUSAL(loaded));
        return 1;
    }
    uint16_t context = TEZHUKOR_CONTEXT(loaded), count = TEZHUKOR_COUNT(loaded);
    size_t cells = TEZHUKOR_NODE_CELLS * (size_t)count;
    if (tezhukor_decide(context, count, table, cells, rows, ROWS) != 0) return 1;
    for (unsigned node = 1; node <= count; node++)
        if (rows[TEZHUKOR_ROW_CELLS * (node - 1)] & 1) printf("node %u needs a pair\n", node);
    uint64_t reply = tezhukor_write(context, count, table, cells, tokens, TOKENS);
    uint32_t written = TEZHUKOR_TOKENS(reply);
    if (TEZHUKOR_WRITE_REFUSAL(reply) != 0) return 1;
    printf("tokens");
    for (uint32_t at = 0; at < written; at++) {
        const uint16_t *token = &tokens[TEZHUKOR_TOKEN_CELLS * at];
        if (token[1] != 0) printf(" %s", names[token[1]]);
        else printf(" %u", (unsigned)token[0]);
    }
    printf(", pairs %u\n", (unsigned)TEZHUKOR_PAIRS(reply));
    uint32_t nodes = tezhukor_read(context, tokens, TEZHUKOR_TOKEN_CELLS * written, again, CELLS);
    int same = nodes == count && memcmp(table, again, 2 * cells) == 0;
    printf("read back %s\n", same ? "the same" : "another");
    /* A struct (46) in a condition, without its pair and with it. */
    const uint16_t bare[] = {46, 0}, grouped[] = {35, 0, 46, 0, 36, 0};
    printf("refused %u, read %u node\n",
           (unsigned)TEZHUKOR_REFUSAL(tezhukor_read(TEZHUKOR_CONDITION, bare, 2, again, CELLS)),
           (unsigned)tezhukor_read(TEZHUKOR_CONDITION, grouped, 6, again, CELLS));
    /* The file's nodes are numbered from the root on, so saving gives its own bytes. */
    uint32_t bytes = tezhukor_save(context, count, table, cells, saved, BYTES);
    printf("saved %u bytes, compared %u\n", (unsigned)bytes,
           (unsigned)tezhukor_compare(file, sizeof file, saved, bytes));
    /* Rearranged for the store, put back, and loaded as it is stored. */
    uint32_t stored = tezhukor_to_columns(file, sizeof file, columns, BYTES);
    uint32_t restored = tezhukor_from_columns(columns, stored, back, BYTES);
    int own = restored == sizeof file && memcmp(file, back, sizeof file) == 0;
    uint32_t reloaded = tezhukor_load_columns(columns, stored, again, CELLS);
    printf("stored %u bytes, put back %s, loaded %s\n", (unsigned)stored,
           own ? "the same" : "others", reloaded == loaded ? "alike" : "otherwise");
    /* A first form below 0. */
    columns[2] = 1;
    printf("refused %u\n",
           (unsigned)TEZHUKOR_REFUSAL(tezhukor_load_columns(columns, stored, again, CELLS)));
    /* The minus, 1, has the level of sums and leans left. */
    uint16_t minus = tezhukor_binding(1);
    printf("level %u, lean %u\n", (unsigned)TEZHUKOR_LEVEL(minus), (unsigned)TEZHUKOR_LEAN(minus));
    /* Without a buffer: told, and nothing followed. */
    printf("refused %u\n", (unsigned)tezhukor_decide(context, count, table, cells, NULL, 0));
    printf("refused %u\n", (unsigned)TEZHUKOR_REFUSAL(tezhukor_load(NULL, 0, NULL, 0)));
    /* `start` gives way to `offset - station` in the sheet, which has room for it: first
     * beside it, then in it. */
    uint32_t seen = tezhukor_preview(context, count, TEZHUKOR_OUR_ORDER, table, CELLS, sheet_rows,
                                     SHEET_ROWS, NODES, context, SECOND_NODES, second,
                                     SECOND_CELLS, again, CELLS, seen_rows, SHEET_ROWS);
    uint32_t edited = tezhukor_edit(context, count, TEZHUKOR_OUR_ORDER, table, CELLS, sheet_rows,
                                    SHEET_ROWS, NODES, context, SECOND_NODES, second, SECOND_CELLS);
    int as_seen = edited == seen && memcmp(table, again, 2 * TEZHUKOR_NODE_CELLS * edited) == 0;
    printf("edited %u nodes, %s\n", (unsigned)edited, as_seen ? "as seen before" : "otherwise");
    for (unsigned node = 1; node <= edited; node++)
        if (sheet_rows[TEZHUKOR_ROW_CELLS * (node - 1)] & 1) printf("node %u needs a pair\n", node);
    /* `(offset - station) ? start`, whose operator is one from `+` to `*`, and then `+` or `-`. */
    const uint16_t draft[] = {5, 0, 0, 2, 3, 0, 5, 0, 1, 4, 5, 0, 26, 0, 0, 0, 0, 3,
                              26, 0, 0, 0, 0, 1, 26, 0, 0, 0, 0, 2};
    const uint16_t wide[] = {1, 0, 2}, narrow[] = {1, 0, 1};
    uint16_t told[NODES];
    tezhukor_decide_open(TEZHUKOR_NONE, NODES, TEZHUKOR_OUR_ORDER, draft, 6 * NODES, 1, wide,
                         TEZHUKOR_ENTRY_CELLS, told, NODES);
    printf("the left operand's pair: %s, ", told[1] == TEZHUKOR_DEPENDS ? "depends" : "does not");
    tezhukor_decide_open(TEZHUKOR_NONE, NODES, TEZHUKOR_OUR_ORDER, draft, 6 * NODES, 1, narrow,
                         TEZHUKOR_ENTRY_CELLS, told, NODES);
    printf("then %s\n", told[1] == TEZHUKOR_NEVER ? "never" : "otherwise");
    /* Once carried, the callee has a pair; carried again, the sheet stays as it is. */
    uint16_t older_rows[OLDER_ROWS] = {0};
    uint32_t carried = tezhukor_carry(TEZHUKOR_NONE, OLDER_NODES, TEZHUKOR_CRATES_ORDER, older,
                                      OLDER_CELLS, older_rows, OLDER_ROWS);
    printf("carried %u, pair of the callee %u\n", (unsigned)carried,
           (unsigned)older_rows[TEZHUKOR_ROW_CELLS]);
    older_rows[TEZHUKOR_ROW_CELLS] = 9;
    tezhukor_carry(TEZHUKOR_NONE, OLDER_NODES, TEZHUKOR_OUR_ORDER, older, OLDER_CELLS, older_rows,
                   OLDER_ROWS);
    printf("carried again, left %u\n", (unsigned)older_rows[TEZHUKOR_ROW_CELLS]);
    return same ? 0 : 1;
}
