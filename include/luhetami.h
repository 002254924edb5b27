/*
 * Luhetami: a verified expander of VRML97 prototypes, by its C interface.
 *
 * Link libluhetami.a, which `runner/library` builds into target/staticlib (x86-64). Its functions:
 *
 *     luhetami_read_lines     lines of text to the rows of a sheet
 *     luhetami_expand         a sheet with prototypes to one without
 *     luhetami_write_lines    rows of a sheet to lines of text
 *     luhetami_moving         counts of legs to moving totals
 *     luhetami_pages          an expanded document and its ledger to pages of text
 *     luhetami_count          expanded documents to a count for each type name
 *     luhetami_check          whether a sheet fits a form, and the first row that doesn't
 *
 * Rules for all of them:
 *
 * - A row is eight words (uint32_t); a sheet is rows one after the other. A length counts elements: words for uint32_t and
 *   uint64_t, bytes for uint8_t.
 * - No pointer is NULL, with length 0 neither, and each is aligned for its type. No slice takes more than PTRDIFF_MAX bytes,
 *   and one that is written (those without const) overlaps no other slice of the call. The proofs take this for granted, and
 *   nothing else: every content, every length and every limit is answered, and every call returns.
 * - Nothing is allocated, kept between calls or read from elsewhere. Calls in several threads with slices of their own do
 *   not disturb each other. A call nests as deep as max_depth and takes less than 4 KiB of stack for each level: 2 MiB
 *   suffice for 512 (measured, not proved).
 * - The result is the refusal, 0 where the call is accepted; of luhetami_check it is 1 where the sheet fits and 0 where it
 *   doesn't. The same number is the first word of answer. An answer that is too short is refused (1, 12, 14, 17, 27 or 29, by
 *   function; 0 by luhetami_check) before anything else, and then no word of it is written.
 * - Where a call is refused, every lent slice keeps its words, but for answer, and work.
 */
#ifndef LUHETAMI_H
#define LUHETAMI_H

#include <stddef.h>
#include <stdint.h>

#ifdef __cplusplus
extern "C" {
#endif

/* In a sheet: no name, no id. Names and ids are below it. */
#define LUHETAMI_NONE UINT32_C(4294967295)

/* What a row takes: words in a sheet, bytes in a text. */
#define LUHETAMI_ROW_WORDS ((size_t)8)
#define LUHETAMI_ROW_BYTES ((size_t)89)

/* The caps: the most that a limit may be, and the most rows that a sheet handed to luhetami_expand may have. */
#define LUHETAMI_MOST_NODES UINT32_C(4000000)
#define LUHETAMI_MOST_DEPTH UINT32_C(512)
#define LUHETAMI_MOST_ROWS UINT32_C(16777216)
#define LUHETAMI_MOST_SHEET_ROWS UINT32_C(1048576)

/* The words that luhetami_expand needs, by its limits. More may be lent. */
#define LUHETAMI_OUT_WORDS(max_rows) ((size_t)8 * (max_rows))
#define LUHETAMI_LEDGER_WORDS(max_nodes) ((size_t)3 * (max_nodes))
#define LUHETAMI_SCOPES_WORDS(max_rows) ((size_t)5 * (max_rows))
#define LUHETAMI_WORK_WORDS(max_depth, max_rows) ((size_t)16 * (max_rows) + (size_t)64 * ((size_t)(max_depth) + 1))

/*
 * Refusals. "first" and "second" are the place numbers that come with one; where nothing is said, they are 0. A sheet is
 * 0, the root, or 1, the library. A document is 0, the root, or n, the n-th file of the library. Rows, lines and ids count
 * from 0.
 */
enum luhetami_refusal {
    LUHETAMI_ACCEPTED = 0,

    /* luhetami_expand, before the first step, in this order */
    LUHETAMI_SHORT = 1,     /* a limit over its cap, or out, ledger, scopes, work or answer too short */
    LUHETAMI_LENGTH = 2,    /* a sheet's words are no multiple of 8, or it has over 1,048,576 rows */
    LUHETAMI_MALFORMED = 3, /* a malformed sheet; first: the sheet, second: the first row that doesn't fit, or the row count
                               where the sheet ends early */

    /* luhetami_expand, at the first step that meets one */
    LUHETAMI_DANGLING_EXTERN = 4, /* no such EXTERNPROTO; first: the document, second: the id */
    LUHETAMI_DANGLING_NODE = 5,   /* no such node; first: the document, second: the id */
    LUHETAMI_DANGLING_PROTO = 6,  /* no such PROTO; first: the document, second: the id */
    LUHETAMI_ROOTLESS = 7,        /* a PROTO's body has no node; first: the document, second: the PROTO's id */
    LUHETAMI_NODES = 8,           /* more than max_nodes nodes */
    LUHETAMI_DEPTH = 9,           /* nested deeper than max_depth */
    LUHETAMI_ROWS = 10,           /* more than max_rows charges */
    /* 11 is not used: it stood for scopes without room for a further entry, and 5 * max_rows words always have it */

    /* luhetami_read_lines */
    LUHETAMI_LINES_LENGTH = 12, /* bytes no multiple of 89, more rows than words holds, more than 4,294,967,295 lines,
                                   or answer too short */
    LUHETAMI_BAD_LINE = 13,     /* a bad line; its number is the place */

    /* luhetami_write_lines */
    LUHETAMI_WORDS_LENGTH = 14, /* words no multiple of 8, lines too short, more than 48,258,059 rows, or answer too
                                   short */

    /* luhetami_count, in this order */
    LUHETAMI_COUNT_LISTS = 17,     /* a protocol other than 1 or 2, over 4,096 protocols, a repeated name, over 64 names,
                                      totals too short, or answer too short */
    LUHETAMI_COUNT_MALFORMED = 18, /* no expanded documents one after another, not as many as protocols, or work too
                                      short */

    /* luhetami_moving, in this order */
    LUHETAMI_WIDTH = 25,     /* a width outside 1 to 64 */
    LUHETAMI_COUNT = 26,     /* a count over 4,294,967,295 */
    LUHETAMI_FEW_TOTALS = 27, /* totals too short, or answer too short */

    /* luhetami_pages, in this order */
    LUHETAMI_PAGES_MALFORMED = 28, /* no expanded document, a ledger not of three words a node, or work too short */
    LUHETAMI_PAGES_BYTES = 29      /* text too short, or answer too short */
};

/* The words of answer. */
#define LUHETAMI_EXPAND_ANSWER ((size_t)7) /* refusal, first place, second place, nodes, scopes, charges, rows of out */
#define LUHETAMI_LINES_ANSWER ((size_t)3)  /* refusal, place, count */
#define LUHETAMI_MOVING_ANSWER ((size_t)4) /* refusal, totals, largest, place */
#define LUHETAMI_PAGES_ANSWER ((size_t)2)  /* refusal, bytes */
#define LUHETAMI_COUNT_ANSWER ((size_t)2)  /* refusal, totals */
#define LUHETAMI_CHECK_ANSWER ((size_t)2)  /* 1 or 0, row */

/* The most legs that a moving total is of, and the largest count of a leg. */
#define LUHETAMI_MOST_WIDTH UINT32_C(64)
#define LUHETAMI_MOST_COUNT UINT64_C(4294967295)

/* The totals that luhetami_moving writes, for a width of 1 to 64: one for each leg from the width-th on. More may be lent. */
#define LUHETAMI_TOTALS(counts_len, width) ((counts_len) < (size_t)(width) ? (size_t)0 : (counts_len) - (size_t)(width) + 1)

/* A page: its lines, the bytes of a line with its end, and the nodes that it has room for. */
#define LUHETAMI_PAGE_LINES ((size_t)60)
#define LUHETAMI_LINE_BYTES ((size_t)73)
#define LUHETAMI_PAGE_NODES ((size_t)59)

/* What luhetami_pages needs: bytes of text for so many nodes, words of work for so many words of a document. More may be lent. */
#define LUHETAMI_PAGES_TEXT(nodes) (((size_t)(nodes) + 58) / 59 * 60 * 73)
#define LUHETAMI_PAGES_WORK(document_len) ((size_t)16 * ((size_t)(document_len) / 8))

/* The most documents of luhetami_count, the most names, and the words of work that it needs for so many words of documents. */
#define LUHETAMI_MOST_DOCUMENTS ((size_t)4096)
#define LUHETAMI_MOST_NAMES ((size_t)64)
#define LUHETAMI_COUNT_WORK(documents_len) ((size_t)16 * ((size_t)(documents_len) / 8))

/*
 * Expands the prototypes of a scene.
 *
 * root        one document, of root_len words. It is only read.
 * library     any number of files, each a row of kind 12 with the file's base and then its document. May be empty. Of
 *             several files with the same base the last is used. It is only read, and may be the same words as root.
 * max_nodes   N, the most nodes in the output; at most 4,000,000.
 * max_depth   D, how deep copies may nest; at most 512.
 * max_rows    K, the most charges. Each row of the output is charged, and each map entry, scope, stored value and binding
 *             besides; the output has at most as many rows as charges. At most 16,777,216.
 * out         8 * K words. Accepted: the rows of the expanded document, answer[6] of them. Of an extern's urls (kind 10) the one
 *             that supplied its prototype has 1 in column c, its fourth word, every other 0. In root and library all have 0
 *             there, so an output with a 1 is no root sheet.
 * ledger      3 * N words. Accepted: for each node of the output, in the order of its id, the scope, document and source id
 *             that it was copied from; answer[3] triples.
 * scopes      5 * K words. Accepted: for each scope, in the order of opening, its kind (0 root, 1 body, 2 default),
 *             document, PROTO id, interface index and opening scope, 0 where one does not apply; answer[4] entries.
 * work        16 * K + 64 * (D + 1) words, used by the call. What it holds before doesn't matter, and nothing is said of
 *             what it holds after.
 * answer      7 words: refusal, first place, second place, nodes, scopes, charges, rows of out. Refused, the counts are 0.
 *             Words past the seventh stay.
 *
 * Accepted, the words of out, ledger and scopes past what is written stay. Refused (1 to 10), all of their words stay.
 */
uint32_t luhetami_expand(const uint32_t *root, size_t root_len,
                         const uint32_t *library, size_t library_len,
                         uint32_t max_nodes, uint32_t max_depth, uint32_t max_rows,
                         uint32_t *out, size_t out_len,
                         uint32_t *ledger, size_t ledger_len,
                         uint32_t *scopes, size_t scopes_len,
                         uint32_t *work, size_t work_len,
                         uint32_t *answer, size_t answer_len);

/*
 * Reads lines: a row is eight numbers without leading zeros, each right-justified with spaces in 11 bytes, then byte 10.
 *
 * lines       the text, of lines_len bytes: 89 for each row. It is only read.
 * words       8 words for each row, or more. Accepted: the rows; words past them stay. Refused, all stay.
 * answer      3 words: refusal, place (the bad line's number for 13, else 0), row count (0 where refused). More than
 *             4,294,967,295 lines, which no uint32_t counts, are refused with 12. Words past the third stay.
 */
uint32_t luhetami_read_lines(const uint8_t *lines, size_t lines_len,
                             uint32_t *words, size_t words_len,
                             uint32_t *answer, size_t answer_len);

/*
 * Writes lines.
 *
 * words       the rows, of words_len words: 8 for each row. They are only read.
 * lines       89 bytes for each row, or more. Accepted: the text; bytes past it stay. Refused, all stay.
 * answer      3 words: refusal, place (0), byte count (0 where refused). More than 48,258,059 rows, whose
 *             bytes no uint32_t counts, are refused with 14: write them in several calls. Words past the third stay.
 */
uint32_t luhetami_write_lines(const uint32_t *words, size_t words_len,
                              uint8_t *lines, size_t lines_len,
                              uint32_t *answer, size_t answer_len);

/*
 * Moving totals of a run of legs: for each leg from the width-th on, the total of its count and of the width - 1 before it.
 *
 * counts      the count of each leg, in order; at most 4,294,967,295 each. They are only read. A run may be of any length, and
 *             empty. One that is shorter than the width has no totals.
 * width       how many legs are taken together, 1 to 64.
 * totals      LUHETAMI_TOTALS(counts_len, width) words, or more. Accepted: the totals, answer[1] of them; words past them stay.
 *             Refused, all stay. Each total is below 2 to the power of 38.
 * answer      4 words: refusal, totals, the largest of them, its first place among them, from 0. Both are 0 where there are no
 *             totals; refused, all three are 0. The largest is that of the legs answer[3] to answer[3] + width - 1, from 0.
 *             Words past the fourth stay.
 *
 * Refused, in this order: 25, 26, 27. No work is needed; the time is in proportion to the legs, whatever the width.
 */
uint32_t luhetami_moving(const uint64_t *counts, size_t counts_len,
                         uint32_t width,
                         uint64_t *totals, size_t totals_len,
                         uint64_t *answer, size_t answer_len);

/*
 * Pages for the logbook: for each node of an expanded document, in the order of its id, a line of six numbers.
 *
 * A page is 60 lines of 72 bytes and a line end, byte 10. The first has the page number, from 1, right-justified in 72 bytes. Each
 * further one has six numbers right-justified in 12 bytes: node id, scope, document, source id, type name, DEF name. The last is
 * blank where the node has none. The last page is filled with blank lines. For no nodes there is no page.
 *
 * document    an expanded document, as luhetami_expand writes one or anybody else. It is only read; no row cap binds it.
 * ledger      three words for each node of the document, no more and no less: scope, document, source id. They are printed as they
 *             are. It is only read.
 * text        LUHETAMI_PAGES_TEXT(nodes) bytes, or more. Accepted: the pages, answer[1] bytes; bytes past them stay. Refused, all
 *             stay.
 * work        LUHETAMI_PAGES_WORK(document_len) words, or more; nothing is said of what it holds after. Less is refused with 28.
 * answer      2 words: refusal, bytes (0 where refused). Words past the second stay.
 *
 * A document of more than 4,294,967,295 nodes is refused with 28: an id is below LUHETAMI_NONE.
 */
uint32_t luhetami_pages(const uint32_t *document, size_t document_len,
                        const uint32_t *ledger, size_t ledger_len,
                        uint8_t *text, size_t text_len,
                        uint32_t *work, size_t work_len,
                        uint64_t *answer, size_t answer_len);

/* What a sheet is to be, for luhetami_check. */
enum luhetami_form {
    LUHETAMI_FORM_ROOT = 0,      /* one document */
    LUHETAMI_FORM_LIBRARY = 1,   /* any number of files, each a row of kind 12 and a document */
    LUHETAMI_FORM_EXPANDED = 2,  /* an expanded document */
    LUHETAMI_FORM_DOCUMENTS = 3, /* any number of expanded documents, one after another: each begins at a row of kind 1 */
    LUHETAMI_FORM_PROTOS = 4     /* any number of protos: each a row of kind 7 and its interfaces, no body statements */
};

/*
 * Whether a sheet fits a form, and where it ceases to.
 *
 * words       the sheet, of words_len words. It is only read; no row cap binds it.
 * form        one of enum luhetami_form. No sheet fits another number: the answer is 0 and row 0.
 * answer      2 words: 1 where the sheet fits, else 0; the row, from 0: the first that does not fit, the number of whole rows where
 *             the sheet ends early, or where every whole row fits and words are left over; 0 where it fits. Words past the second stay.
 *
 * The result is the first word of answer. An answer of fewer than two words gives 0, and none is written. No work is needed; the
 * time is in proportion to the rows.
 */
uint32_t luhetami_check(const uint32_t *words, size_t words_len,
                        uint32_t form,
                        uint64_t *answer, size_t answer_len);

/*
 * Counts the nodes of each type name over expanded documents, under two protocols.
 *
 * A node is reached from the top Node statements of its document, by the ids in values of fields and interfaces; an id that leads
 * nowhere leads to no node, and extra roots, associations and the ends of routes are not followed. Protocol 1 counts every mention
 * of a node: each top Node statement, and each id in a value of a reached node. Protocol 2 counts each reached node once. For any
 * document and name the count under 2 is at most that under 1.
 *
 * documents   expanded documents one after another, each from a row of kind 1 on; as luhetami_expand writes one or anybody else.
 *             May be empty. They are only read; no row cap binds them.
 * protocols   1 or 2 for each document, at most 4,096. They are only read.
 * names       the type names to be counted, no two the same, at most 64. They are only read. May be empty; LUHETAMI_NONE is a name
 *             that no node has.
 * totals      a word for each name, or more. Accepted: the total of each name over all documents; words past them stay. Refused,
 *             all stay. A total is at most the number of rows of documents.
 * work        LUHETAMI_COUNT_WORK(documents_len) words, or more; nothing is said of what it holds after. Less is refused with 18.
 * answer      2 words: refusal, totals (0 where refused). Words past the second stay.
 *
 * Refused, in this order: 17, 18. The time is in proportion to the rows of documents, and for each reached node to the names.
 */
uint32_t luhetami_count(const uint32_t *documents, size_t documents_len,
                        const uint32_t *protocols, size_t protocols_len,
                        const uint32_t *names, size_t names_len,
                        uint64_t *totals, size_t totals_len,
                        uint32_t *work, size_t work_len,
                        uint64_t *answer, size_t answer_len);

#ifdef __cplusplus
}
#endif

#endif
