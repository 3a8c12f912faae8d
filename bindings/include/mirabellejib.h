/* Shortening payoffs. docs/EMBEDDING.md says what each function promises.
 *
 * Every pointer is the first of so many items as the length behind it says. A pointer may be anything but null where the
 * length is 0. Slices do not overlap, but for those that are only read. Nothing else is asked of the caller: whatever the
 * bytes and numbers are, a function answers, or refuses with the number of a fault and leaves the memory as it was.
 */
#ifndef MIRABELLEJIB_H
#define MIRABELLEJIB_H

#include <stddef.h>
#include <stdint.h>

#ifdef __cplusplus
extern "C" {
#endif

/* Options, added up. What the payoff's engine knows: */
#define MIRABELLEJIB_TEMPLATES 1u /* template literals */
#define MIRABELLEJIB_POWER 2u     /* the operator ** */
/* Which of the language's own names something else binds where the payoff runs; see mirabellejib_binds. */
#define MIRABELLEJIB_BINDS_UNDEFINED 4u
#define MIRABELLEJIB_BINDS_MATH 8u
#define MIRABELLEJIB_BINDS_ARRAY 16u

/* The bytes of a node's record. */
#define MIRABELLEJIB_RECORD 20u

/* What became of a payoff. */
typedef struct {
    uint32_t fault;    /* 0, or the number of the fault */
    uint32_t layer;    /* the layer that refused, or 0 */
    uint32_t node;     /* the node that the fault names, or 0 */
    uint32_t rewrites; /* how many rewrites were made, also before a fault */
    uint32_t rounds;   /* in how many rounds; 0 where a fault ended them */
    uint32_t left;     /* 1 where places stayed unvisited for being too far down, else 0 */
    uint32_t root;     /* the number of the payoff's root */
    size_t nodes;      /* how many records, list entries and bytes of text there are; none where the file was refused */
    size_t entries;
    size_t text;
} mirabellejib_report;

/* What was written. */
typedef struct {
    size_t len;     /* how many bytes; 0 where a fault is told */
    uint32_t fault; /* 0, or the number of the fault */
} mirabellejib_written;

/* The option that a name in scope adds, or 0 for a name that is none of the language's own that are asked about. */
uint32_t mirabellejib_binds(const uint8_t *name, size_t name_len);

/* Asks everything of a payoff's file that is asked before it is loaded, and tells how much it holds. */
mirabellejib_report mirabellejib_check(const uint8_t *file, size_t file_len);

/* Shortens the payoff of a file, by what its nodes say of themselves. What is left stands at the front of the memory:
 * the records of its nodes, 20 bytes each, its list entries and its text, as a file has them. */
mirabellejib_report mirabellejib_shorten(const uint8_t *file, size_t file_len, uint32_t options,
                                         uint8_t *records, size_t records_len,
                                         uint32_t *entries, size_t entries_len,
                                         uint8_t *text, size_t text_len);

/* The same, by a table with a byte for each node of the file. */
mirabellejib_report mirabellejib_shorten_by_table(const uint8_t *file, size_t file_len,
                                                  const uint8_t *rows, size_t rows_len, uint32_t options,
                                                  uint8_t *records, size_t records_len,
                                                  uint32_t *entries, size_t entries_len,
                                                  uint8_t *text, size_t text_len);

/* Writes the raw template text of a text, or the text that raw template text cooks to. */
mirabellejib_written mirabellejib_escape(const uint8_t *text, size_t text_len, uint8_t *out, size_t out_len);
mirabellejib_written mirabellejib_cook(const uint8_t *raw, size_t raw_len, uint8_t *out, size_t out_len);

#ifdef __cplusplus
}
#endif

#endif
