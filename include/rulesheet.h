/* Rule sheets: normal logic programs with choice rules, in bytes. The library is librulesheet.a, for x86-64 Linux.
 *
 * Records name the written atoms, those below the sheet's number n. Each choice rule has a fresh atom of its own, numbered
 * from n on in the order of the records. Reading, bodies and the text for solvers speak of written atoms alone; components,
 * sequences, chains, the unfolded program and the clauses speak of all atoms, fresh ones included.
 *
 * Every function returns 0, or refuses with the number of the first question that is answered by no. On a refusal nothing
 * that was lent is changed. On success the numbers are stored, and of out only the first *written elements are changed.
 *
 * Lent memory does not overlap; a pointer may not be null, even with length 0. A function keeps nothing from one call to
 * the next and allocates nothing. A call takes at most 18 KB of stack: as measured, read, body, components, default
 * and lparse 5 KB, count 12 KB, test 13 KB, missing 15 KB, unfolded and clauses 16 KB. */

#ifndef RULESHEET_H
#define RULESHEET_H

#include <stddef.h>
#include <stdint.h>

#ifdef __cplusplus
extern "C" {
#endif

/* Refusals. The service inside the hub has two more: rulehub.h. */
enum rulesheet_refused {
    RULESHEET_REFUSED_VERSION = 1,    /* fewer than 5 bytes, or the version is not 1 */
    RULESHEET_REFUSED_LENGTH = 2,     /* the length field is not the number of bytes */
    RULESHEET_REFUSED_LIMITS = 3,     /* more than 64 written atoms or 128 records */
    RULESHEET_REFUSED_RECORD = 4,     /* a record is incomplete, or bytes are left over */
    RULESHEET_REFUSED_KIND = 5,       /* a record's kind or head */
    RULESHEET_REFUSED_ATOMS = 6,      /* a record's lists of atoms */
    RULESHEET_REFUSED_COMPONENT = 7,  /* a component has more than 10 atoms */
    RULESHEET_REFUSED_SEQUENCE = 8,   /* the sequence is malformed */
    RULESHEET_REFUSED_CHAIN = 9,      /* the sequence lacks a chain */
    RULESHEET_REFUSED_ROOM = 10,      /* the output does not fit */
    RULESHEET_REFUSED_NEGATED = 11,   /* more than 16 atoms are negated in rules or heads of choice rules */
    RULESHEET_REFUSED_NUMBER = 12,    /* there is no record with that number */
    RULESHEET_REFUSED_FRESH = 13,     /* more than 64 atoms, with one for each choice rule */
    RULESHEET_REFUSED_FOUND = 14      /* the sequence lacks no chain */
};

/* Verdicts on the number of settled states. */
enum rulesheet_verdict {
    RULESHEET_NONE = 0,  /* there is none */
    RULESHEET_CLEAR = 1, /* there is one */
    RULESHEET_SPLIT = 2  /* there are more */
};

/* Room in out that is enough for every legal input, in elements. Some input needs all of it, but for the default sequence:
 * the longest has 619 bytes, and 643 hold any sequence that is accepted. No sheet with choice rules needs as many words, or
 * as many bytes of text. */
#define RULESHEET_COMPONENTS_ROOM 64
#define RULESHEET_DEFAULT_ROOM 643
#define RULESHEET_MISSING_ROOM 10
#define RULESHEET_UNFOLDED_ROOM 9585475
#define RULESHEET_CLAUSES_ROOM 38190594
#define RULESHEET_LPARSE_ROOM 49088

/* Reads a sheet: its number of written atoms and its number of records. */
uint32_t rulesheet_read(const uint8_t *sheet, size_t sheet_len, uint64_t *atoms, uint64_t *records);

/* The body of one record, counted from 0, whatever its kind: its number of positive atoms, and its slice of the sheet,
 * length bytes from offset on, from the first positive atom to the last negative one, as they are written. */
uint32_t rulesheet_body(const uint8_t *sheet, size_t sheet_len, uint64_t number, uint64_t *positives, uint64_t *offset,
                        uint64_t *length);

/* Writes one byte for each atom, fresh ones included: the smallest atom of its component. A fresh atom is alone in its own. */
uint32_t rulesheet_components(const uint8_t *sheet, size_t sheet_len, uint8_t *out, size_t out_len, uint64_t *written);

/* Writes the default unfolding sequence, with its header; it names the fresh atoms, too. */
uint32_t rulesheet_default(const uint8_t *sheet, size_t sheet_len, uint8_t *out, size_t out_len, uint64_t *written);

/* Tests an unfolding sequence: 0 where every chain is found in it. Each atom is a chain, so it names every fresh atom. */
uint32_t rulesheet_test(const uint8_t *sheet, size_t sheet_len, const uint8_t *sequence, size_t sequence_len);

/* Writes the shortest chain that a sequence lacks, one byte for each of its atoms, fresh ones included; of several, the one
 * whose first differing atom is smallest. It asks what testing asks before the chains, then 14: where the sequence passes there
 * is no such chain. Then it asks for room. */
uint32_t rulesheet_missing(const uint8_t *sheet, size_t sheet_len, const uint8_t *sequence, size_t sequence_len,
                           uint8_t *out, size_t out_len, uint64_t *written);

/* Writes the unfolded program as words; out_len is the number of words lent. */
uint32_t rulesheet_unfolded(const uint8_t *sheet, size_t sheet_len, const uint8_t *sequence, size_t sequence_len,
                            uint32_t *out, size_t out_len, uint64_t *written);

/* Writes the clauses as signed words, each clause ending in 0; out_len is the number of words lent. */
uint32_t rulesheet_clauses(const uint8_t *sheet, size_t sheet_len, const uint8_t *sequence, size_t sequence_len,
                           int32_t *out, size_t out_len, uint64_t *written, uint64_t *variables, uint64_t *clauses);

/* Writes the sheet as text in the format of lparse (smodels), which answer set solvers read; out_len is the number of bytes
 * lent. Atom a is a + 2 and has the name aN, N being a in decimal; 1 is the head of constraints and must be out. A choice rule has
 * type 3, and no fresh atom is written. The text's stable models, by those names, are the settled states, cut to the written
 * atoms. It asks what reading asks, then for room; the longest text has 49,088 bytes. No byte 0 stands behind it. */
uint32_t rulesheet_lparse(const uint8_t *sheet, size_t sheet_len, uint8_t *out, size_t out_len, uint64_t *written);

/* Counts the settled states (answer sets), at most 65536, with the verdict. No two of them have the same written atoms. */
uint32_t rulesheet_count(const uint8_t *sheet, size_t sheet_len, uint64_t *count, uint64_t *verdict);

#ifdef __cplusplus
}
#endif

#endif
