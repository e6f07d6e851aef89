/* Rule sheets inside the hub, whose memory is small. The library is librulehub.a, for x86-64 Linux.
 *
 * The functions are those of rulesheet.h, with rulehub_ before their names: what that header says of rulesheet_read holds of
 * rulehub_read, and so on, but for stack and room, which stand here. Only its refusals and verdicts are used; librulesheet.a is not
 * needed.
 *
 * The hub takes at most 24 atoms, fresh ones included, at most 4 atoms in a component, and at most 96 entries in a sequence. So it has
 * two refusals more. Where it does not refuse by one of these, it answers and writes what librulesheet.a does.
 *
 * A call takes less than 8 KB of stack, and count less than 16 KB: as measured, unfolded and clauses 7.7 KB, count 12 KB, all others
 * 5.5 KB at most. */

#ifndef RULEHUB_H
#define RULEHUB_H

#include "rulesheet.h"

#ifdef __cplusplus
extern "C" {
#endif

/* Refusals beside those of rulesheet.h. 15 is asked directly after 7, and 16 directly after 8. */
enum rulehub_refused {
    RULEHUB_REFUSED_LARGE = 15, /* more than 24 atoms, with one for each choice rule, or a component has more than 4 */
    RULEHUB_REFUSED_LONG = 16   /* the sequence has more than 96 entries */
};

/* Room in out that is enough for every legal input, in elements. Some input needs all of it. No sheet with choice rules needs as
 * many words, or as many bytes of text. */
#define RULEHUB_COMPONENTS_ROOM 24
#define RULEHUB_DEFAULT_ROOM 99
#define RULEHUB_MISSING_ROOM 4
#define RULEHUB_UNFOLDED_ROOM 460971
#define RULEHUB_CLAUSES_ROOM 1824866
#define RULEHUB_LPARSE_ROOM 17960

uint32_t rulehub_read(const uint8_t *sheet, size_t sheet_len, uint64_t *atoms, uint64_t *records);
uint32_t rulehub_body(const uint8_t *sheet, size_t sheet_len, uint64_t number, uint64_t *positives, uint64_t *offset,
                      uint64_t *length);
uint32_t rulehub_components(const uint8_t *sheet, size_t sheet_len, uint8_t *out, size_t out_len, uint64_t *written);
uint32_t rulehub_default(const uint8_t *sheet, size_t sheet_len, uint8_t *out, size_t out_len, uint64_t *written);
uint32_t rulehub_test(const uint8_t *sheet, size_t sheet_len, const uint8_t *sequence, size_t sequence_len);
uint32_t rulehub_missing(const uint8_t *sheet, size_t sheet_len, const uint8_t *sequence, size_t sequence_len, uint8_t *out,
                         size_t out_len, uint64_t *written);
uint32_t rulehub_unfolded(const uint8_t *sheet, size_t sheet_len, const uint8_t *sequence, size_t sequence_len,
                          uint32_t *out, size_t out_len, uint64_t *written);
uint32_t rulehub_clauses(const uint8_t *sheet, size_t sheet_len, const uint8_t *sequence, size_t sequence_len, int32_t *out,
                         size_t out_len, uint64_t *written, uint64_t *variables, uint64_t *clauses);
uint32_t rulehub_lparse(const uint8_t *sheet, size_t sheet_len, uint8_t *out, size_t out_len, uint64_t *written);
uint32_t rulehub_count(const uint8_t *sheet, size_t sheet_len, uint64_t *count, uint64_t *verdict);

#ifdef __cplusplus
}
#endif

#endif
