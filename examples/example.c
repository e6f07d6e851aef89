/* Sheet A from C: its default sequence, the chain that a shorter one lacks, its clauses and its settled states; and a sheet with a
 * choice rule, also as text. */
#include "rulesheet.h"
#include <stdio.h>

int main(void) {
    const uint8_t sheet[] = {1, 0, 25, 3, 4, 4, 0, 0, 1, 1, 4, 0, 1, 1, 0, 4, 0, 0, 0, 2, 4, 0, 2, 0, 0};
    const uint8_t shorter[] = {1, 0, 3, 0, 1, 2}; /* a sequence: 0 1 2 */
    const uint8_t window[] = {1, 0, 9, 1, 1, 3, 2, 0, 0}; /* atom 0, a window's contact, may be in or not */
    uint8_t sequence[RULESHEET_DEFAULT_ROOM];
    uint8_t chain[RULESHEET_MISSING_ROOM];
    uint8_t text[RULESHEET_LPARSE_ROOM];
    int32_t words[16384];
    uint64_t written, atoms, variables, clauses, count, verdict;

    if (rulesheet_default(sheet, sizeof sheet, sequence, sizeof sequence, &written) != 0) {
        return 1;
    }
    printf("default sequence:");
    for (uint64_t i = 3; i < written; i++) {
        printf(" %d", sequence[i]);
    }
    printf("\ntest: %u\n", rulesheet_test(sheet, sizeof sheet, sequence, written));
    if (rulesheet_missing(sheet, sizeof sheet, shorter, sizeof shorter, chain, sizeof chain, &atoms) != 0) {
        return 1;
    }
    printf("missing from 0 1 2:");
    for (uint64_t i = 0; i < atoms; i++) {
        printf(" %d", chain[i]);
    }
    printf("\nmissing from the default sequence: refused %u\n",
           rulesheet_missing(sheet, sizeof sheet, sequence, written, chain, sizeof chain, &atoms));
    if (rulesheet_clauses(sheet, sizeof sheet, sequence, written, words, 16384, &written, &variables, &clauses) != 0) {
        return 1;
    }
    printf("clauses: %d over %d variables\n", (int)clauses, (int)variables);
    if (rulesheet_count(sheet, sizeof sheet, &count, &verdict) != 0) {
        return 1;
    }
    printf("settled states: %d, verdict %d\n", (int)count, (int)verdict);
    if (rulesheet_count(window, sizeof window, &count, &verdict) != 0) {
        return 1;
    }
    printf("with a choice rule: %d, verdict %d\n", (int)count, (int)verdict);
    if (rulesheet_lparse(window, sizeof window, text, sizeof text, &written) != 0) {
        return 1;
    }
    printf("for a solver:\n%.*s", (int)written, (const char *)text);
    printf("no bytes: refused %u\n", rulesheet_count(sheet, 0, &count, &verdict));
    return 0;
}
