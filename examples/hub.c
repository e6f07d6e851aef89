/* Sheet A inside the hub: its default sequence, its clauses and its settled states; and a sheet and a sequence that the hub does not
 * take. */
#include "rulehub.h"
#include <stdio.h>

int main(void) {
    const uint8_t sheet[] = {1, 0, 25, 3, 4, 4, 0, 0, 1, 1, 4, 0, 1, 1, 0, 4, 0, 0, 0, 2, 4, 0, 2, 0, 0};
    const uint8_t large[] = {1, 0, 5, 25, 0};       /* 25 atoms, no record */
    const uint8_t long_sequence[100] = {1, 0, 97}; /* 97 entries, all of them 0 */
    uint8_t sequence[RULEHUB_DEFAULT_ROOM];
    int32_t words[1024];
    uint64_t written, variables, clauses, count, verdict, atoms, records;

    if (rulehub_default(sheet, sizeof sheet, sequence, sizeof sequence, &written) != 0) {
        return 1;
    }
    printf("default sequence:");
    for (uint64_t i = 3; i < written; i++) {
        printf(" %d", sequence[i]);
    }
    if (rulehub_clauses(sheet, sizeof sheet, sequence, written, words, 1024, &written, &variables, &clauses) != 0) {
        return 1;
    }
    printf("\nclauses: %d over %d variables\n", (int)clauses, (int)variables);
    if (rulehub_count(sheet, sizeof sheet, &count, &verdict) != 0) {
        return 1;
    }
    printf("settled states: %d, verdict %d\n", (int)count, (int)verdict);
    if (rulehub_read(large, sizeof large, &atoms, &records) == RULEHUB_REFUSED_LARGE) {
        printf("25 atoms: refused %d\n", RULEHUB_REFUSED_LARGE);
    }
    if (rulehub_test(sheet, sizeof sheet, long_sequence, sizeof long_sequence) == RULEHUB_REFUSED_LONG) {
        printf("97 entries: refused %d\n", RULEHUB_REFUSED_LONG);
    }
    printf("no bytes: refused %u\n", rulehub_count(sheet, 0, &count, &verdict));
    return 0;
}
