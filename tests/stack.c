/* How much stack each operation of both services takes, on sheets and sequences that lead through all of its code: the stack of a
 * call is filled with a pattern beforehand. Prints one table: bytes of stack, and for the operations that write, the length of the
 * longest output. Every input is given to both services, so what the hub refuses late counts too. Fails where a call takes more
 * stack, or the longest output is not as long, as the headers say. */
#define _GNU_SOURCE
#include "rulehub.h"
#include <stdio.h>
#include <stdlib.h>
#include <string.h>
#include <ucontext.h>

enum { STACK = 1 << 20, PATTERN = 0xa5, ROOM = RULESHEET_CLAUSES_ROOM };
/* What the headers say: the most stack of a call, at most 18 KB in the office and less than 8 KB in the hub, less than 16 KB for its
 * count; and the longest default sequence of the office, whose room holds longer ones, too. */
enum { OFFICE_STACK = 18 * 1024, HUB_STACK = 8 * 1024 - 1, HUB_COUNT_STACK = 16 * 1024 - 1, OFFICE_DEFAULT = 619 };

static uint8_t stack[STACK];
static ucontext_t here, there;
static void (*running)(void);

/* The functions of a service. */
struct service {
    uint32_t (*read)(const uint8_t *, size_t, uint64_t *, uint64_t *);
    uint32_t (*body)(const uint8_t *, size_t, uint64_t, uint64_t *, uint64_t *, uint64_t *);
    uint32_t (*components)(const uint8_t *, size_t, uint8_t *, size_t, uint64_t *);
    uint32_t (*default_sequence)(const uint8_t *, size_t, uint8_t *, size_t, uint64_t *);
    uint32_t (*test)(const uint8_t *, size_t, const uint8_t *, size_t);
    uint32_t (*missing)(const uint8_t *, size_t, const uint8_t *, size_t, uint8_t *, size_t, uint64_t *);
    uint32_t (*unfolded)(const uint8_t *, size_t, const uint8_t *, size_t, uint32_t *, size_t, uint64_t *);
    uint32_t (*clauses)(const uint8_t *, size_t, const uint8_t *, size_t, int32_t *, size_t, uint64_t *, uint64_t *,
                        uint64_t *);
    uint32_t (*lparse)(const uint8_t *, size_t, uint8_t *, size_t, uint64_t *);
    uint32_t (*count)(const uint8_t *, size_t, uint64_t *, uint64_t *);
};

static const struct service services[] = {
    {rulesheet_read, rulesheet_body, rulesheet_components, rulesheet_default, rulesheet_test, rulesheet_missing,
     rulesheet_unfolded, rulesheet_clauses, rulesheet_lparse, rulesheet_count},
    {rulehub_read, rulehub_body, rulehub_components, rulehub_default, rulehub_test, rulehub_missing, rulehub_unfolded,
     rulehub_clauses, rulehub_lparse, rulehub_count}};
enum { SERVICES = sizeof services / sizeof *services };

/* What a service takes: atoms, atoms in a component, entries. */
struct limits {
    int atoms, component, entries;
};
static const struct limits limits[SERVICES] = {{64, 10, 640}, {24, 4, 96}};

static const struct service *service;
static uint8_t sheet[65536], sequence[643];
static size_t sheet_len, sequence_len;
static uint32_t *out;
static uint64_t numbers[3];
static uint32_t status;

static void read_call(void) { status = service->read(sheet, sheet_len, &numbers[0], &numbers[1]); }
static void body_call(void) { status = service->body(sheet, sheet_len, 0, &numbers[0], &numbers[1], &numbers[2]); }
static void components_call(void) { status = service->components(sheet, sheet_len, (uint8_t *)out, ROOM, numbers); }
static void default_call(void) { status = service->default_sequence(sheet, sheet_len, (uint8_t *)out, ROOM, numbers); }
static void test_call(void) { status = service->test(sheet, sheet_len, sequence, sequence_len); }
static void missing_call(void) {
    status = service->missing(sheet, sheet_len, sequence, sequence_len, (uint8_t *)out, ROOM, numbers);
}
static void unfolded_call(void) {
    status = service->unfolded(sheet, sheet_len, sequence, sequence_len, out, ROOM, numbers);
}
static void clauses_call(void) {
    status = service->clauses(sheet, sheet_len, sequence, sequence_len, (int32_t *)out, ROOM, &numbers[0], &numbers[1],
                              &numbers[2]);
}
static void lparse_call(void) { status = service->lparse(sheet, sheet_len, (uint8_t *)out, ROOM, numbers); }
static void count_call(void) { status = service->count(sheet, sheet_len, &numbers[0], &numbers[1]); }
static void nothing(void) {}

static void enter(void) { running(); }

static size_t used(void (*call)(void)) {
    size_t low = 0;
    running = call;
    memset(stack, PATTERN, STACK);
    getcontext(&there);
    there.uc_stack.ss_sp = stack;
    there.uc_stack.ss_size = STACK;
    there.uc_link = &here;
    makecontext(&there, enter, 0);
    swapcontext(&here, &there);
    while (low < STACK && stack[low] == PATTERN) {
        low++;
    }
    return STACK - low;
}

enum { RULE = 0, CHOICE = 2 };

/* A rule or choice rule whose lists are the atoms of two ranges. */
static void add_record(int kind, int head, int first, int end, int neg_first, int neg_end) {
    uint8_t *record = sheet + sheet_len;
    size_t size = 0;
    record[1] = kind;
    record[2] = head;
    record[3] = end - first;
    for (int atom = first; atom < end; atom++) {
        record[4 + size++] = atom;
    }
    for (int atom = neg_first; atom < neg_end; atom++) {
        record[4 + size++] = atom;
    }
    record[0] = 3 + size;
    sheet_len += 4 + size;
    sheet[4]++;
}

static void add_rule(int head, int first, int end, int neg_first, int neg_end) {
    add_record(RULE, head, first, end, neg_first, neg_end);
}

static void begin(int atoms) {
    memset(sheet, 0, sizeof sheet);
    sheet[0] = 1;
    sheet[3] = atoms;
    sheet_len = 5;
}

static void end(void) {
    sheet[1] = sheet_len / 256;
    sheet[2] = sheet_len % 256;
}

static void set_sequence(int length) {
    sequence[0] = 1;
    sequence[1] = length / 256;
    sequence[2] = length % 256;
    sequence_len = 3 + length;
}

/* So many entries: 0 over and over, then every other atom. */
static void set_long_sequence(int atoms, int length) {
    memset(sequence, 0, sizeof sequence);
    set_sequence(length);
    for (int atom = 1; atom < atoms; atom++) {
        sequence[3 + length - atoms + atom] = atom;
    }
}

static void set_default_sequence(void) {
    rulesheet_default(sheet, sheet_len, sequence, sizeof sequence, numbers);
    sequence_len = numbers[0];
}

/* 128 rules for atom 0 with every atom in both lists, but that the first lacks its head, so that the copies keep rules; the longest
 * sequence, with as many entries 0 as can be: the longest outputs of unfolded and clauses, of sheets with choice rules too. */
static void longest(struct limits most) {
    begin(most.atoms);
    for (int rule = 0; rule < 128; rule++) {
        add_rule(0, rule == 0, most.atoms, 0, most.atoms);
    }
    end();
    set_long_sequence(most.atoms, most.entries);
}

/* The same with the most entries of the format. */
static void too_long(struct limits most) {
    longest(most);
    set_long_sequence(most.atoms, 640);
}

/* 128 rules for the last atom with every atom in both lists: the longest text. */
static void longest_text(struct limits most) {
    begin(most.atoms);
    for (int rule = 0; rule < 128; rule++) {
        add_rule(most.atoms - 1, 0, most.atoms, 0, most.atoms);
    }
    end();
    set_default_sequence();
}

/* Complete components, as large as can be, and rules that negate 16 atoms; the default sequence, of which none is longer. */
static void complete(struct limits most) {
    int size = most.component;
    begin(most.atoms);
    for (int atom = 0; atom < most.atoms; atom++) {
        int first = atom / size * size;
        add_rule(atom, first, first + size < most.atoms ? first + size : most.atoms, 0, 0);
    }
    for (int atom = 0; atom < most.atoms; atom++) {
        add_rule(atom, 0, 0, 0, 16);
    }
    end();
    set_default_sequence();
}

/* The same with the default sequence but for its first round: it lacks one chain, of all atoms of the first component. */
static void lacking(struct limits most) {
    complete(most);
    memmove(sequence + 3, sequence + 3 + most.component, sequence_len - 3 - most.component);
    set_sequence(sequence_len - 3 - most.component);
}

/* The same with no entry: it lacks every chain. */
static void empty(struct limits most) {
    complete(most);
    set_sequence(0);
}

/* 16 atoms, each derived where one of the eight behind it is not: many atoms are decided one by one. */
static void decided(struct limits most) {
    begin(most.atoms);
    for (int rule = 0; rule < 128; rule++) {
        int other = (rule % 16 + rule / 16 + 1) % 16;
        add_rule(rule % 16, 0, 0, other, other + 1);
    }
    end();
    set_long_sequence(most.atoms, most.atoms);
}

/* One written atom: as many choice rules for it as can be, and rules, so that there are as many rules as can be, all but the first
 * with the atom in both lists; the longest sequence. */
static void most_rules(struct limits most) {
    begin(1);
    for (int record = 0; record < 128; record++) {
        add_record(record < most.atoms - 1 ? CHOICE : RULE, 0, 0, record > 0, 0, 1);
    }
    end();
    set_long_sequence(most.atoms, most.entries);
}

/* Free heads, a quarter of the atoms with the fresh ones: 65,536 settled states, or 64. Rules for the other half hang on them, in
 * components of eight, or of four. */
static void chosen(struct limits most) {
    int heads = most.atoms / 4, size = most.atoms == 64 ? 8 : most.component;
    begin(3 * heads);
    for (int head = 0; head < heads; head++) {
        add_record(CHOICE, head, 0, 0, 0, 0);
    }
    for (int rule = 0; rule < 128 - heads; rule++) {
        int place = rule % (2 * heads);
        int in_component = heads + place / size * size + (place + 1) % size;
        int other = rule < 2 * heads ? in_component : rule % heads;
        add_rule(heads + place, other, other + 1, rule / 8 % heads, rule / 8 % heads + 1);
    }
    end();
    set_default_sequence();
}

/* The operations: what they write, how long their longest outputs are and the stack that they may take, in both services. */
static const struct {
    const char *name;
    void (*call)(void);
    const char *unit;
    uint64_t longest[SERVICES];
    size_t stack[SERVICES];
} calls[] = {
    {"read", read_call, NULL, {0}, {OFFICE_STACK, HUB_STACK}},
    {"body", body_call, NULL, {0}, {OFFICE_STACK, HUB_STACK}},
    {"components", components_call, "bytes", {RULESHEET_COMPONENTS_ROOM, RULEHUB_COMPONENTS_ROOM}, {OFFICE_STACK, HUB_STACK}},
    {"default", default_call, "bytes", {OFFICE_DEFAULT, RULEHUB_DEFAULT_ROOM}, {OFFICE_STACK, HUB_STACK}},
    {"test", test_call, NULL, {0}, {OFFICE_STACK, HUB_STACK}},
    {"missing", missing_call, "bytes", {RULESHEET_MISSING_ROOM, RULEHUB_MISSING_ROOM}, {OFFICE_STACK, HUB_STACK}},
    {"unfolded", unfolded_call, "words", {RULESHEET_UNFOLDED_ROOM, RULEHUB_UNFOLDED_ROOM}, {OFFICE_STACK, HUB_STACK}},
    {"clauses", clauses_call, "words", {RULESHEET_CLAUSES_ROOM, RULEHUB_CLAUSES_ROOM}, {OFFICE_STACK, HUB_STACK}},
    {"lparse", lparse_call, "bytes", {RULESHEET_LPARSE_ROOM, RULEHUB_LPARSE_ROOM}, {OFFICE_STACK, HUB_STACK}},
    {"count", count_call, NULL, {0}, {OFFICE_STACK, HUB_COUNT_STACK}}};
enum { CALLS = sizeof calls / sizeof *calls };

static void (*const inputs[])(struct limits) = {longest, too_long, longest_text, complete, lacking,
                                                empty,   decided,  most_rules,   chosen};
enum { INPUTS = sizeof inputs / sizeof *inputs };

int main(void) {
    int passed = 0, failed = 0;
    out = malloc(sizeof *out * ROOM);
    if (out == NULL) {
        return 1;
    }
    printf("%-10s %15s %15s %15s %15s\n", "", "office: stack", "hub: stack", "office: output", "hub: output");
    size_t frame = used(nothing);
    for (size_t call = 0; call < CALLS; call++) {
        size_t most[SERVICES] = {0};
        uint64_t written[SERVICES] = {0};
        for (size_t input = 0; input < SERVICES * INPUTS; input++) {
            inputs[input / SERVICES](limits[input % SERVICES]);
            for (size_t which = 0; which < SERVICES; which++) {
                service = &services[which];
                size_t size = used(calls[call].call) - frame;
                most[which] = size > most[which] ? size : most[which];
                written[which] = status == 0 && numbers[0] > written[which] ? numbers[0] : written[which];
            }
        }
        printf("%-10s %9zu bytes %9zu bytes", calls[call].name, most[0], most[1]);
        if (calls[call].unit != NULL) {
            printf(" %9llu %s %9llu %s", (unsigned long long)written[0], calls[call].unit, (unsigned long long)written[1],
                   calls[call].unit);
        }
        for (size_t which = 0; which < SERVICES; which++) {
            int right = most[which] <= calls[call].stack[which]
                        && (calls[call].unit == NULL || written[which] == calls[call].longest[which]);
            printf("%s", right ? "" : which == 0 ? "  office: not as its header says" : "  hub: not as its header says");
            passed += right;
            failed += !right;
        }
        printf("\n");
    }
    printf("stack: %d passed, %d failed\n", passed, failed);
    return failed != 0;
}
