/*
 * A C caller of the bench, the converters, the longest chain and the lock, by the
 * header alone: the paper's listing, refusals, what is left in store and output, a
 * task tied to a worker, locks that nobody owns, the listing moved to the other form
 * and back, longest chains, some turns of the lock, and the stack that the header names.
 * Buffers are taken from the heap in their exact sizes, so that a memory checker
 * sees a step past their ends.
 */
#include "salfunye.h"

#include <pthread.h>
#include <stdio.h>
#include <stdlib.h>
#include <string.h>

static int failures = 0;

#define EXPECT(fact)                                                       \
    do {                                                                   \
        if (!(fact)) {                                                     \
            failures++;                                                    \
            fprintf(stderr, "%s:%d: not so: %s\n", __FILE__, __LINE__, #fact); \
        }                                                                  \
    } while (0)

static const char listing[] = "W\t2\nT\ta\t0\nP\t1\t3\nP\t0\t5\nP\t1\t4\nP\t0\t2\n";
static const char report[] = "E\tfinished\t14\t2\nT\t0\ta\tover\t0\t13\t14\t1\nL\t66\t66\t1\n";

/* the listing in a ring of two slots, with queues of one place; and a slot too few */
static const char two_slots[] = "W\t2\t2\t1\nT\ta\t0\nP\t1\t3\nP\t0\t5\nP\t1\t4\nP\t0\t2\n";
static const char two_slots_report[] = "E\tfinished\t14\t2\nT\t0\ta\tover\t0\t13\t14\t1\nL\t4\t4\t1\n";
/* the listing with the sizes of the first form spelled out */
static const char moved[] = "W\t2\t64\t8\nT\ta\t0\nP\t1\t3\nP\t0\t5\nP\t1\t4\nP\t0\t2\n";
static const char few_slots[] = "W\t2\t1\t8\n";
/* a task for worker 3 alone, with two owners before the one whose front waiter is worker 3; and one for nobody */
static const char tied[] = "W\t4\nT\ta\t5\nM\t8\nP\t0\t3\nP\t1\t3\nP\t2\t2\nP\t0\t2\nP\t3\t2\nP\t1\t6\nP\t2\t7\nP\t0\t7\nP\t3\t10\n";
static const char tied_report[] = "E\tfinished\t39\t1\nT\t0\ta\tover\t3\t33\t39\t0\nL\t68\t68\t0\n";
static const char nobody[] = "W\t4\nT\ta\t0\nM\t0\nR\t1\n";
/* worker 1 serves worker 0, which doesn't look, and leaves with pick 14; then it takes the next ticket */
static const char unseen[] = "W\t2\nT\ta\t0\nP\t1\t3\nP\t0\t5\nP\t1\t7\n";
static const char free_report[] = "E\topen\t14\t2\nT\t0\ta\theld\t-\t-\t-\t1\nL\t66\t67\t-\n";
static const char spoken_for_report[] = "E\topen\t15\t2\nT\t0\ta\theld\t-\t-\t-\t1\nL\t67\t67\t>1\n";

/* two halves that cost the same, and tasks without cost: one before them and one behind the join */
static const char halves[] = "W\t3\nT\ta\t0\tw1\nT\tb\t5\tr1\tw2\nT\tc\t5\tr1\tw3\nT\td\t30\tr2\tr3\tw4\nT\te\t0\tr4\nR\t90\n";
static const char halves_chain[] = "35\t0\t1\t3\n";

static void *taken(size_t size) {
    void *room = malloc(size > 0 ? size : 1);
    if (room == NULL) {
        fputs("no memory\n", stderr);
        exit(2);
    }
    return room;
}

/* Checks a text, which stays as it is. */
static struct salfunye_checked check(const char *text, size_t size) {
    uint8_t *plan = taken(size);
    memcpy(plan, text, size);

    struct salfunye_checked checked = salfunye_check(plan, size);

    EXPECT(memcmp(plan, text, size) == 0);
    free(plan);
    return checked;
}

/* Runs a text on used buffers of these lengths, and looks at all that is left. */
static struct salfunye_ran run(const char *text, size_t size, uint64_t limit, size_t store_length, size_t output_length,
                               const char *expected) {
    uint8_t *plan = taken(size);
    uint64_t *store = taken(store_length * sizeof *store);
    uint8_t *output = taken(output_length);
    memcpy(plan, text, size);
    for (size_t i = 0; i < store_length; i++) store[i] = ~(uint64_t)i;
    memset(output, '#', output_length);

    struct salfunye_ran ran = salfunye_run(plan, size, limit, store, store_length, output, output_length);

    bool untouched = ran.number == SALFUNYE_TEXT_TOO_LONG || ran.number == SALFUNYE_STORE_TOO_SHORT;
    size_t cleared = untouched ? 0 : SALFUNYE_STORE_SIZE;
    for (size_t i = 0; i < store_length; i++) EXPECT(store[i] == (i < cleared ? 0 : ~(uint64_t)i));
    size_t length = expected == NULL ? 0 : strlen(expected);
    EXPECT(ran.length == length);
    EXPECT(length <= output_length && memcmp(output, expected == NULL ? "" : expected, length) == 0);
    for (size_t i = length; i < output_length; i++) EXPECT(output[i] == '#');
    free(output);
    free(store);
    free(plan);
    return ran;
}

static void bench(void) {
    size_t size = strlen(listing), length = strlen(report);
    struct salfunye_checked checked = check(listing, size);
    EXPECT(checked.number == SALFUNYE_ACCEPTED && checked.line == 0 && checked.looks == size);
    checked = check("W\t1\nT\ta\t0\tr5\tr5\n", 16);
    EXPECT(checked.number == SALFUNYE_ADDRESS_TWICE && checked.line == 2 && checked.looks == 16);
    checked = check("W\t1\nT\ta\t0\tr5\tr5\nR\t1\n", 20);
    EXPECT(checked.number == SALFUNYE_ADDRESS_TWICE && checked.line == 2 && checked.looks == 16);
    checked = check("W\t1\n\nR\t1\n", 9);
    EXPECT(checked.number == SALFUNYE_MALFORMED && checked.line == 2 && checked.looks == 5);
    checked = check(listing, size - 1);
    EXPECT(checked.number == SALFUNYE_MALFORMED && checked.line == 6 && checked.looks == size - 1);
    checked = check("", 0);
    EXPECT(checked.number == SALFUNYE_MISPLACED && checked.line == 1 && checked.looks == 0);
    checked = check(few_slots, strlen(few_slots));
    EXPECT(checked.number == SALFUNYE_TOO_FEW_SLOTS && checked.line == 1 && checked.looks == 8);
    EXPECT(SALFUNYE_TOO_FEW_SLOTS == 9);
    checked = check(tied, strlen(tied));
    EXPECT(checked.number == SALFUNYE_ACCEPTED && checked.line == 0 && checked.looks == strlen(tied));
    checked = check(nobody, strlen(nobody));
    EXPECT(checked.number == SALFUNYE_EMPTY_MASK && checked.line == 3 && checked.looks == 14);
    EXPECT(SALFUNYE_EMPTY_MASK == 11);
    checked = check("W\t4\nT\ta\t0\nM\t16\n", 15);
    EXPECT(checked.number == SALFUNYE_OUT_OF_RANGE && checked.line == 3 && checked.looks == 15);
    checked = check("W\t4\nM\t0\nT\ta\t0\n", 14);
    EXPECT(checked.number == SALFUNYE_MISPLACED && checked.line == 2 && checked.looks == 8);

    struct salfunye_ran ran = run(listing, size, UINT64_MAX, SALFUNYE_STORE_SIZE, length, report);
    EXPECT(ran.number == 0 && ran.line == 0 && ran.picks == 14);
    ran = run(listing, size, 14, SALFUNYE_STORE_SIZE + 9, SALFUNYE_REPORT_SIZE, report);
    EXPECT(ran.number == 0 && ran.picks == 14);
    ran = run(listing, size, 1, SALFUNYE_STORE_SIZE, 100, "E\topen\t1\t2\nT\t0\ta\tnew\t-\t-\t-\t-\nL\t65\t65\t>1\n");
    EXPECT(ran.number == 0 && ran.picks == 1);
    ran = run(listing, size, 3, SALFUNYE_STORE_SIZE, 100, "E\topen\t3\t2\nT\t0\ta\tnew\t-\t-\t-\t-\nL\t65\t65\t1\n");
    EXPECT(ran.number == 0 && ran.picks == 3);
    ran = run(listing, size, UINT64_MAX, SALFUNYE_STORE_SIZE, length - 1, NULL);
    EXPECT(ran.number == SALFUNYE_OUTPUT_TOO_SHORT && ran.line == 0 && ran.picks == 0);
    ran = run(listing, size, UINT64_MAX, SALFUNYE_STORE_SIZE - 1, length, NULL);
    EXPECT(ran.number == SALFUNYE_STORE_TOO_SHORT && ran.line == 0);
    ran = run(listing, size - 1, UINT64_MAX, SALFUNYE_STORE_SIZE, length, NULL);
    EXPECT(ran.number == SALFUNYE_MALFORMED && ran.line == 6);
    ran = run(two_slots, strlen(two_slots), UINT64_MAX, SALFUNYE_STORE_SIZE, 100, two_slots_report);
    EXPECT(ran.number == 0 && ran.line == 0 && ran.picks == 14);
    ran = run(few_slots, strlen(few_slots), UINT64_MAX, SALFUNYE_STORE_SIZE, 100, NULL);
    EXPECT(ran.number == SALFUNYE_TOO_FEW_SLOTS && ran.line == 1 && ran.picks == 0);
    ran = run(tied, strlen(tied), UINT64_MAX, SALFUNYE_STORE_SIZE, strlen(tied_report), tied_report);
    EXPECT(ran.number == 0 && ran.line == 0 && ran.picks == 39);
    ran = run(nobody, strlen(nobody), UINT64_MAX, SALFUNYE_STORE_SIZE, 100, NULL);
    EXPECT(ran.number == SALFUNYE_EMPTY_MASK && ran.line == 3 && ran.picks == 0);
    ran = run(unseen, strlen(unseen), 14, SALFUNYE_STORE_SIZE, strlen(free_report), free_report);
    EXPECT(ran.number == 0 && ran.line == 0 && ran.picks == 14);
    ran = run(unseen, strlen(unseen), UINT64_MAX, SALFUNYE_STORE_SIZE, strlen(spoken_for_report), spoken_for_report);
    EXPECT(ran.number == 0 && ran.line == 0 && ran.picks == 15);
    ran = run(unseen, strlen(unseen), UINT64_MAX, SALFUNYE_STORE_SIZE, strlen(spoken_for_report) - 1, NULL);
    EXPECT(ran.number == SALFUNYE_OUTPUT_TOO_SHORT && ran.line == 0 && ran.picks == 0);

    char *large = taken(SALFUNYE_TEXT_SIZE + 1);
    memset(large, 'W', SALFUNYE_TEXT_SIZE + 1);
    checked = check(large, SALFUNYE_TEXT_SIZE + 1);
    EXPECT(checked.number == SALFUNYE_TEXT_TOO_LONG && checked.line == 0 && checked.looks == 0);
    checked = check(large, SALFUNYE_TEXT_SIZE);
    EXPECT(checked.number == SALFUNYE_MALFORMED && checked.line == 1 && checked.looks == SALFUNYE_TEXT_SIZE);
    ran = run(large, SALFUNYE_TEXT_SIZE + 1, 0, 0, 0, NULL);
    EXPECT(ran.number == SALFUNYE_TEXT_TOO_LONG && ran.line == 0);
    ran = run(large, SALFUNYE_TEXT_SIZE, 0, SALFUNYE_STORE_SIZE, 0, NULL);
    EXPECT(ran.number == SALFUNYE_MALFORMED && ran.line == 1);
    free(large);
}

typedef struct salfunye_written tool(const uint8_t *, size_t, uint8_t *, size_t);

/* Gives a text and a used output of this length to a tool, and looks at all that is left. */
static struct salfunye_written use(tool *used, const char *text, size_t size, size_t output_length, const char *expected) {
    uint8_t *plan = taken(size);
    uint8_t *output = taken(output_length);
    memcpy(plan, text, size);
    memset(output, '#', output_length);

    struct salfunye_written written = used(plan, size, output, output_length);

    EXPECT(memcmp(plan, text, size) == 0);
    size_t length = written.number == 0 ? strlen(expected) : 0;
    EXPECT(written.length == length);
    EXPECT(length <= output_length && memcmp(output, expected, length) == 0);
    for (size_t i = length; i < output_length; i++) EXPECT(output[i] == '#');
    free(output);
    free(plan);
    return written;
}

/* A plan of the first form of so many bytes, at least 4; the room has one byte more, for an end as strings have it. */
static char *sized(size_t size) {
    char *text = taken(size + 1);
    memcpy(text, "W\t1\n", 4);
    size_t filled = 4;
    for (; filled + 8 <= size; filled += 4) memcpy(text + filled, "R\t1\n", 4);
    if (filled < size) memcpy(text + filled, "R\t1000", size - filled);
    text[size - 1] = '\n';
    text[size] = '\0';
    return text;
}

static void converters(void) {
    size_t first = strlen(listing), second = strlen(moved);
    for (size_t more = 0; more < 3; more++) {
        struct salfunye_written written = use(salfunye_to_second, listing, first, second + more, moved);
        EXPECT(written.number == SALFUNYE_ACCEPTED && written.line == 0);
        written = use(salfunye_to_first, moved, second, first + more, listing);
        EXPECT(written.number == SALFUNYE_ACCEPTED && written.line == 0);
        written = use(salfunye_to_second, moved, second, second + more, moved);
        EXPECT(written.number == SALFUNYE_ACCEPTED && written.line == 0);
        written = use(salfunye_to_first, listing, first, first + more, listing);
        EXPECT(written.number == SALFUNYE_ACCEPTED && written.line == 0);
    }
    for (size_t less = 1; less <= first; less += first - 1) {
        struct salfunye_written written = use(salfunye_to_second, listing, first, second - less, "");
        EXPECT(written.number == SALFUNYE_OUTPUT_TOO_SHORT && written.line == 0);
        written = use(salfunye_to_first, moved, second, first - less, "");
        EXPECT(written.number == SALFUNYE_OUTPUT_TOO_SHORT && written.line == 0);
    }

    /* 10 comes before a short output and behind what the reader refuses */
    struct salfunye_written written = use(salfunye_to_first, two_slots, strlen(two_slots), 0, "");
    EXPECT(written.number == SALFUNYE_OTHER_SIZES && written.line == 1);
    EXPECT(SALFUNYE_OTHER_SIZES == 10);
    written = use(salfunye_to_first, "W\t2\t64\t9\n", 9, 100, "");
    EXPECT(written.number == SALFUNYE_OTHER_SIZES && written.line == 1);
    written = use(salfunye_to_first, "W\t2\t63\t8\n", 9, 100, "");
    EXPECT(written.number == SALFUNYE_OTHER_SIZES && written.line == 1);
    written = use(salfunye_to_first, two_slots, strlen(two_slots) - 1, 100, "");
    EXPECT(written.number == SALFUNYE_MALFORMED && written.line == 6);
    written = use(salfunye_to_second, two_slots, strlen(two_slots), 100, two_slots);
    EXPECT(written.number == SALFUNYE_ACCEPTED);
    written = use(salfunye_to_first, few_slots, strlen(few_slots), 100, "");
    EXPECT(written.number == SALFUNYE_TOO_FEW_SLOTS && written.line == 1);
    written = use(salfunye_to_first, nobody, strlen(nobody), 100, "");
    EXPECT(written.number == SALFUNYE_EMPTY_MASK && written.line == 3);
    written = use(salfunye_to_first, tied, strlen(tied), strlen(tied), tied);
    EXPECT(written.number == SALFUNYE_ACCEPTED);
    written = use(salfunye_to_second, "", 0, 0, "");
    EXPECT(written.number == SALFUNYE_MISPLACED && written.line == 1);

    /* 6 is by the result, which has 5 bytes more, and comes before 8 */
    for (size_t size = SALFUNYE_TEXT_SIZE - 5; size <= SALFUNYE_TEXT_SIZE + 1; size++) {
        char *text = sized(size), *result = taken(size + 6);
        sprintf(result, "W\t1\t64\t8%s", text + 3);
        bool fits = size + 5 <= SALFUNYE_TEXT_SIZE;
        written = use(salfunye_to_second, text, size, fits ? size + 5 : 0, result);
        EXPECT(written.number == (fits ? SALFUNYE_ACCEPTED : SALFUNYE_TEXT_TOO_LONG) && written.line == 0);
        written = use(salfunye_to_first, text, size, size, text);
        EXPECT(written.number == (size <= SALFUNYE_TEXT_SIZE ? SALFUNYE_ACCEPTED : SALFUNYE_TEXT_TOO_LONG));
        free(result);
        free(text);
    }
}

static void chain(void) {
    size_t size = strlen(halves), length = strlen(halves_chain);
    for (size_t more = 0; more < 3; more++) {
        struct salfunye_written written = use(salfunye_chain, halves, size, length + more, halves_chain);
        EXPECT(written.number == SALFUNYE_ACCEPTED && written.line == 0);
    }
    for (size_t less = 1; less <= length; less++) {
        struct salfunye_written written = use(salfunye_chain, halves, size, length - less, "");
        EXPECT(written.number == SALFUNYE_OUTPUT_TOO_SHORT && written.line == 0);
    }

    /* one task, whoever may run it, and none */
    struct salfunye_written written = use(salfunye_chain, listing, strlen(listing), SALFUNYE_CHAIN_SIZE, "0\t0\n");
    EXPECT(written.number == SALFUNYE_ACCEPTED);
    written = use(salfunye_chain, moved, strlen(moved), SALFUNYE_CHAIN_SIZE, "0\t0\n");
    EXPECT(written.number == SALFUNYE_ACCEPTED);
    written = use(salfunye_chain, tied, strlen(tied), 4, "5\t0\n");
    EXPECT(written.number == SALFUNYE_ACCEPTED);
    written = use(salfunye_chain, "W\t2\nR\t9\n", 8, 2, "0\n");
    EXPECT(written.number == SALFUNYE_ACCEPTED);
    written = use(salfunye_chain, "W\t2\nR\t9\n", 8, 1, "");
    EXPECT(written.number == SALFUNYE_OUTPUT_TOO_SHORT && written.line == 0);

    /* what the reader refuses comes before a short output */
    written = use(salfunye_chain, halves, size - 1, 0, "");
    EXPECT(written.number == SALFUNYE_MALFORMED && written.line == 7);
    written = use(salfunye_chain, few_slots, strlen(few_slots), 100, "");
    EXPECT(written.number == SALFUNYE_TOO_FEW_SLOTS && written.line == 1);
    written = use(salfunye_chain, nobody, strlen(nobody), 100, "");
    EXPECT(written.number == SALFUNYE_EMPTY_MASK && written.line == 3);
    written = use(salfunye_chain, "", 0, 0, "");
    EXPECT(written.number == SALFUNYE_MISPLACED && written.line == 1);
    for (size_t more = 0; more < 2; more++) {
        char *text = sized(SALFUNYE_TEXT_SIZE + more);
        written = use(salfunye_chain, text, SALFUNYE_TEXT_SIZE + more, 2, "0\n");
        EXPECT(written.number == (more == 0 ? SALFUNYE_ACCEPTED : SALFUNYE_TEXT_TOO_LONG) && written.line == 0);
        free(text);
    }

    /* the longest line: all tasks write one address, and cost what a task may */
    char *text = taken(SALFUNYE_TEXT_SIZE), *line = taken(SALFUNYE_CHAIN_SIZE + 1);
    size = (size_t)sprintf(text, "W\t1\n");
    length = (size_t)sprintf(line, "128000");
    for (unsigned i = 0; i < 128; i++) {
        size += (size_t)sprintf(text + size, "T\ta\t1000\tw1\n");
        length += (size_t)sprintf(line + length, "\t%u", i);
    }
    length += (size_t)sprintf(line + length, "\n");
    EXPECT(length == SALFUNYE_CHAIN_SIZE);
    written = use(salfunye_chain, text, size, SALFUNYE_CHAIN_SIZE, line);
    EXPECT(written.number == SALFUNYE_ACCEPTED && written.line == 0);
    written = use(salfunye_chain, text, size, SALFUNYE_CHAIN_SIZE - 1, "");
    EXPECT(written.number == SALFUNYE_OUTPUT_TOO_SHORT && written.line == 0);
    free(line);
    free(text);
}

/* 32 workers, 128 tasks of four accesses, each for one worker alone where it has a mask: every array of a run is in use.
 * `sizes` is what the W line has besides. */
static void busy(const char *sizes, bool masks) {
    char *text = taken(SALFUNYE_TEXT_SIZE);
    size_t size = (size_t)sprintf(text, "W\t32%s\n", sizes);
    for (unsigned i = 0; i < 128; i++) {
        size += (size_t)sprintf(text + size, "T\tabcdefghijklmnop\t%u\tr%u\tw%u\tr%u\tw%u\n", i % 40, i % 5, 10 + i % 7, 20 + i % 3, 30 + i % 11);
        if (masks) size += (size_t)sprintf(text + size, "M\t%u\n", 1u << i * 7 % 32);
    }
    size += (size_t)sprintf(text + size, "P\t0\t900\nS\t18446744073709551615\t20000\nR\t100000\n");
    uint64_t *store = taken(SALFUNYE_STORE_SIZE * sizeof *store);
    uint8_t *output = taken(SALFUNYE_REPORT_SIZE);
    memset(store, 0xff, SALFUNYE_STORE_SIZE * sizeof *store);
    struct salfunye_ran ran = salfunye_run((const uint8_t *)text, size, UINT64_MAX, store, SALFUNYE_STORE_SIZE, output, SALFUNYE_REPORT_SIZE);
    EXPECT(ran.number == 0 && ran.length <= SALFUNYE_REPORT_SIZE);
    EXPECT(memcmp(output, "E\tfinished\t", 11) == 0);
    free(output);
    free(store);
    free(text);
}

static void lock(void) {
    enum { SLOTS = 4, WORKERS = 2 };
    uint64_t wait[SLOTS], registrations[SLOTS], tickets[WORKERS], tasks[WORKERS];
    struct salfunye_lock_ends ends = salfunye_lock_start(SLOTS, wait, SLOTS, registrations, SLOTS, tickets, WORKERS, tasks, WORKERS);
    EXPECT(ends.ok == 1 && ends.head == SLOTS && ends.tail == SLOTS + 1);
    EXPECT(salfunye_lock_is_free(ends.head, ends.tail));
    struct salfunye_lock_taken one = salfunye_lock_take_ticket(ends.head, ends.tail);
    EXPECT(one.ok == 1 && one.ticket == SLOTS);
    EXPECT(salfunye_lock_register(SLOTS, registrations, SLOTS, one.ticket, 0));
    struct salfunye_lock_answer look = salfunye_lock_look(SLOTS, wait, SLOTS, tickets, WORKERS, tasks, WORKERS, one.ticket, 0);
    EXPECT(look.kind == 3);
    struct salfunye_lock_taken two = salfunye_lock_take_ticket(one.head, one.tail);
    EXPECT(salfunye_lock_register(SLOTS, registrations, SLOTS, two.ticket, 1));
    look = salfunye_lock_look(SLOTS, wait, SLOTS, tickets, WORKERS, tasks, WORKERS, two.ticket, 1);
    EXPECT(look.kind == 1);
    struct salfunye_lock_answer front = salfunye_lock_front_waiter(SLOTS, two.head, two.tail, registrations, SLOTS);
    EXPECT(front.kind == 2 && front.value == 1);
    EXPECT(salfunye_lock_fill(two.head, two.tail, tickets, WORKERS, tasks, WORKERS, 1, 77));
    struct salfunye_lock_handed handed = salfunye_lock_hand_over(SLOTS, two.head, two.tail, wait, SLOTS, registrations, SLOTS, 0);
    EXPECT(handed.ok == 1 && handed.head == two.head && handed.tail == two.tail + 1);
    EXPECT(handed.kind == 2 && handed.let_in == 1 && handed.by == 0);
    look = salfunye_lock_look(SLOTS, wait, SLOTS, tickets, WORKERS, tasks, WORKERS, two.ticket, 1);
    EXPECT(look.kind == 2 && look.value == 77);
    handed = salfunye_lock_hand_over(SLOTS, handed.head, handed.tail, wait, SLOTS, registrations, SLOTS, 0);
    EXPECT(handed.ok == 1 && handed.kind == 1 && handed.let_in == 0 && handed.by == 0);
    EXPECT(salfunye_lock_is_free(handed.head, handed.tail));

    /* worker 1 owns and leaves twice; at the last hand-over slot 0 still has worker 0's registration, a lap old */
    for (int i = 0; i < 2; i++) {
        one = salfunye_lock_take_ticket(handed.head, handed.tail);
        EXPECT(salfunye_lock_register(SLOTS, registrations, SLOTS, one.ticket, 1));
        look = salfunye_lock_look(SLOTS, wait, SLOTS, tickets, WORKERS, tasks, WORKERS, one.ticket, 1);
        EXPECT(look.kind == 3);
        handed = salfunye_lock_hand_over(SLOTS, one.head, one.tail, wait, SLOTS, registrations, SLOTS, 1);
        EXPECT(handed.ok == 1 && handed.kind == 1 && handed.let_in == 0 && handed.by == 1);
    }
    EXPECT(handed.tail == 2 * SLOTS + 1 && registrations[0] == SLOTS);

    EXPECT(!salfunye_lock_register(SLOTS, registrations, SLOTS - 1, one.ticket, 0));
    handed = salfunye_lock_hand_over(SLOTS, one.head, one.tail, wait, SLOTS, registrations, SLOTS - 1, 1);
    EXPECT(handed.ok == 0 && handed.head == one.head && handed.tail == one.tail);
    EXPECT(handed.kind == 0 && handed.let_in == 0 && handed.by == 0);
}

/* A plan of as many tasks, and then of as many order lines, as there is room for. */
static uint8_t *longest_plan(size_t tasks, size_t *size) {
    char *plan = taken(SALFUNYE_TEXT_SIZE);
    size_t end = (size_t)sprintf(plan, "W\t2\n");
    for (size_t i = 0; i < tasks; i++) end += (size_t)sprintf(plan + end, "T\ta\t0\tw1\tw2\tw3\tw4\n");
    static const char round[] = "R\t1\n";
    for (; end + strlen(round) <= SALFUNYE_TEXT_SIZE; end += strlen(round)) memcpy(plan + end, round, strlen(round));
    *size = end;
    return (uint8_t *)plan;
}

static void *run_longest(void *unused) {
    size_t size;
    uint8_t *plan = longest_plan(1, &size);
    uint64_t *store = taken(SALFUNYE_STORE_SIZE * sizeof *store);
    uint8_t *output = taken(SALFUNYE_REPORT_SIZE);
    struct salfunye_ran ran = salfunye_run(plan, size, UINT64_MAX, store, SALFUNYE_STORE_SIZE, output, SALFUNYE_REPORT_SIZE);
    EXPECT(ran.number == 0 && ran.length > 0);
    free(output);
    free(store);
    free(plan);
    return unused;
}

static void *chain_longest(void *unused) {
    size_t size;
    uint8_t *plan = longest_plan(128, &size);
    uint8_t *output = taken(SALFUNYE_CHAIN_SIZE);
    struct salfunye_written chain = salfunye_chain(plan, size, output, SALFUNYE_CHAIN_SIZE);
    EXPECT(chain.number == 0 && chain.length > 0);
    free(output);
    free(plan);
    return unused;
}

/* Calls on a thread that has so many bytes of stack; the thread itself and the guard under its stack need some too. */
static void on_stack(size_t size, void *(*call)(void *)) {
    enum { OF_THE_THREAD = 12288 };
    pthread_attr_t attributes;
    pthread_t thread;
    EXPECT(pthread_attr_init(&attributes) == 0);
    EXPECT(pthread_attr_setstacksize(&attributes, size + OF_THE_THREAD) == 0);
    EXPECT(pthread_create(&thread, &attributes, call, NULL) == 0);
    EXPECT(pthread_join(thread, NULL) == 0);
    EXPECT(pthread_attr_destroy(&attributes) == 0);
}

/* as the header says; a call that needs more ends the program */
static void stacks(void) {
    on_stack(400000, run_longest);
    on_stack(20000, chain_longest);
}

int main(void) {
    bench();
    converters();
    chain();
    busy("", false);
    busy("\t32\t1", false);
    busy("\t33\t16", false);
    busy("\t64\t16", false);
    busy("", true);
    busy("\t33\t1", true);
    lock();
    stacks();
    if (failures == 0) puts("ok");
    return failures == 0 ? 0 : 1;
}
