/*
 * The bench, its converters, the longest chain of a plan and the lock for C callers.
 *
 *   salfunye_check, salfunye_run              crates/bench_c/out/libbench_c.a
 *   salfunye_to_second, salfunye_to_first     crates/convert_c/out/libconvert_c.a
 *   salfunye_chain                            crates/chain_c/out/libchain_c.a
 *   salfunye_lock_...                         crates/lock_c/out/liblock_c.a
 *
 * `rt lib` in the folder of a crate proves it and writes its library.
 *
 * Every function takes any values. What a pointer and its length name must be
 * there for the call, and no two arguments of a call may overlap; a pointer
 * whose length is 0 may be anything but NULL. No function keeps a pointer,
 * takes memory from the heap or has state of its own, so calls with different
 * buffers may run at the same time. salfunye_run needs up to 400,000 bytes of
 * stack, salfunye_chain up to 20,000, the other functions less than 1,000.
 */
#ifndef SALFUNYE_H
#define SALFUNYE_H

#include <stdbool.h>
#include <stddef.h>
#include <stdint.h>

#ifdef __cplusplus
extern "C" {
#endif

/* ---- The bench ---- */

/* The longest text that is read or written, in bytes, and the numbers that a store must have. */
#define SALFUNYE_TEXT_SIZE 65536
#define SALFUNYE_STORE_SIZE 8192

/* No report is longer, in bytes. */
#define SALFUNYE_REPORT_SIZE 14439

/* Refusals. 1 to 5 and 9 to 11 are the plan's, with its line from 1; of two faulty
 * lines the first decides, and within a line the order is 1, 3, 2, 4, 5, in a W
 * line 1, 3, 2, 9, in an M line 1, 3, 2, 11. 10 follows them all. The others are
 * the caller's, with line 0. */
enum salfunye_refusal {
    SALFUNYE_ACCEPTED = 0,
    SALFUNYE_MALFORMED = 1,        /* no line feed, unknown first field, wrong number of fields, a field not of its form */
    SALFUNYE_OUT_OF_RANGE = 2,     /* a number out of its range, a picked worker or a mask's worker that there is not */
    SALFUNYE_MISPLACED = 3,        /* W not first or again, T after an order line, M not directly after a T line; an empty text */
    SALFUNYE_TOO_MANY = 4,         /* a 129th task or a fifth access */
    SALFUNYE_ADDRESS_TWICE = 5,    /* an address twice in one task */
    SALFUNYE_TEXT_TOO_LONG = 6,    /* more than SALFUNYE_TEXT_SIZE bytes: a text, tested first; a result, just before 8 */
    SALFUNYE_STORE_TOO_SHORT = 7,  /* fewer than SALFUNYE_STORE_SIZE numbers; tested second */
    SALFUNYE_OUTPUT_TOO_SHORT = 8, /* shorter than the report or the result; tested last */
    SALFUNYE_TOO_FEW_SLOTS = 9,    /* a W line that names fewer slots than workers */
    SALFUNYE_OTHER_SIZES = 10,     /* to the first form: a W line that names other sizes than 64 slots and a capacity of 8; line 1 */
    SALFUNYE_EMPTY_MASK = 11       /* a mask of 0: no worker may run the task */
};

struct salfunye_checked {
    uint64_t number; /* of enum salfunye_refusal */
    uint64_t line;   /* 0 where the text is accepted or the refusal is not the plan's */
    uint64_t looks;  /* looks at bytes of the text: its length where it is accepted,
                      * else the bytes of its lines up to the refused one; 0 with 6 */
};

struct salfunye_ran {
    uint64_t number; /* of enum salfunye_refusal; 0: there is a report */
    uint64_t line;   /* as above */
    uint64_t picks;  /* picks taken; 0 in a refusal */
    uint64_t length; /* bytes of the report; 0 in a refusal */
};

/*
 * Checks a plan text of text_length bytes: 0, 1 to 6, 9 or 11, with the line, and how
 * often it looked at a byte of the text. A refused line is looked at to its end,
 * its line feed too if it has one, and no byte behind it.
 */
struct salfunye_checked salfunye_check(const uint8_t *text, size_t text_length);

/*
 * Runs a plan text: takes picks until the limit, the end of the order or the
 * end of the run, and writes the report into the first bytes of the output.
 *
 *   limit   picks that are taken at most; UINT64_MAX for no limit
 *   store   working room of store_length numbers. What it held has no effect.
 *           After 6 or 7 it is untouched; otherwise its first
 *           SALFUNYE_STORE_SIZE numbers are 0 and later ones as they were
 *   output  output_length bytes. SALFUNYE_REPORT_SIZE is enough for any plan.
 *           A refusal writes no byte of it; past the report it is as it was
 */
struct salfunye_ran salfunye_run(const uint8_t *text, size_t text_length, uint64_t limit,
                                 uint64_t *store, size_t store_length,
                                 uint8_t *output, size_t output_length);

/* ---- The converters ----
 *
 * A plan of the first form, `W`, workers, means 64 slots and a queue capacity of
 * 8; the second form names them: `W`, workers, slots, capacity. A converter
 * writes a plan in the other form: the W line anew, all else byte for byte. A
 * plan that is in the wanted form already is written as it is. A moved plan gives
 * the same report, and moved back it is the old bytes.
 */

struct salfunye_written {
    uint64_t number; /* of enum salfunye_refusal; 0: there is a result */
    uint64_t line;   /* as above */
    uint64_t length; /* bytes of the result; 0 in a refusal */
};

/*
 * Writes a plan text in the second form, a plan of the first with 64 and 8
 * spelled out, into the first bytes of the output: 0, what salfunye_check gives,
 * 6 by the result, then 8. SALFUNYE_TEXT_SIZE is enough output for any plan. A
 * refusal writes no byte of it; past the result it is as it was.
 */
struct salfunye_written salfunye_to_second(const uint8_t *text, size_t text_length,
                                           uint8_t *output, size_t output_length);

/*
 * Writes a plan text in the first form: 0, what salfunye_check gives, 10, then 8;
 * no result is longer than its text. The output as above.
 */
struct salfunye_written salfunye_to_first(const uint8_t *text, size_t text_length,
                                          uint8_t *output, size_t output_length);

/* ---- The longest chain ----
 *
 * Two tasks conflict when they share an address and one of them writes it. A
 * chain is one task, or several of which each conflicts with a later next one;
 * it costs the sum of its tasks' costs. The longest chain costs the most: it is
 * the critical path of the task graph. Of several the first in order of their
 * task numbers is meant, compared left to right, and a chain comes before its own
 * extensions.
 *
 * Under an order of R lines alone a finished run takes at least W times its sum
 * in picks. Under any order the pick that ends its last task comes after the one
 * that receives its first by at least its sum and one for each of its tasks.
 */

/* No line is longer, in bytes. */
#define SALFUNYE_CHAIN_SIZE 409

/*
 * Writes a line with the longest chain of a plan text into the first bytes of the
 * output: its sum, then the numbers of its tasks, parted by tabs; `0` alone for a
 * plan without tasks. Order lines and masks have no effect on it. Answers 0, what
 * salfunye_check gives, then 8. SALFUNYE_CHAIN_SIZE is enough output for any plan.
 * A refusal writes no byte of it; past the line it is as it was.
 */
struct salfunye_written salfunye_chain(const uint8_t *text, size_t text_length,
                                       uint8_t *output, size_t output_length);

/* ---- The lock ----
 *
 * A delegation ticket lock over arrays of the caller: wait slots and
 * registrations, at least `slots` numbers each, and two result cells, ticket
 * and task, for each worker. `head` is the next ticket to give, `tail` the next
 * one to let in. A ring needs at least as many slots as workers.
 *
 * A function refuses what it has no room for or what would pass 2^64 - 1, and
 * changes nothing then: `ok` is 0, `kind` is 0, or the answer is false. With it
 * `head` and `tail` are as they were given, but 0 from salfunye_lock_start, and
 * `ticket`, `value`, `let_in` and `by` are 0. salfunye_lock_is_free refuses
 * nothing.
 */

struct salfunye_lock_ends {
    uint64_t ok;
    uint64_t head;
    uint64_t tail;
};

struct salfunye_lock_taken {
    uint64_t ok;
    uint64_t ticket;
    uint64_t head;
    uint64_t tail;
};

struct salfunye_lock_answer {
    uint64_t kind;
    uint64_t value;
};

struct salfunye_lock_handed {
    uint64_t ok;
    uint64_t head;
    uint64_t tail;
    uint64_t kind;   /* 1: nobody is registered with the ticket that is let in. 2: the worker `let_in` */
    uint64_t let_in; /* 0 where it is nobody */
    uint64_t by;     /* whose session it was: the owner that was named */
};

/* Starts a lock: head `slots`, tail one more, wait slots `slots`, all else 0, in arrays of any length: the other functions
 * refuse those that are too short. */
struct salfunye_lock_ends salfunye_lock_start(uint64_t slots,
                                              uint64_t *wait, size_t wait_length,
                                              uint64_t *registrations, size_t registrations_length,
                                              uint64_t *cell_tickets, size_t cell_tickets_length,
                                              uint64_t *cell_tasks, size_t cell_tasks_length);

/* Takes the ticket `head` and raises the head. */
struct salfunye_lock_taken salfunye_lock_take_ticket(uint64_t head, uint64_t tail);

/* Writes ticket + worker at slot ticket mod slots. */
bool salfunye_lock_register(uint64_t slots, uint64_t *registrations, size_t registrations_length,
                            uint64_t ticket, uint64_t worker);

/* Kind 1: not its turn yet. 2: it receives the task `value`. 3: it owns the lock. */
struct salfunye_lock_answer salfunye_lock_look(uint64_t slots,
                                               const uint64_t *wait, size_t wait_length,
                                               const uint64_t *cell_tickets, size_t cell_tickets_length,
                                               const uint64_t *cell_tasks, size_t cell_tasks_length,
                                               uint64_t ticket, uint64_t worker);

/*
 * Lets the ticket `tail` in, in the session of `owner`: writes the tail at wait
 * slot tail mod slots, raises it, and tells whom that lets in and whose session
 * it was. The worker is told from slot tail mod slots of the registrations,
 * which are only read: a number of at least the tail is the tail + that worker,
 * a lower one is nobody's. It refuses 0 slots, wait slots or registrations
 * fewer than `slots`, and a tail of 2^64 - 1.
 *
 * In a ring of at least as many slots as workers, where workers take a ticket,
 * register it and look, and owners alone fill and hand over, it lets in exactly
 * the worker that waits with that ticket, and nobody exactly when none is
 * registered with it. No registration of an earlier lap is told.
 */
struct salfunye_lock_handed salfunye_lock_hand_over(uint64_t slots, uint64_t head, uint64_t tail,
                                                    uint64_t *wait, size_t wait_length,
                                                    const uint64_t *registrations, size_t registrations_length,
                                                    uint64_t owner);

/* Kind 1: no registered front waiter. 2: the worker `value`. */
struct salfunye_lock_answer salfunye_lock_front_waiter(uint64_t slots, uint64_t head, uint64_t tail,
                                                       const uint64_t *registrations, size_t registrations_length);

/* Whether tail = head + 1: nobody owns the lock, and whoever still waits has its task in its cell. */
bool salfunye_lock_is_free(uint64_t head, uint64_t tail);

/* Puts a task, and the tail as its ticket, into a worker's result cell. */
bool salfunye_lock_fill(uint64_t head, uint64_t tail,
                        uint64_t *cell_tickets, size_t cell_tickets_length,
                        uint64_t *cell_tasks, size_t cell_tasks_length,
                        uint64_t worker, uint64_t task);

#ifdef __cplusplus
}
#endif

#endif
