/*
 * One process of FCWFA, the fast-commit, weakly fast-abort atomic commit
 * protocol, the simulator of a whole cluster, the outcome alone, the rule that
 * decided a process, and the texts of schedules: the proved functions of
 * libfcwfa_member.a, libfcwfa_simulator.a, libfcwfa_outcome.a, libfcwfa_why.a
 * and libfcwfa_texts.a (x86-64 Linux).
 *
 * Every function takes any numbers and any bytes. It returns 0 (FCWFA_OK) and
 * does its work, or the number of the first question whose answer is no (the
 * FCWFA_REFUSED_ numbers below) and then leaves everything it was lent as it
 * was, with one exception: fcwfa_read_schedule then writes the number of the
 * refused line, and nothing else. No function allocates, keeps anything between
 * calls, or fails in another way, and any number of threads may call them.
 *
 * For a call to be safe a caller owes this alone: each pointer is not NULL, also
 * where its length is 0, and is good for the number of entries that is said or
 * given with it; and what a function writes overlaps with nothing else that the
 * same call is lent.
 *
 * For members to agree the network, the clock and the program that calls them
 * owe more, and no call can look for it: see "The contract" in README.md.
 */
#ifndef FCWFA_H
#define FCWFA_H

#include <stddef.h>
#include <stdint.h>

#ifdef __cplusplus
extern "C" {
#endif

/*
 * The version of this interface, as the pkg-config file and the Rust crate have
 * it. It changes with what a program must know to call the library. Build with
 * the header of the library that is linked: it says how much a call writes.
 */
#define FCWFA_VERSION_MAJOR 0
#define FCWFA_VERSION_MINOR 9
#define FCWFA_VERSION_PATCH 0
#define FCWFA_VERSION "0.9.0"

/* The largest number of processes. */
#define FCWFA_LARGEST_N 64

/* A set of processes, such as a reach: bit j - 1 stands for process j. */
typedef uint64_t fcwfa_set;

/* The work is done. */
#define FCWFA_OK 0

/* n, the number of processes, is not from 4 to FCWFA_LARGEST_N. */
#define FCWFA_REFUSED_N 1
/* t, the number of crashes to bear, is not from 3 to n - 1. */
#define FCWFA_REFUSED_T 2
/* A table is not n long; for fcwfa_read_schedule, not FCWFA_LARGEST_N long. */
#define FCWFA_REFUSED_LENGTH 3
/* A vote is not 0 or 1. */
#define FCWFA_REFUSED_VOTE 4
/* A crash round is above t + 1. */
#define FCWFA_REFUSED_CRASH 5
/* A reach names a process above n or its own, or stands where the crash round is 0. */
#define FCWFA_REFUSED_REACH 6
/* More than t processes crash. */
#define FCWFA_REFUSED_CRASHES 7
/* The text is longer than FCWFA_LONGEST_TEXT bytes. */
#define FCWFA_REFUSED_TEXT_LENGTH 8
/* A line is not of its form or is not there, or something follows the last process. */
#define FCWFA_REFUSED_FORM 9
/* The own number, or for fcwfa_why that of the process asked about, is not from 1 to n. */
#define FCWFA_REFUSED_ID 10
/* The fourteen bytes are not a state in range. */
#define FCWFA_REFUSED_STATE 11
/* The member has stopped. */
#define FCWFA_REFUSED_STOPPED 12
/* The row is not n long. */
#define FCWFA_REFUSED_ROW_LENGTH 13
/* A code of the row is above 4. */
#define FCWFA_REFUSED_CODE 14
/* The row's own place is not what the member says now. */
#define FCWFA_REFUSED_OWN_PLACE 15
/* A decided message (code 3 or 4) stands in a row of round 1 or 2. */
#define FCWFA_REFUSED_EARLY 16
/* Both decided messages, 3 and 4, stand in the row. */
#define FCWFA_REFUSED_BOTH 17
/* The buffer is too short for the whole text. */
#define FCWFA_REFUSED_BUFFER 18

/*
 * A member's state is fourteen bytes at these offsets: six numbers, one byte
 * each, and a set of eight bytes. There is nothing else to a member. They can be
 * stored and sent as they are, for inspection: a process that was down has
 * crashed and must not go on from them.
 */
#define FCWFA_STATE_BYTES 14
/* The number of processes. */
#define FCWFA_STATE_N 0
/* The number of crashes to bear. */
#define FCWFA_STATE_T 1
/* The member's own number, from 1. */
#define FCWFA_STATE_ID 2
/* The round to play next. */
#define FCWFA_STATE_ROUND 3
/* The estimate, 0 (abort) or 1 (commit): the decision, once decided. */
#define FCWFA_STATE_ESTIMATE 4
/* The round in which the member decided, 0 while it has not. */
#define FCWFA_STATE_DECIDED 5
/*
 * The silent set, an fcwfa_set as eight bytes, lowest first: the processes that
 * sent no estimate in the last row that set it. It is empty at opening. A row
 * sets it if the member hears it while undecided, in round 2 or later, and no
 * decided message stands in it, also if the member decides by this row. Every
 * other row leaves the set as it was. So it is of a row, and not of now: see
 * "The silent set" in README.md. In a state in range it names processes from 1
 * to n only, and not the member itself.
 *
 * A state has no alignment, so do not read the set through a pointer to an
 * fcwfa_set. Copy the eight bytes into one by memcpy, on a machine that has the
 * lowest byte of a number first, as x86-64 has; or put them together one by one,
 * as example.c does.
 */
#define FCWFA_STATE_SILENT 6

/*
 * What a member says in a round, and what stands in a row for each sender. In a
 * row FCWFA_NOTHING says that the process has crashed without completing this
 * round and takes no further part in this transaction, or that it has stopped.
 * It never stands for a message that is late or lost: members can then decide
 * differently, and no call refuses. See (a) in README.md.
 */
#define FCWFA_NOTHING 0
#define FCWFA_ESTIMATE_0 1
#define FCWFA_ESTIMATE_1 2
#define FCWFA_DECIDED_0 3
#define FCWFA_DECIDED_1 4

/*
 * Opens member `id` of n with t crashes to bear and its vote, 0 or 1: writes
 * the state to `state`.
 * Refusals, in this order: 1, 2, 10, 4.
 */
uint8_t fcwfa_open(size_t n, size_t t, size_t id, uint8_t vote,
                   uint8_t state[FCWFA_STATE_BYTES]);

/*
 * Writes the code that the member says in the round to come to `code`. A
 * member that says FCWFA_NOTHING has stopped.
 * Refusal: 11.
 */
uint8_t fcwfa_say(const uint8_t state[FCWFA_STATE_BYTES], uint8_t *code);

/*
 * Hears the row of a round: one code for each process in order, the member's
 * own included, FCWFA_NOTHING for a process that has crashed or stopped and for
 * no other. Wait for every other message before this call: see (b) in README.md.
 * The state becomes that of the next round.
 * Refusals, in this order: 11, 12, 13, 14, 15, 16, 17. Never repair a row to get
 * past one; (d) in README.md says what each shows and what is safe then.
 */
uint8_t fcwfa_hear(uint8_t state[FCWFA_STATE_BYTES], const uint8_t *row,
                   size_t row_length);

/* What fcwfa_simulate writes to `counts`, at these places. */
#define FCWFA_COUNTS 4
/* How many processes crash. */
#define FCWFA_COUNT_F 0
/*
 * The first decider, the process to ask for the outcome: the one that decided in
 * the smallest round; among equals one that never crashes goes before one that
 * crashes, and then the lower number.
 */
#define FCWFA_COUNT_FIRST 1
/* The largest decided round. */
#define FCWFA_COUNT_LAST 2
/* How many messages went out on the wire; copies to oneself do not count. */
#define FCWFA_COUNT_MESSAGES 3

/* The decision of a process that made none. Its round is 0. */
#define FCWFA_NO_DECISION 2

/*
 * Runs a whole cluster to its end. Entry i - 1 of each table is process i's:
 * its vote, 0 or 1; its crash round, 0 (never) or 1 to t + 1; and its reach,
 * the set of processes that still get the message of the crash round. Writes
 * each process's decision (0, 1 or FCWFA_NO_DECISION) and the round of it, and
 * the four counts. All five tables are n long.
 * Refusals, in this order: 1, 2, 3, then for each process in turn 4, 5, 6, and
 * last 7.
 */
uint8_t fcwfa_simulate(size_t n, size_t t,
                       const uint8_t *votes, size_t votes_length,
                       const uint8_t *crashes, size_t crashes_length,
                       const fcwfa_set *reaches, size_t reaches_length,
                       uint8_t *decisions, size_t decisions_length,
                       uint8_t *rounds, size_t rounds_length,
                       size_t counts[FCWFA_COUNTS]);

/* What fcwfa_outcome writes to `outcome`, at these places. */
#define FCWFA_OUTCOME 2
/* What is decided: 0 (abort) or 1 (commit). */
#define FCWFA_OUTCOME_DECISION 0
/* The first round in which some process decides, from 2 to t + 1. */
#define FCWFA_OUTCOME_ROUND 1

/*
 * Plays rounds until one in which some process decides, and writes what it
 * decides and that round. The schedule is in tables as fcwfa_simulate takes
 * them: all three are n long. Every process that decides in the whole run, also
 * one that crashes afterwards, decides this value, and the round is the smallest
 * decided round there. An accepted schedule always has an outcome.
 * Refusals, in this order: 1, 2, 3, then for each process in turn 4, 5, 6, and
 * last 7. `outcome` is then as it was.
 */
uint8_t fcwfa_outcome(size_t n, size_t t,
                      const uint8_t *votes, size_t votes_length,
                      const uint8_t *crashes, size_t crashes_length,
                      const fcwfa_set *reaches, size_t reaches_length,
                      uint8_t outcome[FCWFA_OUTCOME]);

/* What fcwfa_why writes to `why`, at these places. */
#define FCWFA_WHY 2
/* What decided the process, or that nothing did: one of the six kinds below. */
#define FCWFA_WHY_KIND 0
/* The number that goes with this kind, as it is told there; 0 where there is none. */
#define FCWFA_WHY_NUMBER 1

/*
 * The kinds. FCWFA_CRASHED says that the process made no decision; the others
 * are the rules, in the order in which they are asked for the row that the
 * process heard in the round in which it decided.
 */
/* It crashed before it decided. The number is its crash round. */
#define FCWFA_CRASHED 0
/*
 * A decided message stood in the row. The number is that of its sender, from 1,
 * the lowest of the senders if there were several.
 */
#define FCWFA_TOLD 1
/* Round 2, and all estimates in the row were 0. There is no number. */
#define FCWFA_ZEROS_ONLY 2
/*
 * A quiet round: round r from 2 to t - 1, and at most r - 2 processes sent no
 * estimate. The number is how many sent none.
 */
#define FCWFA_QUIET 3
/* Round t, with at least n - t + 1 estimates. The number is how many were heard. */
#define FCWFA_ROUND_T 4
/* Round t + 1, the last one, in which it decides in any case. There is no number. */
#define FCWFA_LAST_ROUND 5

/*
 * Says why process `id` decided as it did in the whole run: writes the first
 * rule, in the order above, that was met by the row that it heard in the round in
 * which it decided, and the number of that row. The schedule is in tables as
 * fcwfa_simulate takes them: all three are n long. The rule is one by which the
 * process decides in that round. A sender that is named decided in the round
 * before, and the same value; it is never the process itself. A process that
 * decided and crashed afterwards has its rule. One that made no decision
 * crashed, in the round that is written.
 * Refusals, in this order: 1, 2, 3, then for each process in turn 4, 5, 6, then
 * 7, and last 10: `id` is not from 1 to n. `why` is then as it was.
 */
uint8_t fcwfa_why(size_t n, size_t t,
                  const uint8_t *votes, size_t votes_length,
                  const uint8_t *crashes, size_t crashes_length,
                  const fcwfa_set *reaches, size_t reaches_length,
                  size_t id, size_t why[FCWFA_WHY]);

/* What fcwfa_count_crashes writes to `counted`, at these places. */
#define FCWFA_COUNTED 2
/*
 * How many of the processes looked at crash: t + 1 if more than t processes of
 * the table crash, and else as many as crash.
 */
#define FCWFA_COUNTED_CRASHES 0
/*
 * The number of the last process looked at: the one whose crash makes t + 1 of
 * them; where there is no such crash, that of the last process of the table, and
 * 0 if the table is empty.
 */
#define FCWFA_COUNTED_LOOKED_AT 1

/*
 * Counts the processes that crash in a table of crash rounds, 0 for never, entry
 * i - 1 being process i's, and ends at the crash that makes t + 1 of them. If
 * the count is above t, fcwfa_simulate refuses such a table, with 7 where
 * nothing before 7 is wrong. t and the table may be anything.
 * Refusals: none. It returns 0.
 */
uint8_t fcwfa_count_crashes(size_t t,
                            const uint8_t *crashes, size_t crashes_length,
                            size_t counted[FCWFA_COUNTED]);

/* The longest text that is read, in bytes. A longer one is refused with 8. */
#define FCWFA_LONGEST_TEXT 8192
/*
 * The longest text that is written, in bytes. No accepted schedule has a longer
 * one, so a buffer of this length is never refused with 18, and
 * fcwfa_read_schedule accepts no longer text.
 */
#define FCWFA_LONGEST_WRITTEN 4692

/*
 * Writes the text of a schedule, the one that `bench` and fcwfa_read_schedule
 * read. The schedule is in tables as fcwfa_simulate takes them: all three are n
 * long. The text stands at the start of `text`, and the bytes after it keep
 * their contents. Its length is written to `used`; a buffer of exactly this
 * length is enough, and no 0 byte ends the text.
 * Refusals, in this order: 1, 2, 3, then for each process in turn 4, 5, 6, then
 * 7, and last 18: the buffer is too short for the whole text. `text` and `used`
 * are then as they were.
 */
uint8_t fcwfa_write_schedule(size_t n, size_t t,
                             const uint8_t *votes, size_t votes_length,
                             const uint8_t *crashes, size_t crashes_length,
                             const fcwfa_set *reaches, size_t reaches_length,
                             uint8_t *text, size_t text_length,
                             size_t *used);

/* What fcwfa_read_schedule writes to `read`, at these places. */
#define FCWFA_READ 3
/* The number of processes, if the text is accepted. */
#define FCWFA_READ_N 0
/* The number of crashes to bear, if the text is accepted. */
#define FCWFA_READ_T 1
/* The number of the refused line, from 1, or 0 for no line, if the text is refused. */
#define FCWFA_READ_LINE 2

/*
 * Reads the text of a schedule into tables. All three have FCWFA_LARGEST_N
 * entries, for n is not known before. The first n entries of each get what the
 * text says, and those after them keep their contents; n and t are written to
 * `read`, and its third place is as it was. The tables can be passed on to
 * fcwfa_simulate, fcwfa_outcome, fcwfa_why and fcwfa_write_schedule, with n for
 * their lengths, and fcwfa_write_schedule makes the same text of them again.
 * Refusals, in this order: 3 with line 0; 8 with line 0; then line by line 9,
 * followed on line 2 by 1, 2 and on the line of a process by 4, 5, 6; then 9
 * with line n + 4, if anything follows line n + 3; and last 7 with line n + 3.
 * The line's number is written to the third place of `read`. Its first two
 * places and the tables are then as they were.
 */
uint8_t fcwfa_read_schedule(const uint8_t *text, size_t text_length,
                            uint8_t *votes, size_t votes_length,
                            uint8_t *crashes, size_t crashes_length,
                            fcwfa_set *reaches, size_t reaches_length,
                            size_t read[FCWFA_READ]);

#ifdef __cplusplus
}
#endif

#endif
