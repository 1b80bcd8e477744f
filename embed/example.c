/*
 * Six uses of the library. First a cluster of four members in one process:
 * they commit; with one vote for abort they abort; and they abort where one of
 * them crashes in round 1. Each member's silent set is printed with its
 * decision. Then the simulator on the same crash, and on a schedule that is
 * refused. Then the outcome alone, without the whole run. Then the rule that
 * decided each process of a schedule. Then the crashes of a table, counted up to
 * the one that is too many. Last a schedule in tables, written as its text, read
 * back, and refused.
 * Compiles as C11 and as C++.
 */
#include <assert.h>
#include <stdio.h>
#include <string.h>

#include <fcwfa.h>

#define N 4
#define T 3

static_assert(N <= FCWFA_LARGEST_N, "the cluster is not too large");
static_assert(FCWFA_LARGEST_N <= 8 * sizeof(fcwfa_set), "a set has a bit for each process");
static_assert(FCWFA_STATE_SILENT + sizeof(fcwfa_set) == FCWFA_STATE_BYTES, "a state ends with a set");
static_assert(FCWFA_LONGEST_WRITTEN <= FCWFA_LONGEST_TEXT, "what is written can be read");

/* The set of process i alone. */
static fcwfa_set only(int i)
{
    return (fcwfa_set)1 << (i - 1);
}

/* The silent set of a state, whose lowest byte is the first, put together byte by byte. */
static fcwfa_set silent(const uint8_t state[FCWFA_STATE_BYTES])
{
    fcwfa_set set = 0;

    for (int i = FCWFA_STATE_BYTES - 1; i >= FCWFA_STATE_SILENT; i--)
        set = set << 8 | state[i];
    return set;
}

/* Prints the numbers of the processes of a set as {1, 4}. */
static void print_set(fcwfa_set set)
{
    const char *before = "";

    putchar('{');
    for (int i = 1; i <= FCWFA_LARGEST_N; i++) {
        if ((set & only(i)) != 0) {
            printf("%s%d", before, i);
            before = ", ";
        }
    }
    putchar('}');
}

/* What every member says in the round to come. */
static int say_all(uint8_t states[N][FCWFA_STATE_BYTES], uint8_t row[N])
{
    for (int i = 0; i < N; i++) {
        if (fcwfa_say(states[i], &row[i]) != FCWFA_OK)
            return 0;
    }
    return 1;
}

/*
 * Lets members with these votes exchange rows until all have stopped. Member
 * `crashed` (0 for none) crashes in round 1, and its message of that round
 * reaches the members of `reach` only.
 */
static int play(const uint8_t votes[N], int crashed, fcwfa_set reach)
{
    uint8_t states[N][FCWFA_STATE_BYTES];
    uint8_t said[N], row[N];
    const uint8_t silence[N] = {0};

    for (int i = 0; i < N; i++) {
        if (fcwfa_open(N, T, (size_t)i + 1, votes[i], states[i]) != FCWFA_OK)
            return 0;
    }
    for (int round = 1;; round++) {
        if (!say_all(states, said))
            return 0;
        /* It has crashed: nothing more comes from it. */
        if (crashed != 0 && round > 1)
            said[crashed - 1] = FCWFA_NOTHING;
        if (memcmp(said, silence, N) == 0)
            break;
        for (int i = 0; i < N; i++) {
            /* A member that has stopped hears no row, nor does one that has crashed. */
            if (said[i] == FCWFA_NOTHING || i + 1 == crashed)
                continue;
            memcpy(row, said, N);
            /*
             * FCWFA_NOTHING stands for a crash here: this member got no message,
             * and the sender hears no row of this round or a later one. It must
             * not stand for a message that is late or lost (README.md, (a)).
             */
            if (crashed != 0 && round == 1 && (reach & only(i + 1)) == 0)
                row[crashed - 1] = FCWFA_NOTHING;
            if (fcwfa_hear(states[i], row, N) != FCWFA_OK)
                return 0;
        }
    }
    for (int i = 0; i < N; i++) {
        if (i + 1 == crashed)
            printf("member %d makes no decision", i + 1);
        else
            printf("member %d decides %d in round %d", i + 1,
                   states[i][FCWFA_STATE_ESTIMATE], states[i][FCWFA_STATE_DECIDED]);
        fputs(", silent ", stdout);
        print_set(silent(states[i]));
        putchar('\n');
    }
    return 1;
}

/* Runs a schedule with all votes 1 in which process 1 crashes in this round with this reach. */
static void simulate(uint8_t crash, fcwfa_set reach)
{
    const uint8_t votes[N] = {1, 1, 1, 1};
    const uint8_t crashes[N] = {crash, 0, 0, 0};
    const fcwfa_set reaches[N] = {reach, 0, 0, 0};
    uint8_t decisions[N], rounds[N];
    size_t counts[FCWFA_COUNTS];

    uint8_t number = fcwfa_simulate(N, T, votes, N, crashes, N, reaches, N,
                                    decisions, N, rounds, N, counts);
    if (number != FCWFA_OK) {
        printf("refused by question %d\n", number);
        return;
    }
    printf("f %zu, first %zu, last %zu, messages %zu\n", counts[FCWFA_COUNT_F],
           counts[FCWFA_COUNT_FIRST], counts[FCWFA_COUNT_LAST],
           counts[FCWFA_COUNT_MESSAGES]);
    for (int i = 0; i < N; i++) {
        if (decisions[i] == FCWFA_NO_DECISION)
            printf("process %d makes no decision\n", i + 1);
        else
            printf("process %d decides %d in round %d\n", i + 1, decisions[i],
                   rounds[i]);
    }
}

/* Plays such a schedule only until some process decides. */
static void print_outcome(uint8_t crash, fcwfa_set reach)
{
    const uint8_t votes[N] = {1, 1, 1, 1};
    const uint8_t crashes[N] = {crash, 0, 0, 0};
    const fcwfa_set reaches[N] = {reach, 0, 0, 0};
    uint8_t outcome[FCWFA_OUTCOME];

    uint8_t number = fcwfa_outcome(N, T, votes, N, crashes, N, reaches, N, outcome);
    if (number != FCWFA_OK)
        printf("refused by question %d\n", number);
    else
        printf("%d is decided, first in round %d\n", outcome[FCWFA_OUTCOME_DECISION],
               outcome[FCWFA_OUTCOME_ROUND]);
}

/* Prints the rule that decided a process, with its number. */
static void print_why(const size_t why[FCWFA_WHY])
{
    size_t number = why[FCWFA_WHY_NUMBER];

    switch (why[FCWFA_WHY_KIND]) {
    case FCWFA_CRASHED:
        printf("crashed in round %zu\n", number);
        break;
    case FCWFA_TOLD:
        printf("told by process %zu\n", number);
        break;
    case FCWFA_ZEROS_ONLY:
        puts("zeros only in round 2");
        break;
    case FCWFA_QUIET:
        printf("a quiet round, estimates missing: %zu\n", number);
        break;
    case FCWFA_ROUND_T:
        printf("round t, estimates heard: %zu\n", number);
        break;
    case FCWFA_LAST_ROUND:
        puts("the last round");
        break;
    }
}

/*
 * Says why each of five processes decides as it does, all votes 1, and of one
 * more that is not there. Process 5 crashes in round 2 and reaches process 4
 * only, and process 4 crashes in round 3 and reaches process 1 only.
 */
static void show_why(void)
{
    const uint8_t votes[5] = {1, 1, 1, 1, 1};
    const uint8_t crashes[5] = {0, 0, 0, 3, 2};
    const fcwfa_set reaches[5] = {0, 0, 0, only(1), only(4)};

    for (size_t id = 1; id <= 6; id++) {
        size_t why[FCWFA_WHY];
        uint8_t number = fcwfa_why(5, 3, votes, 5, crashes, 5, reaches, 5, id, why);

        printf("process %zu: ", id);
        if (number != FCWFA_OK)
            printf("refused by question %d\n", number);
        else
            print_why(why);
    }
}

/* Counts the crashes of the first `length` of six processes. */
static void count(size_t t, size_t length)
{
    const uint8_t crashes[6] = {1, 0, 3, 2, 255, 0};
    size_t counted[FCWFA_COUNTED] = {7, 7};

    uint8_t number = fcwfa_count_crashes(t, crashes, length, counted);
    printf("%d: %zu, last looked at %zu\n", number, counted[FCWFA_COUNTED_CRASHES],
           counted[FCWFA_COUNTED_LOOKED_AT]);
}

/*
 * Writes the text of a schedule into the first `length` bytes of a buffer, and
 * prints it. Answers how long it is, 0 if it is refused.
 */
static size_t write_text(uint8_t *text, size_t length)
{
    const uint8_t votes[N] = {1, 1, 0, 1};
    const uint8_t crashes[N] = {1, 0, 4, 0};
    const fcwfa_set reaches[N] = {only(2), 0, only(1) | only(4), 0};
    size_t used = 0;

    uint8_t number = fcwfa_write_schedule(N, T, votes, N, crashes, N, reaches, N,
                                          text, length, &used);
    if (number != FCWFA_OK) {
        printf("refused by question %d\n", number);
        return 0;
    }
    /* No 0 byte ends the text: `used` says how long it is. */
    fwrite(text, 1, used, stdout);
    return used;
}

/* Reads the text of a schedule, and prints what it says of each process. */
static void read_text(const uint8_t *text, size_t length)
{
    uint8_t votes[FCWFA_LARGEST_N], crashes[FCWFA_LARGEST_N];
    fcwfa_set reaches[FCWFA_LARGEST_N];
    size_t read[FCWFA_READ];

    uint8_t number = fcwfa_read_schedule(text, length, votes, FCWFA_LARGEST_N,
                                         crashes, FCWFA_LARGEST_N,
                                         reaches, FCWFA_LARGEST_N, read);
    if (number != FCWFA_OK) {
        printf("refused by question %d on line %zu\n", number, read[FCWFA_READ_LINE]);
        return;
    }
    printf("n %zu, t %zu\n", read[FCWFA_READ_N], read[FCWFA_READ_T]);
    for (size_t i = 0; i < read[FCWFA_READ_N]; i++) {
        printf("process %zu votes %d", i + 1, votes[i]);
        if (crashes[i] != 0) {
            printf(", crashes in round %d and reaches ", crashes[i]);
            print_set(reaches[i]);
        }
        putchar('\n');
    }
}

/* A schedule as its text: written, read back, and refused both ways. */
static void show_texts(void)
{
    uint8_t text[FCWFA_LONGEST_WRITTEN];

    puts("the text of a schedule");
    size_t used = write_text(text, sizeof text);
    if (used == 0)
        return;
    printf("%zu bytes, read back\n", used);
    read_text(text, used);
    puts("written into a buffer that is one byte too short");
    write_text(text, used - 1);
    puts("read without its last byte");
    read_text(text, used - 1);
}

int main(void)
{
    const uint8_t all_commit[N] = {1, 1, 1, 1};
    const uint8_t one_abort[N] = {1, 1, 0, 1};
    uint8_t state[FCWFA_STATE_BYTES];

    puts("four members, all votes 1");
    if (!play(all_commit, 0, 0))
        return 1;
    puts("four members, member 3 votes 0");
    if (!play(one_abort, 0, 0))
        return 1;
    puts("four members, all votes 1, member 1 crashes in round 1 and reaches member 2 only");
    if (!play(all_commit, 1, only(2)))
        return 1;
    puts("process 1 crashes in round 1 and reaches process 2 only");
    simulate(1, only(2));
    puts("process 1 crashes in round 1 and reaches itself");
    simulate(1, only(1));
    puts("the outcome alone: process 1 crashes in round 1, in round 2, and in round 5, and reaches process 2 only");
    print_outcome(1, only(2));
    print_outcome(2, only(2));
    print_outcome(5, only(2));
    puts("why each decides: process 5 of five crashes in round 2 and reaches 4 only, and 4 crashes in round 3 and reaches 1 only");
    show_why();
    puts("a member with the number 5 of 4");
    printf("refused by question %d\n", fcwfa_open(N, T, 5, 1, state));
    puts("processes 1, 3, 4 and 5 of six crash: counted with t = 1, 3, 4 and the largest, and in an empty table");
    count(1, 6);
    count(3, 6);
    count(4, 6);
    count(SIZE_MAX, 6);
    count(1, 0);
    show_texts();
    return 0;
}
