/* Times the proved functions and the two builds of the same steps in C (baseline.h) on the same problems,
 * the same transfers and the same deck, and holds their answers, and the decks that they write, to each
 * other bit by bit. Problems and, behind them, transfers come from standard input, and ROUNDS, how often
 * each is timed, from whoever compiles it.
 * Status: 0 all agree, 1 a difference, 2 something is missing. */
#include "timing.h"

/* Of the C library too. */
void exit(int status) __attribute__((noreturn));

/* There are as many transfers as problems. */
enum { PROBLEMS = 20000, TRANSFERS = PROBLEMS, CHECKS = 20 };
/* A problem with object and epoch behind it. What is timed on decks is of version 2. */
enum { TAGGED_SIZE = PROBLEM_SIZE + TAG_SIZE };
enum { DECK_SIZE = 8 + 12 * MOST_CARDS + (SOLVED_SIZE + TAG_SIZE) * MOST_CARDS };
/* The problems of a full deck, and how many such decks the problems make. */
enum { GROUP_SIZE = MOST_CARDS * TAGGED_SIZE, GROUPS = PROBLEMS / MOST_CARDS };
/* GROUPED is predict once more, of the problems that are written and no others. */
enum { PREDICT, TRANSFER, CHECK, GROUPED, WRITE, KINDS };
/* What every byte of a buffer is, and a size, before a deck is written. */
enum { BEFORE = 0xa5 };

/* What answers a problem or a transfer, and its answers to all of them. */
typedef uint32_t Answer(const uint8_t *record, double *sum);
typedef struct { uint32_t refusals[PROBLEMS]; double sums[PROBLEMS]; } Answers;

/* What is to be written. */
typedef struct { uint32_t version, form; const uint8_t *problems; size_t length; } Order;

typedef struct {
    const char *name;
    Answer *predict, *transfer;
    double (*check)(const uint8_t *deck, size_t length, uint32_t *verdicts, size_t room);
    Write *write;
    Answers predicted, transferred;
    double mean; /* of the residuals, in seconds */
    uint8_t buffer[DECK_SIZE];
    size_t size;
    double times[KINDS][ROUNDS];
} Contender;

static uint32_t proved_predict(const uint8_t *problem, double *sum)
{
    return tailfiddle_predict(problem, PROBLEM_SIZE, sum);
}

static uint32_t proved_transfer(const uint8_t *transfer, double *sum)
{
    return tailfiddle_transfer(transfer, TRANSFER_SIZE, sum);
}

static Contender contenders[] = {
    { .name = "proved", .predict = proved_predict, .transfer = proved_transfer,
        .check = tailfiddle_check, .write = tailfiddle_write },
    { .name = "C, digit root", .predict = digit_predict, .transfer = digit_transfer,
        .check = digit_check, .write = digit_write },
    { .name = "C, hardware root", .predict = hardware_predict, .transfer = hardware_transfer,
        .check = hardware_check, .write = hardware_write },
};

enum { CONTENDERS = sizeof contenders / sizeof contenders[0] };

static uint8_t problems[PROBLEMS * PROBLEM_SIZE];
static uint8_t tagged[PROBLEMS * TAGGED_SIZE];
static uint8_t transfers[TRANSFERS * TRANSFER_SIZE];
static uint8_t chosen[GROUP_SIZE];
static uint8_t deck[DECK_SIZE];

static void fail(int status, const char *why, size_t number)
{
    dprintf(2, "bench: %s %lu\n", why, (unsigned long)number);
    exit(status);
}

/* Every NaN counts as the same, as it does for the proved functions. */
static int same(double a, double b) { return __builtin_memcmp(&a, &b, sizeof a) == 0 || (a != a && b != b); }

/* The median of the first one's times, or of their ratios to the second one's, round by round: what
 * else the machine does in a round slows both. */
static double median(const double *times, const double *others)
{
    double kept[ROUNDS];
    for (int i = 0; i < ROUNDS; i++) {
        double value = others ? times[i] / others[i] : times[i];
        int k = i;
        for (; k > 0 && kept[k - 1] > value; k--)
            kept[k] = kept[k - 1];
        kept[k] = value;
    }
    return kept[ROUNDS / 2];
}

static void read_inputs(void)
{
    size_t size = read_full(problems, sizeof problems);
    if (size != sizeof problems)
        fail(2, "20000 problems are wanted, and there are", size / PROBLEM_SIZE);
    size = read_full(transfers, sizeof transfers);
    if (size != sizeof transfers)
        fail(2, "20000 transfers are wanted behind the problems, and there are", size / TRANSFER_SIZE);
}

/* The same problems, each with its place for an object, and the place below zero for an epoch. */
static void tag_problems(void)
{
    for (size_t i = 0; i < PROBLEMS; i++) {
        uint8_t *at = tagged + i * TAGGED_SIZE;
        uint32_t object = i + 1;
        int64_t epoch = -(int64_t)object;
        __builtin_memcpy(at, problems + i * PROBLEM_SIZE, PROBLEM_SIZE);
        __builtin_memcpy(at + PROBLEM_SIZE, &object, sizeof object);
        __builtin_memcpy(at + PROBLEM_SIZE + sizeof object, &epoch, sizeof epoch);
    }
}

/* A full deck of the first problems that are solved. Gives how many are solved in all. */
static size_t make_deck(void)
{
    size_t solved = 0, size = 0;
    double sum;
    for (size_t i = 0; i < PROBLEMS; i++) {
        const uint8_t *problem = tagged + i * TAGGED_SIZE;
        if (digit_predict(problem, &sum) != 0)
            continue;
        if (solved < MOST_CARDS)
            __builtin_memcpy(chosen + solved * TAGGED_SIZE, problem, TAGGED_SIZE);
        solved++;
    }
    if (solved < MOST_CARDS)
        fail(2, "too few problems are solved:", solved);
    if (digit_write(2, 1, chosen, sizeof chosen, deck, sizeof deck, &size) != 0 || size != sizeof deck)
        fail(1, "the deck of solved cards is of another length:", size);
    return solved;
}

static double time_answers(Answer *answer, const uint8_t *records, size_t size, size_t count, Answers *into)
{
    double began = seconds();
    for (size_t i = 0; i < count; i++)
        into->refusals[i] = answer(records + i * size, &into->sums[i]);
    return (seconds() - began) / count;
}

static double time_predict(Contender *c, size_t count)
{
    return time_answers(c->predict, problems, PROBLEM_SIZE, count, &c->predicted);
}

static double time_transfer(Contender *c)
{
    return time_answers(c->transfer, transfers, TRANSFER_SIZE, TRANSFERS, &c->transferred);
}

static void want_accepted(const uint32_t *verdicts)
{
    for (size_t i = 0; i < MOST_CARDS; i++)
        if (verdicts[i] != 0)
            fail(1, "a card is rejected, at place", i + 1);
}

static double time_check(Contender *c)
{
    uint32_t verdicts[MOST_CARDS];
    __builtin_memset(verdicts, 0xff, sizeof verdicts);
    double began = seconds();
    for (int i = 0; i < CHECKS; i++)
        c->mean = c->check(deck, sizeof deck, verdicts, MOST_CARDS);
    double took = seconds() - began;
    want_accepted(verdicts);
    return took / (CHECKS * MOST_CARDS);
}

static double time_write(Contender *c)
{
    uint32_t refusal = 0;
    double began = seconds();
    for (size_t i = 0; i < GROUPS; i++)
        refusal |= c->write(2, 1, tagged + i * GROUP_SIZE, GROUP_SIZE, c->buffer, sizeof c->buffer, &c->size);
    double took = seconds() - began;
    if (refusal != 0)
        fail(1, "a deck is refused, of so many:", GROUPS);
    return took / (GROUPS * MOST_CARDS);
}

static void compare_each(const Answers *a, const Answers *b, const char *why)
{
    for (size_t i = 0; i < PROBLEMS; i++)
        if (a->refusals[i] != b->refusals[i] || !same(a->sums[i], b->sums[i]))
            fail(1, why, i + 1);
}

static void compare_answers(const Contender *a, const Contender *b)
{
    compare_each(&a->predicted, &b->predicted, "the answers differ at problem");
    compare_each(&a->transferred, &b->transferred, "the answers differ at transfer");
    if (!same(a->mean, b->mean))
        fail(1, "the means differ, of cards in the deck:", MOST_CARDS);
}

static size_t solved_in(const Answers *a)
{
    size_t solved = 0;
    for (size_t i = 0; i < PROBLEMS; i++)
        solved += a->refusals[i] == 0;
    return solved;
}

static uint32_t write_anew(Contender *c, Order o, size_t room)
{
    __builtin_memset(c->buffer, BEFORE, sizeof c->buffer);
    c->size = BEFORE;
    return c->write(o.version, o.form, o.problems, o.length, c->buffer, room, &c->size);
}

/* The whole buffers are compared: what stands behind a deck is to stay. */
static void compare_decks(Order o, size_t place)
{
    const Contender *proved = &contenders[0];
    for (int k = 0; k < CONTENDERS; k++) {
        Contender *c = &contenders[k];
        if (write_anew(c, o, sizeof c->buffer) != 0)
            fail(1, "a deck is refused, at place", place);
        if (c->size != proved->size || __builtin_memcmp(c->buffer, proved->buffer, sizeof c->buffer) != 0)
            fail(1, "the decks differ at place", place);
    }
}

/* A deck of version 1, written by each, and the verdicts and the mean of each on it. */
static void compare_version_1(void)
{
    uint32_t verdicts[MOST_CARDS];
    compare_decks((Order){ 1, 0, problems, MOST_CARDS * PROBLEM_SIZE }, GROUPS + 1);
    for (int k = 0; k < CONTENDERS; k++) {
        Contender *c = &contenders[k];
        __builtin_memset(verdicts, 0xff, sizeof verdicts);
        c->mean = c->check(c->buffer, c->size, verdicts, MOST_CARDS);
        want_accepted(verdicts);
        if (!same(c->mean, contenders[0].mean))
            fail(1, "the means differ, of a deck of version", 1);
    }
}

static void try_refusal(Order o, size_t room, uint32_t number)
{
    uint8_t before[DECK_SIZE];
    __builtin_memset(before, BEFORE, sizeof before);
    for (int k = 0; k < CONTENDERS; k++) {
        Contender *c = &contenders[k];
        if (write_anew(c, o, room) != number)
            fail(1, "problems are not refused with", number);
        if (c->size != BEFORE || __builtin_memcmp(c->buffer, before, sizeof before) != 0)
            fail(1, "buffer or size is altered by the refusal", number);
    }
}

/* Versions and forms that don't go together: where all else is right, whole problems of either form, and where
 * there are too many of them. */
static void try_pairs(void)
{
    static const uint32_t versions[] = { 0, 1, 2, 3, 0xffffffff }, forms[] = { 0, 1, 2, 0xffffffff };
    for (int v = 0; v < 5; v++)
        for (int f = 0; f < 4; f++) {
            if ((versions[v] == 1 && forms[f] == 0) || (versions[v] == 2 && forms[f] == 1))
                continue;
            try_refusal((Order){ versions[v], forms[f], tagged, PROBLEM_SIZE * TAGGED_SIZE }, DECK_SIZE, 42);
            try_refusal((Order){ versions[v], forms[f], tagged, GROUP_SIZE + TAGGED_SIZE }, DECK_SIZE, 42);
        }
}

/* The deck of the chosen problems, at place 0, fills its buffer to the last byte. */
static void compare_writing(void)
{
    compare_decks((Order){ 2, 1, chosen, GROUP_SIZE }, 0);
    for (size_t i = 0; i < GROUPS; i++)
        compare_decks((Order){ 2, 1, tagged + i * GROUP_SIZE, GROUP_SIZE }, i + 1);
    compare_version_1();
    try_pairs();
    try_refusal((Order){ 2, 1, tagged, GROUP_SIZE + TAGGED_SIZE }, DECK_SIZE, 40);
    try_refusal((Order){ 2, 1, tagged, GROUP_SIZE + 1 }, DECK_SIZE, 46);
    try_refusal((Order){ 2, 1, tagged, TAGGED_SIZE - 1 }, DECK_SIZE, 46);
    try_refusal((Order){ 2, 1, chosen, GROUP_SIZE }, DECK_SIZE - 1, 41);
}

/* One line for each contender; its ratio is the proved function's time to its own. */
static void print_times(const char *what, int kind)
{
    const double *proved = contenders[0].times[kind];
    printf("%s\n", what);
    for (int k = 0; k < CONTENDERS; k++) {
        const double *times = contenders[k].times[kind];
        printf("  %-18s %9.1f ns", contenders[k].name, median(times, 0) * 1e9);
        if (k == 0)
            printf("\n");
        else
            printf("   proved / this %.3f\n", median(proved, times));
    }
}

/* What the proved code takes beside the C: for transfers, and for problems in the same run. */
static void print_transfer_ratios(void)
{
    const Contender *proved = &contenders[0];
    for (int k = 1; k < CONTENDERS; k++) {
        const Contender *c = &contenders[k];
        printf("  %-18s proved / this: transfer %.3f, predict %.3f; at most predict's is wanted\n", c->name,
            median(proved->times[TRANSFER], c->times[TRANSFER]), median(proved->times[PREDICT], c->times[PREDICT]));
    }
}

static double write_ratio(const Contender *c) { return median(c->times[WRITE], c->times[GROUPED]); }

/* What writing takes beside predicting the same problems: of the proved functions, and of the C. */
static void print_write_ratios(void)
{
    printf("write / predict %.3f, at most 1.1 is wanted\n", write_ratio(&contenders[0]));
    for (int k = 1; k < CONTENDERS; k++)
        printf("  %-18s write / predict %.3f\n", contenders[k].name, write_ratio(&contenders[k]));
}

static void time_all(int round)
{
    for (int k = 0; k < CONTENDERS; k++)
        contenders[k].times[PREDICT][round] = time_predict(&contenders[k], PROBLEMS);
    for (int k = 0; k < CONTENDERS; k++)
        contenders[k].times[TRANSFER][round] = time_transfer(&contenders[k]);
    for (int k = 0; k < CONTENDERS; k++)
        contenders[k].times[CHECK][round] = time_check(&contenders[k]);
    for (int k = 0; k < CONTENDERS; k++) {
        contenders[k].times[GROUPED][round] = time_predict(&contenders[k], GROUPS * MOST_CARDS);
        contenders[k].times[WRITE][round] = time_write(&contenders[k]);
    }
}

int main(void)
{
    read_inputs();
    tag_problems();
    size_t solved = make_deck();
    for (int round = 0; round < ROUNDS; round++)
        time_all(round);
    for (int k = 1; k < CONTENDERS; k++)
        compare_answers(&contenders[0], &contenders[k]);
    compare_writing();
    printf("%d problems, %lu of them solved, %d transfers, %lu of them solved, ",
        PROBLEMS, (unsigned long)solved, TRANSFERS, (unsigned long)solved_in(&contenders[0].transferred));
    printf("a deck of %d solved cards, %d decks written, of version 2: the three agree on all\n", MOST_CARDS, GROUPS);
    printf("rounds: %d; each figure is a median\n", ROUNDS);
    print_times("predict, time per problem", PREDICT);
    print_times("transfer, time per transfer", TRANSFER);
    print_transfer_ratios();
    print_times("check, time per card", CHECK);
    print_times("write, time per problem, 256 in a deck", WRITE);
    print_write_ratios();
    return 0;
}
