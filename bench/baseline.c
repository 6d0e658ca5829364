/* The steps of docs/RULES.md in plain C: what the proved code is measured against. The transfer stands in
 * bench/transfer.c, with the verdict on a card of kind 3; no such card is measured. How both are compiled,
 * twice, bench/steps.h says. */
#include "steps.h"

typedef struct { Vector r, v; } State;
typedef struct { double mu; Vector r, v; double dt; uint32_t limit; } Problem;
typedef struct { double s, alpha, p, t, f4, r0; Vector r, v; } Scaled;
typedef struct { int refusal; uint32_t count; double x; State state; double lo, hi; } Outcome;

static Problem problem_of(const uint8_t *body)
{
    return (Problem){ number(body), vector(body + 8), vector(body + 32), number(body + 56), half(body + 64) };
}

static Vector times(double k, Vector a) { return (Vector){ k * a.x, k * a.y, k * a.z }; }

static Vector combined(Vector a, double f, Vector b, double g)
{
    return (Vector){ a.x * f + b.x * g, a.y * f + b.y * g, a.z * f + b.z * g };
}

static double time_of(double s, Functions u) { return u.u1 + s * u.u2 + u.u3; }
static double ratio_of(double s, Functions u) { return u.u0 + s * u.u1 + u.u2; }

/* ---- from the state to the scaled problem, and the tests before the first guess */

static int scale(const Problem *p, Scaled *o)
{
    double r0, f1;
    int refusal = length_of(p->r, 14, &r0);
    if (refusal)
        return refusal;
    refusal = time_unit(p->mu, r0, 14, &f1);
    if (refusal)
        return refusal;
    double f4 = r0 * f1;
    Vector u = over(p->r, r0), w = times(f1, p->v);
    double s = dot(u, w), q = dot(w, w);
    *o = (Scaled){ s, 2 - q, q - s * s, p->dt / f4, f4, r0, p->r, p->v };
    if (!all_finite(w) || !is_finite(s) || !is_finite(q))
        return 6;
    if (!is_finite(o->alpha) || !is_finite(o->p) || !is_finite(o->t))
        return 6;
    return o->p < 0x1p-20 ? 7 : 0;
}

static int far_end(double alpha, double *X)
{
    double k;
    *X = 63.5;
    if (absolute(alpha) <= 1 / 64.0)
        return 0;
    if (!root(absolute(alpha), &k))
        return 14;
    *X = 7.9375 / k;
    return 0;
}

static int start(const Scaled *o, Bracket *b)
{
    double X, t = o->t;
    int refusal = far_end(o->alpha, &X);
    if (refusal)
        return refusal;
    Point zero = { 0, 0 }, far = { t >= 0 ? X : -X, 0 };
    far.time = time_of(o->s, universal(far.x, o->alpha));
    if (!is_finite(far.time))
        return 6;
    if (t >= 0 ? far.time < t : far.time > t)
        return 8;
    *b = t >= 0 ? (Bracket){ zero, far } : (Bracket){ far, zero };
    return 0;
}

/* The refusals of the eight numbers given begin with 101; a card from before has 1 for each of them. */
enum { FIRST_INPUT = 101, ANY_INPUT = 1 };

/* The refusal by the place of the first number that is not finite; 0 where there is none. */
static int first_not_finite(const Problem *p)
{
    const double given[] = { p->mu, p->r.x, p->r.y, p->r.z, p->v.x, p->v.y, p->v.z, p->dt };
    for (int place = 0; place < 8; place++)
        if (!is_finite(given[place]))
            return FIRST_INPUT + place;
    return 0;
}

static int entry(const Problem *p, Scaled *o, Bracket *b)
{
    int refusal = first_not_finite(p);
    if (refusal)
        return refusal;
    if (!(p->mu > 0))
        return 2;
    if (p->limit < 1 || p->limit > 100)
        return 3;
    refusal = scale(p, o);
    return refusal ? refusal : start(o, b);
}

/* ---- unfolding */

static State unfolded(const Scaled *o, Functions u, double R)
{
    double F = 1 - u.u2, G = u.u1 + o->s * u.u2;
    double Ft = ((-u.u1) / R) / o->f4, Gt = 1 - u.u2 / R;
    return (State){ combined(o->r, F, times(o->f4, o->v), G), combined(o->r, Ft, o->v, Gt) };
}

static int arrive(const Scaled *o, Functions u, State *state)
{
    double R = ratio_of(o->s, u);
    if (!(R >= 0x1p-10))
        return 11;
    *state = unfolded(o, u, R);
    return all_finite(state->r) && all_finite(state->v) ? 0 : 6;
}

/* ---- the search */

static Outcome refused(int refusal, uint32_t count)
{
    return (Outcome){ .refusal = refusal, .count = count };
}

static Outcome bracketed(int refusal, uint32_t count, Bracket b)
{
    return (Outcome){ .refusal = refusal, .count = count, .lo = b.lo.x, .hi = b.hi.x };
}

static Outcome search(const Scaled *o, Bracket b, uint32_t limit)
{
    Search s = begun(b, o->t, limit);
    Functions u;
    int end;
    do {
        u = universal(s.x, o->alpha);
        end = step(&s, time_of(o->s, u));
    } while (end == GOES_ON);
    if (end != FOUND)
        return end == 6 ? refused(6, s.count) : bracketed(end, s.count, s.b);
    Outcome out = { .count = s.count, .x = s.x };
    out.refusal = arrive(o, u, &out.state);
    return out;
}

static Outcome kepler(const Problem *p)
{
    Scaled o;
    Bracket b;
    int refusal = entry(p, &o, &b);
    return refusal ? refused(refusal, 0) : search(&o, b, p->limit);
}

uint32_t NAMED(predict)(const uint8_t *problem, double *sum)
{
    Problem p = problem_of(problem);
    Outcome out = kepler(&p);
    if (out.refusal)
        return out.refusal;
    Vector r = out.state.r, v = out.state.v;
    *sum = out.x + r.x + r.y + r.z + v.x + v.y + v.z;
    return 0;
}

/* ---- the deck */

enum { SOLVED = 1, REFUSED, SOLVED_TRANSFER };

/* Where entry i stands; behind the last entry the bodies begin. */
static size_t entry_at(size_t i) { return 8 + 12 * i; }

static int known(uint32_t version) { return version == 1 || version == 2; }

/* How many bytes of a card are its object and its epoch: its tag. */
static size_t tag_size(uint32_t version) { return version == 2 ? TAG_SIZE : 0; }

/* 0 where the kind is unknown. */
static size_t body_size(uint32_t kind, size_t tag)
{
    switch (kind) {
    case SOLVED:
        return SOLVED_SIZE + tag;
    case REFUSED:
        return REFUSED_SIZE + tag;
    case SOLVED_TRANSFER:
        return SOLVED_TRANSFER_SIZE + tag;
    default:
        return 0;
    }
}

/* In a body of kind 1 or 2: behind the problem its spare, then the tag, then what is said of the problem. */
enum { SPARE_AT = PROBLEM_SIZE, TAG_AT = SPARE_AT + 4 };
static size_t said_at(size_t tag) { return TAG_AT + tag; }

/* The verdict on a solved card, and its residual, |T - t| in seconds. */
static uint32_t judge_solved(const uint8_t *body, const uint8_t *said, double *residual)
{
    if (half(body + SPARE_AT) != 0)
        return 23;
    Problem p = problem_of(body);
    Scaled o;
    Bracket b;
    uint32_t refusal = entry(&p, &o, &b);
    if (refusal)
        return refusal;
    double x = number(said);
    if (!is_finite(x) || !within(b, x))
        return 20;
    Functions u = universal(x, o.alpha);
    double T = time_of(o.s, u);
    if (!is_finite(T))
        return 6;
    if (!near(T, o.t))
        return 21;
    State state;
    refusal = arrive(&o, u, &state);
    if (refusal)
        return refusal;
    *residual = absolute(T - o.t) * o.f4;
    return __builtin_memcmp(&state, said + 8, sizeof state) == 0 ? 0 : 22;
}

static uint32_t judge_refused(const uint8_t *body, const uint8_t *said)
{
    if (half(body + SPARE_AT) != 0 || half(said + 4) != 0)
        return 23;
    Problem p = problem_of(body);
    uint32_t refusal = kepler(&p).refusal, told = half(said);
    int meant = refusal == told || (told == ANY_INPUT && refusal >= FIRST_INPUT);
    return refusal && meant ? 0 : 24;
}

static uint32_t judge(uint32_t kind, const uint8_t *body, size_t tag, double *residual)
{
    if (kind == SOLVED_TRANSFER)
        return NAMED(judge_transfer)(body, residual);
    const uint8_t *said = body + said_at(tag);
    return kind == SOLVED ? judge_solved(body, said, residual) : judge_refused(body, said);
}

/* Refusals 34 to 37 of one entry, whose body is to begin at `at`. */
static int entry_refusal(const uint8_t *fields, size_t tag, size_t at, size_t length)
{
    size_t size = body_size(half(fields), tag);
    if (size == 0)
        return 34;
    if (half(fields + 8) != size)
        return 35;
    if (half(fields + 4) != at)
        return 36;
    return length - at < size ? 37 : 0;
}

/* Refusals 30 to 39. */
static int deck_refusal(const uint8_t *deck, size_t length, size_t room)
{
    if (length < 8)
        return 30;
    if (!known(half(deck)))
        return 31;
    uint32_t count = half(deck + 4);
    if (count > MOST_CARDS)
        return 32;
    size_t at = entry_at(count);
    if (length < at)
        return 33;
    for (uint32_t i = 0; i < count; i++) {
        int refusal = entry_refusal(deck + entry_at(i), tag_size(half(deck)), at, length);
        if (refusal)
            return refusal;
        at += half(deck + entry_at(i) + 8);
    }
    if (at != length)
        return 38;
    return room < count ? 39 : 0;
}

typedef struct { uint32_t solved, refused, rejected; double sum, worst; } Tally;

static void add_solved(Tally *tally, double residual)
{
    tally->solved++;
    tally->sum += residual;
    if (tally->worst < residual)
        tally->worst = residual;
}

double NAMED(check)(const uint8_t *deck, size_t length, uint32_t *verdicts, size_t room)
{
    int refusal = deck_refusal(deck, length, room);
    if (refusal)
        return -refusal;
    size_t tag = tag_size(half(deck));
    uint32_t count = half(deck + 4);
    const uint8_t *body = deck + entry_at(count);
    Tally tally = { 0 };
    for (uint32_t i = 0; i < count; i++) {
        uint32_t kind = half(deck + entry_at(i));
        double residual = 0;
        verdicts[i] = judge(kind, body, tag, &residual);
        if (verdicts[i] != 0)
            tally.rejected++;
        else if (kind == REFUSED)
            tally.refused++;
        else
            add_solved(&tally, residual);
        body += body_size(kind, tag);
    }
    return tally.solved ? tally.sum / tally.solved : 0.0 / 0.0;
}

/* ---- writing a deck */

static void put_half(uint8_t *at, uint32_t w) { __builtin_memcpy(at, &w, sizeof w); }

static uint32_t kind_of(const Outcome *out) { return out->refusal ? REFUSED : SOLVED; }

static void put_entry(uint32_t kind, size_t at, size_t size, uint8_t *fields)
{
    put_half(fields, kind);
    put_half(fields + 4, at);
    put_half(fields + 8, size);
}

static void put_body(const uint8_t *problem, size_t tag, const Outcome *out, uint8_t *body)
{
    uint8_t *said = body + said_at(tag);
    __builtin_memcpy(body, problem, PROBLEM_SIZE);
    put_half(body + SPARE_AT, 0);
    __builtin_memcpy(body + TAG_AT, problem + PROBLEM_SIZE, tag);
    if (out->refusal) {
        put_half(said, out->refusal);
        put_half(said + 4, 0);
        return;
    }
    __builtin_memcpy(said, &out->x, sizeof out->x);
    __builtin_memcpy(said + 8, &out->state, sizeof out->state);
}

static void put_deck(uint32_t version, const uint8_t *problems, const Outcome *outcomes, size_t count, uint8_t *deck)
{
    size_t tag = tag_size(version), at = entry_at(count);
    put_half(deck, version);
    put_half(deck + 4, count);
    for (size_t i = 0; i < count; i++) {
        uint32_t kind = kind_of(&outcomes[i]);
        size_t size = body_size(kind, tag);
        put_entry(kind, at, size, deck + entry_at(i));
        put_body(problems + i * (PROBLEM_SIZE + tag), tag, &outcomes[i], deck + at);
        at += size;
    }
}

/* How long the deck is depends on what is solved: all outcomes are known before a byte is written. */
uint32_t NAMED(write)(uint32_t version, uint32_t form, const uint8_t *problems, size_t length, uint8_t *buffer,
    size_t room, size_t *size)
{
    if (!known(version) || form != (version == 2))
        return 42;
    size_t tag = tag_size(version), record = PROBLEM_SIZE + tag;
    size_t count = length / record, end = entry_at(count);
    if (count > MOST_CARDS)
        return 40;
    if (length % record != 0)
        return 46;
    Outcome outcomes[MOST_CARDS];
    for (size_t i = 0; i < count; i++) {
        Problem p = problem_of(problems + i * record);
        outcomes[i] = kepler(&p);
        end += body_size(kind_of(&outcomes[i]), tag);
    }
    if (room < end)
        return 41;
    put_deck(version, problems, outcomes, count, buffer);
    *size = end;
    return 0;
}
