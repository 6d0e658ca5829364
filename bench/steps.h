/* What the steps of Kepler and of the transfer have in common (docs/RULES.md, docs/STEPS.md): numbers and
 * vectors, the root, the universal functions, the unit of time, and the search.
 *
 * Compiled twice: with ROOT_BY_DIGITS the root is found digit by digit on whole numbers, as
 * crates/root finds it; without, it is the processor's own. To be compiled with -ffp-contract=off
 * and no fast-math, so that each + - * / rounds once. A refusal is its number, and 0 is none.
 *
 * All that is made here is static and small: a file that includes it has its own copy, which the compiler
 * puts where it is used. No function is reached by a pointer, which would slow the C and flatter the proved
 * code. */
#ifndef STEPS_H
#define STEPS_H

#include "baseline.h"

#ifdef ROOT_BY_DIGITS
#define NAMED(name) digit_##name
#else
#define NAMED(name) hardware_##name
#endif

/* The verdict on a solved transfer, a card of kind 3, and its residual, |T - t| in seconds: what the check of
 * a deck, in bench/baseline.c, takes from bench/transfer.c. */
uint32_t NAMED(judge_transfer)(const uint8_t *body, double *residual);

typedef struct { double x, y, z; } Vector;
typedef struct { double u0, u1, u2, u3; } Functions;
typedef struct { double x, time; } Point;
typedef struct { Point lo, hi; } Bracket;

/* ---- words in bytes: little-endian, as the machine is */

static uint32_t half(const uint8_t *at)
{
    uint32_t w;
    __builtin_memcpy(&w, at, sizeof w);
    return w;
}

static double number(const uint8_t *at)
{
    double x;
    __builtin_memcpy(&x, at, sizeof x);
    return x;
}

static Vector vector(const uint8_t *at)
{
    return (Vector){ number(at), number(at + 8), number(at + 16) };
}

/* ---- numbers and vectors */

static int is_finite(double x) { return __builtin_isfinite(x); }
static int usable(double x) { return is_finite(x) && x != 0; }
static double absolute(double x) { return __builtin_fabs(x); }
static int near(double x, double y) { return absolute(x - y) <= 0x1p-36; }

static int all_finite(Vector a) { return is_finite(a.x) && is_finite(a.y) && is_finite(a.z); }
static double dot(Vector a, Vector b) { return a.x * b.x + a.y * b.y + a.z * b.z; }
static Vector over(Vector a, double k) { return (Vector){ a.x / k, a.y / k, a.z / k }; }

/* ---- the root */

#ifdef ROOT_BY_DIGITS

#define FIELD (1ull << 52)

/* The whole part of the root of v * 2^54, two digits of the radicand for each of the root. A digit is
 * picked without a branch: no processor foresees it. */
static uint64_t whole_root(uint64_t v)
{
    uint64_t root = 0, rest = 0;
    for (int left = 54; left > 0; left--) {
        rest = rest << 2 | v >> 52;
        v = (v & (FIELD - 1)) << 2;
        uint64_t taken = root << 2 | 1, less = rest - taken;
        root = root << 1 | (taken <= rest);
        rest = taken <= rest ? less : rest;
    }
    return root;
}

/* The word of the root of the number above zero whose word is w: that number is m * 2^c in steps of
 * 2^-1074, and its root v * 2^54 * 2^(2h) under the root sign, with a v of 53 or 54 digits. */
static uint64_t root_word(uint64_t w)
{
    uint64_t field = w >> 52;
    uint64_t m = field ? w % FIELD + FIELD : w;
    uint64_t c = field ? field - 1 : 0;
    int up = __builtin_clzll(m) - 11;
    uint64_t g = c + 53 - up;
    uint64_t h = (g + 967) / 2;
    uint64_t v = m << up << (g % 2 == 0);
    return ((h + 1) << 52) + (whole_root(v) + 1) / 2;
}

static double positive_root(double x)
{
    uint64_t w;
    __builtin_memcpy(&w, &x, sizeof w);
    w = root_word(w);
    __builtin_memcpy(&x, &w, sizeof x);
    return x;
}

#else

static double positive_root(double x) { return __builtin_sqrt(x); }

#endif

/* 0 where x has no root. */
static int root(double x, double *r)
{
    if (!is_finite(x) || x < 0)
        return 0;
    *r = x == 0 ? x : positive_root(x);
    return 1;
}

/* ---- the universal functions */

static const double EVEN[12] = {
    0.5, 0.041666666666666664, 0.001388888888888889, 2.48015873015873e-05,
    2.755731922398589e-07, 2.08767569878681e-09, 1.1470745597729725e-11, 4.779477332387385e-14,
    1.5619206968586225e-16, 4.110317623312165e-19, 8.896791392450574e-22, 1.6117375710961184e-24,
};

static const double ODD[12] = {
    0.16666666666666666, 0.008333333333333333, 0.0001984126984126984, 2.7557319223985893e-06,
    2.505210838544172e-08, 1.6059043836821613e-10, 7.647163731819816e-13, 2.8114572543455206e-15,
    8.22063524662433e-18, 1.9572941063391263e-20, 3.868170170630684e-23, 6.446950284384474e-26,
};

static double horner(const double table[12], double z)
{
    double sum = table[11];
    for (int k = 10; k >= 0; k--)
        sum = sum * -z + table[k];
    return sum;
}

static Functions doubled(double alpha, Functions u)
{
    double u2 = 2 * u.u1 * u.u1;
    return (Functions){ 1 - alpha * u2, 2 * u.u0 * u.u1, u2, 2 * u.u3 + 2 * (u.u1 * u.u2) };
}

/* Beyond |z| = 4 the series are refused: then the four are NaNs, and so is a time that is made of them. */
static Functions universal(double x, double alpha)
{
    double y = x / 4, h = y * y, z = alpha * h;
    if (!(absolute(z) <= 4)) {
        double nan = __builtin_nan("");
        return (Functions){ nan, nan, nan, nan };
    }
    double u2 = h * horner(EVEN, z);
    double u3 = (y * h) * horner(ODD, z);
    Functions u = { 1 - alpha * u2, y - alpha * u3, u2, u3 };
    return doubled(alpha, doubled(alpha, u));
}

/* ---- the length of a position, and the unit of time; `unrooted` is the number where a root is refused */

static int length_of(Vector r, int unrooted, double *length)
{
    double square = dot(r, r);
    if (!usable(square))
        return 5;
    if (!root(square, length))
        return unrooted;
    return usable(*length) ? 0 : 5;
}

/* Makes f1; the unit is r0 * f1. */
static int time_unit(double mu, double r0, int unrooted, double *f1)
{
    if (!usable(r0 / mu))
        return 6;
    if (!root(r0 / mu, f1))
        return unrooted;
    return usable(*f1) && usable(r0 * *f1) ? 0 : 6;
}

/* ---- the search, of whatever unknown: whoever runs it works the time at each guess */

/* The guess that was made last or comes next, how many were made and may be, and the bracket. */
typedef struct { double t, x; uint32_t count, limit; Bracket b; } Search;

/* What a step comes to, beside a refusal. */
enum { GOES_ON = 0, FOUND = -1 };

static int inside(Bracket b, double x) { return b.lo.x < x && x < b.hi.x; }
static int within(Bracket b, double x) { return b.lo.x <= x && x <= b.hi.x; }
static double middle(Bracket b) { return b.lo.x + (b.hi.x - b.lo.x) / 2; }

/* Where the line through the guess and a bound reaches the time t. */
static double line(Point guess, Point bound, double t)
{
    return guess.x + ((t - guess.time) / (guess.time - bound.time)) * (guess.x - bound.x);
}

/* Step 5; 0 where nothing lies strictly inside the new bracket. */
static int next(Bracket old, Bracket new, Point guess, double t, double *x)
{
    int lower = guess.time < t;
    *x = line(guess, lower ? old.lo : old.hi, t);
    if (inside(new, *x))
        return 1;
    *x = line(guess, lower ? old.hi : old.lo, t);
    if (inside(new, *x))
        return 1;
    *x = middle(new);
    return inside(new, *x);
}

static Search begun(Bracket b, double t, uint32_t limit)
{
    return (Search){ t, within(b, t) ? t : middle(b), 0, limit, b };
}

/* Counts the guess, whose time is given, and takes the steps 1 to 5 with it. */
static int step(Search *s, double time)
{
    Point guess = { s->x, time };
    Bracket old = s->b;
    s->count++;
    if (!is_finite(time))
        return 6;
    if (near(time, s->t))
        return FOUND;
    if (time < s->t)
        s->b.lo = guess;
    else
        s->b.hi = guess;
    if (s->count == s->limit)
        return 10;
    return next(old, s->b, guess, s->t, &s->x) ? GOES_ON : 9;
}

#endif
