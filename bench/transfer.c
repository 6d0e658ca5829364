/* The steps of docs/STEPS.md, Required velocity, in plain C: what the proved transfer is measured against.
 * How it is compiled, twice, bench/steps.h says. */
#include "steps.h"

typedef struct { double mu; Vector r1, r2; double dt; uint32_t limit, way; } Transfer;
/* The two positions in units of the first. A is below zero for the long way. */
typedef struct { Vector u, d; double rho, A, f1, f4, t; } Leg;
/* What a z comes to: y, G = A*g and the time. */
typedef struct { double y, G, time; } Reach;
/* z and v where nothing is refused; the bracket's ends belong to 9 and 10 alone. */
typedef struct { int refusal; uint32_t count; double z; Vector v; double lo, hi; } Departure;

static Transfer transfer_of(const uint8_t *at)
{
    return (Transfer){ number(at), vector(at + 8), vector(at + 32), number(at + 56), half(at + 64), half(at + 68) };
}

/* ---- the tests before the first guess */

static int given(const Transfer *p)
{
    if (p->way > 1)
        return 23;
    if (!is_finite(p->mu) || !all_finite(p->r1) || !all_finite(p->r2) || !is_finite(p->dt))
        return 1;
    if (!(p->mu > 0))
        return 2;
    return p->limit < 1 || p->limit > 100 ? 3 : 0;
}

/* Steps 1 to 3. */
static int sizes(const Transfer *p, double *r0, double *m2, double *f1)
{
    int refusal = length_of(p->r1, 6, r0);
    if (refusal)
        return refusal;
    refusal = length_of(p->r2, 6, m2);
    return refusal ? refusal : time_unit(p->mu, *r0, 6, f1);
}

/* Steps 4 to 7. */
static int leg_of(const Transfer *p, Leg *o)
{
    double r0, m2, f1, A;
    int refusal = sizes(p, &r0, &m2, &f1);
    if (refusal)
        return refusal;
    Vector u = over(p->r1, r0), e = over(p->r2, m2), d = over(p->r2, r0);
    double f4 = r0 * f1, t = p->dt / f4, rho = m2 / r0, c = dot(u, e);
    if (!is_finite(t) || !all_finite(u) || !all_finite(e) || !all_finite(d) || !is_finite(rho) || !is_finite(c))
        return 6;
    if (1 - absolute(c) < 0x1p-20)
        return 50;
    if (!root(rho * (1 + c), &A))
        return 6;
    *o = (Leg){ u, d, rho, p->way ? -A : A, f1, f4, t };
    return 0;
}

/* ---- a z, its time and its velocity */

/* A root that is refused is NaN, and so is then all that is made of it. */
static double root_in_time(double x)
{
    double r;
    return root(x, &r) ? r : 0.0 / 0.0;
}

/* Steps 8 to 13. */
static Reach reach(const Leg *o, double z)
{
    Functions u = universal(1, z);
    double C = u.u2, S = u.u3, k = root_in_time(C);
    double y = 1 + o->rho - (o->A * (1 - z * S)) / k;
    double g = root_in_time(y), x = g / k, G = o->A * g;
    return (Reach){ y, G, x * x * x * S + G };
}

/* Step 15, of one component. */
static double speed(double d, double u, Reach at, double f1)
{
    double F = 1 - at.y;
    return ((d - u * F) / at.G) / f1;
}

static int depart(const Leg *o, Reach at, Vector *v)
{
    Vector d = o->d, u = o->u;
    *v = (Vector){ speed(d.x, u.x, at, o->f1), speed(d.y, u.y, at, o->f1), speed(d.z, u.z, at, o->f1) };
    return all_finite(*v) ? 0 : 6;
}

/* ---- the search */

static int bracket_of(const Leg *o, Bracket *b)
{
    *b = (Bracket){ { 0, reach(o, 0).time }, { 36, 0 } };
    if (!is_finite(b->lo.time))
        return 6;
    if (o->t < b->lo.time)
        return 51;
    b->hi.time = reach(o, b->hi.x).time;
    if (!is_finite(b->hi.time))
        return 6;
    return o->t > b->hi.time ? 52 : 0;
}

static int start(const Transfer *p, Leg *o, Bracket *b)
{
    int refusal = given(p);
    if (refusal)
        return refusal;
    refusal = leg_of(p, o);
    return refusal ? refusal : bracket_of(o, b);
}

static Departure search(const Leg *o, Bracket b, uint32_t limit)
{
    Search s = begun(b, o->t, limit);
    Reach at;
    int end;
    do {
        at = reach(o, s.x);
        end = step(&s, at.time);
    } while (end == GOES_ON);
    if (end != FOUND)
        return (Departure){ .refusal = end, .count = s.count, .lo = s.b.lo.x, .hi = s.b.hi.x };
    Departure out = { .count = s.count, .z = s.x };
    out.refusal = depart(o, at, &out.v);
    return out;
}

uint32_t NAMED(transfer)(const uint8_t *transfer, double *sum)
{
    Transfer p = transfer_of(transfer);
    Leg o;
    Bracket b;
    int refusal = start(&p, &o, &b);
    if (refusal)
        return refusal;
    Departure out = search(&o, b, p.limit);
    if (out.refusal)
        return out.refusal;
    *sum = out.z + out.v.x + out.v.y + out.v.z;
    return 0;
}

/* z and the velocity stand behind the transfer, in either version. */
uint32_t NAMED(judge_transfer)(const uint8_t *body, double *residual)
{
    Transfer p = transfer_of(body);
    Leg o;
    Bracket b;
    int refusal = start(&p, &o, &b);
    if (refusal)
        return refusal;
    double z = number(body + TRANSFER_SIZE);
    if (!is_finite(z) || !within(b, z))
        return 20;
    Reach at = reach(&o, z);
    if (!is_finite(at.time))
        return 6;
    if (!near(at.time, o.t))
        return 21;
    Vector v;
    refusal = depart(&o, at, &v);
    if (refusal)
        return refusal;
    *residual = absolute(at.time - o.t) * o.f4;
    return __builtin_memcmp(&v, body + TRANSFER_SIZE + 8, sizeof v) == 0 ? 0 : 22;
}
