/* Potential evapotranspiration from radiation (M-103): readings by all that have the two estimates, and
 * how often each limit, each odd double and each step to the next unit was met. */
#include "fuzz.h"
#include "plain.h"

#include <inttypes.h>
#include <stdio.h>

enum { QUESTIONS = 20 }; /* of each seed */

enum { TURC, JENSEN_HAISE, CALLS };
static const char *const call_names[CALLS] = {"Turc", "Jensen-Haise"};
static const int readings_of[CALLS] = {3, 2}; /* the first so many are read */
static const uint64_t largest[CALLS] = {7370, 10543};
static const char *const reading_names[READINGS] = {"mean", "radiation", "humidity"};

/* Questions to each call, by what came of them. */
static struct {
    uint64_t refused_by[READINGS], by_more; /* that reading alone; more than one */
    uint64_t beside[BESIDES];               /* where the units lie of a whole number; none: estimates of 0 too */
    uint64_t largest;                       /* that gave the largest */
    uint64_t held, whole, one_less;         /* accepted, held to exact numbers; whole in these; a unit less than these */
} calls[CALLS];

/* Accepted questions. */
static struct {
    uint64_t frozen, dry, moist; /* by Turc: at 0 degrees or below; above, with a humidity below 50; from 50 on */
    uint64_t cold, cool, dark;   /* by Jensen-Haise: below 0, so that it is 0; above 0 below 0 degrees; -0.0, cold without radiation */
    uint64_t humidity_unasked;   /* by Jensen-Haise, beside a humidity that Turc refuses */
} met;

/* ---------------------------------------------------------------- what readings were met */

/* What a reading's bits are. */
enum {
    QUIET, QUIET_SIGNED, SIGNALLING, SIGNALLING_SIGNED, INFINITE, INFINITE_BELOW, HUGE_NUMBER, SMALLEST_NORMAL, SUBNORMAL,
    SUBNORMAL_BELOW, ZERO, MINUS_ZERO, ORDINARY, KINDS
};
static const char *const kind_names[KINDS] = {
    "not a number, quiet", "the same with a sign", "not a number, signalling", "the same with a sign", "infinity", "-infinity",
    "2^64 or more, or -2^64 or less", "the smallest normal or its opposite", "subnormal", "subnormal, below 0", "0.0", "-0.0", "any other"};

/* Numbers at which something turns, each with the double just below and the one just above. */
static const struct {
    int which;
    double number;
} turns[] = {{MEAN, -60}, {MEAN, -3.2}, {MEAN, 0}, {MEAN, 60}, {RADIATION, 0}, {RADIATION, 1000}, {HUMIDITY, 0}, {HUMIDITY, 50},
             {HUMIDITY, 100}};
enum { TURNS = sizeof turns / sizeof turns[0], PLACES = 3 };

/* Readings beside which the others lie within their limits, so that it is this one that decides. */
static uint64_t kinds[KINDS][READINGS], turned[TURNS][PLACES];

static int kind_of(double reading)
{
    const uint64_t bits = bits_of(reading), size = bits & ~BINARY64_SIGN;
    const int is_signed = bits != size;

    if (size > BINARY64_INFINITY)
        return (size & BINARY64_QUIET ? QUIET : SIGNALLING) + is_signed;
    if (size == BINARY64_INFINITY)
        return INFINITE + is_signed;
    if (size >= bits_of(0x1p64))
        return HUGE_NUMBER;
    if (size > BINARY64_NORMAL)
        return ORDINARY;
    if (size == BINARY64_NORMAL)
        return SMALLEST_NORMAL;
    return (size > 0 ? SUBNORMAL : ZERO) + is_signed;
}

static void count_reading(int which, double reading)
{
    kinds[kind_of(reading)][which]++;
    for (int i = 0; i < TURNS; i++)
        for (int place = 0; place < PLACES; place++)
            turned[i][place] += turns[i].which == which && rank_of(reading) == rank_of(turns[i].number) + place - 1;
}

/* Do all readings lie within their limits, but for one, of which nothing is asked? */
static bool others_fit(const struct readings_case *c, int one)
{
    for (int k = 0; k < READINGS; k++)
        if (k != one && !case_fits(k, c->reading[k]))
            return false;
    return true;
}

static bool all_fit(const struct readings_case *c)
{
    return others_fit(c, READINGS);
}

/* ---------------------------------------------------------------- asking */

struct estimated {
    uint64_t returned, potential;
};

static bool has(const struct implementation *x, int call)
{
    return call == TURC ? x->turc != NULL : x->jensen_haise != NULL;
}

/* The estimate is lent between two numbers that no call may touch, and has to be written, refused or not. */
static struct estimated ask(const struct implementation *x, int call, const double *reading)
{
    enum { BEFORE, POTENTIAL, AFTER, LENT };
    uint64_t lent[LENT] = {0xfeed0005, 0xdeaddeaddead0000, 0xfeed0006}, returned;

    if (call == TURC)
        returned = x->turc(reading[MEAN], reading[RADIATION], reading[HUMIDITY], &lent[POTENTIAL]);
    else
        returned = x->jensen_haise(reading[MEAN], reading[RADIATION], &lent[POTENTIAL]);
    if (lent[BEFORE] != 0xfeed0005 || lent[AFTER] != 0xfeed0006)
        fail("%s: %s writes beside the estimate", call_names[call], x->name);
    return (struct estimated){returned, lent[POTENTIAL]};
}

static void same_estimate(int call, const double *reading, const char *who, struct estimated found, const char *what,
                          struct estimated wanted)
{
    if (found.returned == wanted.returned && found.potential == wanted.potential)
        return;
    fail("%s of %a, %a and %a: %s has %" PRIu64 " (refusal %" PRIu64 " at %" PRIu64 "), %s %" PRIu64 " (%" PRIu64 " at %" PRIu64 ")",
         call_names[call], reading[MEAN], reading[RADIATION], reading[HUMIDITY], who, found.potential, found.returned >> 32,
         found.returned & UINT32_MAX, what, wanted.potential, wanted.returned >> 32, wanted.returned & UINT32_MAX);
}

/* Units, to the last bit: as they must be, and as the plain C has them. */
static struct binary64 units_of(int call, const double *reading)
{
    const double t = reading[MEAN], r = reading[RADIATION], h = reading[HUMIDITY];
    const struct binary64 units = call == TURC ? case_turc(reading) : case_jensen_haise(reading);
    const double plain = plain_units(call == TURC ? plain_turc_millimetres(t, r, h) : plain_jensen_haise_millimetres(t, r));

    if (!binary64_same(units, binary64_of(plain)))
        fail("%s of %a, %a and %a: the plain C has %a units, which is another double", call_names[call], t, r, h, plain);
    return units;
}

/* Exact numbers give the same of a station's readings, or one more where they are whole: their denominators are too
 * small for any other fraction to lie as near to a whole number as the roundings reach. */
static void hold_to_exact(int call, const struct readings_case *c, uint64_t potential)
{
    const struct exact exact = call == TURC ? case_exact_turc(c->number) : case_exact_jensen_haise(c->number);
    const uint64_t most = (uint64_t)(exact.above / exact.below);
    const bool whole = exact.above > 0 && exact.above % exact.below == 0, one_less = potential + 1 == most;

    if (potential != most && !(whole && one_less))
        fail("%s of %" PRId32 " tenths, %" PRId32 " and %" PRId32 ": all have %" PRIu64 ", exact numbers %" PRIu64, call_names[call],
             c->number[MEAN], c->number[RADIATION], c->number[HUMIDITY], potential, most);
    calls[call].held++;
    calls[call].whole += whole;
    calls[call].one_less += one_less;
}

static void count_accepted(int call, const double *reading, struct binary64 units, uint64_t potential)
{
    calls[call].beside[units.m == 0 ? BESIDE_NONE : binary64_beside_whole(units)]++;
    calls[call].largest += potential == largest[call];
    if (call == TURC) {
        met.frozen += reading[MEAN] <= 0;
        met.dry += reading[MEAN] > 0 && reading[HUMIDITY] < 50;
        met.moist += reading[MEAN] > 0 && reading[HUMIDITY] >= 50;
    } else {
        const double line = plain_jensen_haise_line(reading[MEAN], reading[RADIATION]);
        met.cold += line < 0;
        met.cool += reading[MEAN] < 0 && potential > 0;
        met.dark += bits_of(line) == bits_of(-0.0);
        met.humidity_unasked += !case_fits(HUMIDITY, reading[HUMIDITY]);
    }
}

static void count_refused(int call, const double *reading)
{
    int bad = 0, last = 0;

    for (int k = 0; k < readings_of[call]; k++)
        if (!case_fits(k, reading[k])) {
            bad++;
            last = k;
        }
    if (bad == 1)
        calls[call].refused_by[last]++;
    else
        calls[call].by_more++;
}

/* One call, by all that have it. */
static void all_estimates(int call, const struct readings_case *c)
{
    struct estimated foretold = {0};
    struct binary64 units = {0};
    const bool accepted = call == TURC ? all_fit(c) : others_fit(c, HUMIDITY);

    if (accepted) {
        units = units_of(call, c->reading);
        foretold.potential = binary64_floor(units);
    } else {
        foretold.returned = (uint64_t)13 << 32;
    }
    for (size_t x = 0; x < implementations_count; x++)
        if (has(&implementations[x], call))
            same_estimate(call, c->reading, implementations[x].name, ask(&implementations[x], call, c->reading), "M-103", foretold);
    if (foretold.potential > largest[call])
        fail("%s: %" PRIu64 " passes the largest", call_names[call], foretold.potential);

    count_refusal(call == TURC ? tally.turc : tally.jensen_haise, foretold.returned);
    if (!accepted) {
        count_refused(call, c->reading);
        return;
    }
    count_accepted(call, c->reading, units, foretold.potential);
    if (c->by_station)
        hold_to_exact(call, c, foretold.potential);
}

/* Of accepted readings: the least radiation that gives a unit more, if any does, or as much; or the double
 * just below that. No estimate falls where the radiation rises, since no rounding turns two numbers round. */
static void aim_at_step(int call, struct readings_case *c)
{
    const struct implementation *x = &implementations[0];
    double *radiation = &c->reading[RADIATION];
    int64_t under = -1, least = rank_of(1000);
    const uint64_t here = ask(x, call, c->reading).potential;

    *radiation = 1000;
    const uint64_t wanted = ask(x, call, c->reading).potential > here ? here + 1 : here;
    while (least - under > 1) {
        const int64_t middle = under + (least - under) / 2;
        *radiation = of_rank(middle);
        if (ask(x, call, c->reading).potential >= wanted)
            least = middle;
        else
            under = middle;
    }
    *radiation = of_rank(least > 0 && chance(50) ? least - 1 : least);
    c->by_station = false;
}

void run_radiation(uint64_t seed)
{
    struct readings_case c;

    set_current("radiation", seed);
    start_random(seed ^ UINT64_MAX / 3);
    for (int i = 0; i < QUESTIONS; i++) {
        make_readings(&c);
        if (all_fit(&c) && chance(25))
            aim_at_step(chance(50) ? TURC : JENSEN_HAISE, &c);
        for (int k = 0; k < READINGS; k++)
            if (others_fit(&c, k))
                count_reading(k, c.reading[k]);
        for (int call = 0; call < CALLS; call++)
            all_estimates(call, &c);
    }
}

/* ---------------------------------------------------------------- in print */

static void report_call(int call)
{
    const uint64_t *beside = calls[call].beside;

    printf("%s, refused for", call_names[call]);
    for (int k = 0; k < readings_of[call]; k++)
        printf(" the %s alone: %" PRIu64 ",", reading_names[k], calls[call].refused_by[k]);
    printf(" more than one: %" PRIu64 "; units a whole number: %" PRIu64 ", within one part in 2^40 below one: %" PRIu64 ", above: %" PRIu64
           "; the largest, %" PRIu64 ": %" PRIu64 "\n",
           calls[call].by_more, beside[AT_WHOLE], beside[BELOW_WHOLE], beside[ABOVE_WHOLE], largest[call], calls[call].largest);
    printf("%s, a station's readings held to exact numbers: %" PRIu64 ", whole in these: %" PRIu64 ", of them a unit less: %" PRIu64 "\n",
           call_names[call], calls[call].held, calls[call].whole, calls[call].one_less);
}

void report_radiation(void)
{
    for (int call = 0; call < CALLS; call++)
        report_call(call);
    printf("by Turc at 0 degrees or below: %" PRIu64 ", with a humidity below 50: %" PRIu64 ", from 50 on: %" PRIu64
           "; by Jensen-Haise below 0: %" PRIu64 ", above 0 below 0 degrees: %" PRIu64 ", -0.0: %" PRIu64
           ", beside a humidity that Turc refuses: %" PRIu64 "\n",
           met.frozen, met.dry, met.moist, met.cold, met.cool, met.dark, met.humidity_unasked);
    printf("\n%-40s %10s %10s %10s\n", "readings where the others are inside", reading_names[MEAN], reading_names[RADIATION],
           reading_names[HUMIDITY]);
    for (int i = 0; i < KINDS; i++)
        printf("%-40s %10" PRIu64 " %10" PRIu64 " %10" PRIu64 "\n", kind_names[i], kinds[i][MEAN], kinds[i][RADIATION], kinds[i][HUMIDITY]);
    printf("\n%-40s %10s %10s %10s\n", "the same at a number", "just below", "at it", "just above");
    for (int i = 0; i < TURNS; i++)
        printf("%-30s %9g %10" PRIu64 " %10" PRIu64 " %10" PRIu64 "\n", reading_names[turns[i].which], turns[i].number, turned[i][0],
               turned[i][1], turned[i][2]);
    printf("\n");
}

static void call_often(int call, uint64_t cases)
{
    for (int k = 0; k < readings_of[call]; k++)
        enough("an estimate was refused for one reading alone", calls[call].refused_by[k], cases);
    enough("an estimate was refused for more than one reading", calls[call].by_more, cases);
    enough("units were a whole number", calls[call].beside[AT_WHOLE], cases);
    enough("units were just below a whole number", calls[call].beside[BELOW_WHOLE], cases);
    enough("units were just above a whole number", calls[call].beside[ABOVE_WHOLE], cases);
    enough("an estimate was the largest", calls[call].largest, cases);
    enough("an estimate was whole in exact numbers", calls[call].whole, cases);
    enough("an estimate was a unit less than in exact numbers", calls[call].one_less, cases);
}

void radiation_often(uint64_t cases)
{
    char what[100];

    for (int call = 0; call < CALLS; call++)
        call_often(call, cases);
    enough("Turc was asked at 0 degrees or below", met.frozen, cases);
    enough("Turc was asked of a humidity below 50", met.dry, cases);
    enough("Turc was asked of a humidity from 50 on", met.moist, cases);
    enough("Jensen-Haise was below 0", met.cold, cases);
    enough("Jensen-Haise was above 0 below 0 degrees", met.cool, cases);
    enough("Jensen-Haise was -0.0", met.dark, cases);
    enough("Jensen-Haise was asked beside a humidity that Turc refuses", met.humidity_unasked, cases);
    for (int i = 0; i < KINDS; i++)
        for (int k = 0; k < READINGS; k++) {
            snprintf(what, sizeof what, "the %s was \"%s\"", reading_names[k], kind_names[i]);
            enough(what, kinds[i][k], cases);
        }
    for (int i = 0; i < TURNS; i++)
        for (int place = 0; place < PLACES; place++) {
            snprintf(what, sizeof what, "the %s was at or beside %g", reading_names[turns[i].which], turns[i].number);
            enough(what, turned[i][place], cases);
        }
}
