/* The proved floor and ceil beside libm's: equal bits over many patterns, and the time of a call.
   Any NaN equals any NaN. Built and run by compare-libm.sh. */
#include <inttypes.h>
#include <math.h>
#include <stdint.h>
#include <stdio.h>
#include <string.h>
#include <time.h>

typedef double (*rounding)(double);

double rt_floor(double);
double rt_ceil(double);

/* Volatile, so that the compiler puts no instruction of its own in the place of a call. */
static rounding volatile libm_floor = floor;
static rounding volatile libm_ceil = ceil;
static rounding volatile proved_floor = rt_floor;
static rounding volatile proved_ceil = rt_ceil;

static uint64_t bits_of(double x)
{
    uint64_t bits;
    memcpy(&bits, &x, sizeof bits);
    return bits;
}

static double of_bits(uint64_t bits)
{
    double x;
    memcpy(&x, &bits, sizeof x);
    return x;
}

static const uint64_t minus = UINT64_C(1) << 63;

/* xorshift64, from the same start in every run. */
static uint64_t random_bits(void)
{
    static uint64_t state = UINT64_C(88172645463325252);
    state ^= state << 13;
    state ^= state >> 7;
    state ^= state << 17;
    return state;
}

/* ---- comparing ---- */

static long compared, differing, all_compared, all_differing;

static int same(double a, double b)
{
    return (a != a && b != b) || bits_of(a) == bits_of(b);
}

static void compare_one(const char *name, rounding proved, rounding libm, double x)
{
    double ours = proved(x), theirs = libm(x);
    if (same(ours, theirs))
        return;
    if (differing++ < 5)
        printf("  %s of %016" PRIx64 ": %016" PRIx64 ", libm %016" PRIx64 "\n", name, bits_of(x), bits_of(ours), bits_of(theirs));
}

static void compare(uint64_t bits)
{
    double x = of_bits(bits);
    compared++;
    compare_one("floor", proved_floor, libm_floor, x);
    compare_one("ceil", proved_ceil, libm_ceil, x);
}

/* The patterns within some steps of the one given, of both signs. */
static void compare_near(uint64_t bits, int steps)
{
    for (int step = -steps; step <= steps; step++) {
        uint64_t near = bits + (uint64_t)(int64_t)step;
        if (near < minus) {
            compare(near);
            compare(near | minus);
        }
    }
}

static void report(const char *kind)
{
    printf("%-52s %10ld patterns, %ld differences\n", kind, compared, differing);
    all_compared += compared;
    all_differing += differing;
    compared = differing = 0;
}

static void compare_all(void)
{
    for (long i = 0; i < 20000000; i++)
        compare(random_bits());
    report("random bits");

    /* Exponents -4 to 53, where rounding does something: few random patterns lie there. */
    for (long i = 0; i < 20000000; i++) {
        uint64_t r = random_bits();
        uint64_t exponent = 1023 - 4 + random_bits() % 58;
        compare((r & (minus | ((UINT64_C(1) << 52) - 1))) | exponent << 52);
    }
    report("random digits, magnitudes 2^-4 to 2^54");

    for (int e = -1074; e <= 1023; e++)
        compare_near(bits_of(ldexp(1.0, e)), 64);
    report("each power of two, 64 steps around it");

    for (long k = 0; k < 1000000; k++)
        compare_near(bits_of((double)k + 0.5), 2);
    report("k + 0.5 for k below 1,000,000, 2 steps around it");

    for (int e = 0; e < 52; e++)
        for (int i = 0; i < 20000; i++)
            compare_near(bits_of((double)((UINT64_C(1) << e) + random_bits() % (UINT64_C(1) << e)) + 0.5), 2);
    report("k + 0.5 for random k up to 2^52, 2 steps around it");

    for (long k = 0; k < 1000000; k++)
        compare_near(bits_of((double)k), 2);
    report("k below 1,000,000, 2 steps around it");

    /* Both zeros and the least subnormals, the largest subnormal and the least normal, 2^51 to 2^53, the
       largest finite values, both infinities, and NaNs on either side of the quiet bit. */
    static const uint64_t specials[] = {
        UINT64_C(0x0000000000000000), UINT64_C(0x0010000000000000), UINT64_C(0x4320000000000000),
        UINT64_C(0x4330000000000000), UINT64_C(0x4340000000000000), UINT64_C(0x7ff0000000000000),
        UINT64_C(0x7ff8000000000000), UINT64_C(0x7fffffffffffffff),
    };
    for (size_t i = 0; i < sizeof specials / sizeof *specials; i++)
        compare_near(specials[i], 1000);
    report("special values, 1,000 steps around each");

    printf("%-52s %10ld patterns, %ld differences\n", "all", all_compared, all_differing);
}

/* ---- timing ---- */

enum { inputs = 4096, rounds = 1000, trials = 15 };

static double volatile sink;

static double seconds(void)
{
    struct timespec t;
    clock_gettime(CLOCK_MONOTONIC, &t);
    return (double)t.tv_sec + (double)t.tv_nsec * 1e-9;
}

/* Nanoseconds a call. */
static double time_of(rounding f, const double *x)
{
    double total = 0.0, began = seconds();
    for (int round = 0; round < rounds; round++)
        for (int i = 0; i < inputs; i++)
            total += f(x[i]);
    double took = seconds() - began;
    sink = total;
    return took * 1e9 / ((double)rounds * inputs);
}

/* The functions take turns, so that a busy moment of the machine does not fall on one of them alone. */
static void time_on(const char *kind, const double *x)
{
    rounding functions[] = { proved_floor, libm_floor, proved_ceil, libm_ceil };
    double best[] = { INFINITY, INFINITY, INFINITY, INFINITY };
    for (int trial = 0; trial < trials; trial++)
        for (int f = 0; f < 4; f++)
            best[f] = fmin(best[f], time_of(functions[f], x));
    printf("%-36s %12.2f %12.2f %12.2f %12.2f\n", kind, best[0], best[1], best[2], best[3]);
}

static void time_all(void)
{
    static double x[inputs];
    printf("\n%-36s %12s %12s %12s %12s\n", "ns a call, best of 15", "floor", "libm floor", "ceil", "libm ceil");
    for (int i = 0; i < inputs; i++)
        x[i] = (double)(random_bits() >> 11) * 0x1p-53 * 1e6;
    time_on("fractions from 0 to 1,000,000", x);
    for (int i = 0; i < inputs; i++)
        x[i] = ((double)(random_bits() >> 11) * 0x1p-53 - 0.5) * 1e6;
    time_on("fractions of random sign", x);
    for (int i = 0; i < inputs; i++)
        x[i] = (double)(random_bits() % 1000);
    time_on("whole numbers below 1,000", x);
}

int main(void)
{
    compare_all();
    time_all();
    return all_differing != 0;
}
