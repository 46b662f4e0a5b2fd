/* A yardstick of speed: the desk of docs/SPECIFICATION.md, sections 2 to 10, with the same steps in plain C. It reads the
 * desk's records from standard input and prints the desk's lines. Nothing is proved of it and nothing else uses it:
 * tools/bench compares its lines, then its time. Numbers in brackets are sections.
 *
 * Every number fits in 64 bits. A factor is at most 2 U by ground 8, and at most 2 U x 1.1^10 inside a trial of ten years,
 * so that its product with a yearly factor stays below 6 x 10^18. Over dropped maturities a trial runs for up to thirty
 * years, to 2 U x 1.1^30; its products are worked in two parts. A swap's value stays below 10^16, and the weighed sum of
 * forwards below 2 x 10^16. Before it is tried, an adjusted factor is at most 2 U x e^0.1. */
#include <math.h>
#include <stdbool.h>
#include <stdint.h>
#include <stdio.h>

#define U INT64_C(1000000000)
#define RATE_UNIT INT64_C(100000)
#define PAR (RATE_UNIT * U)

/* The bytes of a profile record, and those of each record that a tail may have. */
enum { PROFILE_RECORD = 2, TAIL_RECORD = 3 };

/* As many quotes, volumes and so on as any market has. */
enum { QUOTES = 17, VOLUMES = 5, LAST_QUOTE = 50, YEARS = 150, EXTRAPOLATED = 140, LAST_MONTH = 2399 };

/* A market quotes the first of these. */
static const int maturities[QUOTES] = {1, 2, 3, 4, 5, 6, 7, 8, 9, 10, 12, 15, 20, 25, 30, 40, 50};

/* How many maturities a market quotes, those with a volume being the last ones from its smoothing year on. */
typedef struct {
    int quotes, volumes, smoothing_year;
    bool takes_adjustment;
} Market;

/* By profile; the euro is the first also without a record. */
static const Market markets[] = {{17, 5, 20, true}, {10, 1, 10, false}, {12, 1, 15, false}};

/* The index of the smoothing year's quote, whose forward is the first that is used. */
static int smoothing_quote(const Market *market) { return market->quotes - market->volumes; }

/* The convergence factor at which the table holds, in hundred-millionths, and X of a sheet without one. */
enum { TEN_PERCENT = 10000000, DEFAULT_X = 10000 };

typedef struct {
    int64_t low, high;
} Pair;

/* Number 0: no ground applies. */
typedef struct {
    int number, place;
} Ground;

typedef struct {
    const Market *market;
    int month, rates[QUOTES], ufr, x, adjustment;
    int64_t volumes[VOLUMES], limit;
    bool is_adjusted; /* whether it has an adjustment, be it 0 */
} Sheet;

typedef struct {
    Pair factors[YEARS + 1]; /* by year; 0 is not used */
    Pair sums[YEARS + 1];
} Curve;

typedef struct {
    int told, month;
    bool has_curve, has_adjusted;
    Curve plain, adjusted;
} Book;

static const Ground none = {0, 0};

static Ground ground(int number, int place) {
    Ground ground = {number, place};
    return ground;
}

/* Rounding [1]. What is never below 0 is divided without a sign, which is faster. */

static int64_t div_down(int64_t numerator, int64_t divisor) {
    return numerator / divisor - (numerator % divisor < 0);
}

static int64_t div_up(int64_t numerator, int64_t divisor) {
    return numerator / divisor + (numerator % divisor > 0);
}

static int64_t over_down(int64_t numerator, int64_t divisor) {
    return (int64_t)((uint64_t)numerator / (uint64_t)divisor);
}

static int64_t over_up(int64_t numerator, int64_t divisor) { return over_down(numerator + divisor - 1, divisor); }

static int64_t times_down(int64_t a, int64_t b) { return over_down(a * b, U); }

static int64_t times_up(int64_t a, int64_t b) { return over_up(a * b, U); }

/* The same for an a of many U, whose product may pass 64 bits: the part from whole U needs no rounding. */

static int64_t long_times_down(int64_t a, int64_t b) { return a / U * b + times_down(a % U, b); }

static int64_t long_times_up(int64_t a, int64_t b) { return a / U * b + times_up(a % U, b); }

/* The sheet [2]. */

static int two_bytes(const uint8_t *at) { return at[0] << 8 | at[1]; }

static int64_t four_bytes(const uint8_t *at) { return (int64_t)two_bytes(at) << 16 | two_bytes(at + 2); }

/* Where the records of a sheet start. Those of the tail are 0 where the sheet has none. */
typedef struct {
    const Market *market;
    int first; /* the month's */
    int x, adjustment;
} Layout;

static int rate_start(const Layout *at, int j) { return at->first + 3 + 4 * j; }

static int volume_start(const Layout *at, int j) { return rate_start(at, at->market->quotes) + 6 * j; }

static int ufr_start(const Layout *at) { return volume_start(at, at->market->volumes); }

static int limit_start(const Layout *at) { return ufr_start(at) + 3; }

static int tail_start(const Layout *at) { return limit_start(at) + 5; }

/* The place of the record so many behind the month's. */
static int place(const Layout *at, int behind) { return (at->first > 0) + 1 + behind; }

static int rate_place(const Layout *at, int j) { return place(at, 1 + j); }

static int volume_place(const Layout *at, int j) { return rate_place(at, at->market->quotes + j); }

static int ufr_place(const Layout *at) { return volume_place(at, at->market->volumes); }

static int tail_place(const Layout *at, int start) {
    return ufr_place(at) + 2 + (start - tail_start(at)) / TAIL_RECORD;
}

/* Ground 19. A lone kind byte is too short for any market. */
static Ground find_market(const uint8_t *bytes, size_t length, Layout *at) {
    bool named = length >= PROFILE_RECORD && bytes[0] == 8;
    if (named && (bytes[1] < 1 || bytes[1] > 3)) return ground(19, 0);
    *at = (Layout){&markets[named ? bytes[1] - 1 : 0], named ? PROFILE_RECORD : 0, 0, 0};
    return none;
}

/* Ground 1. One record alone in the tail is the adjustment's if its kind says so and the market takes one, and else the
 * phase-in's. */
static Ground find_tail(const uint8_t *bytes, size_t length, Layout *at) {
    size_t start = (size_t)tail_start(at);
    bool adjusts = at->market->takes_adjustment;
    if (length == start) return none;
    if (length == start + TAIL_RECORD)
        *(adjusts && bytes[start] == 7 ? &at->adjustment : &at->x) = tail_start(at);
    else if (adjusts && length == start + 2 * TAIL_RECORD)
        at->x = tail_start(at), at->adjustment = at->x + TAIL_RECORD;
    else
        return ground(1, 0);
    return none;
}

static bool starts(const uint8_t *record, int kind, int maturity) { return record[0] == kind && record[1] == maturity; }

static Ground check_kinds(const uint8_t *bytes, const Layout *at) {
    const Market *market = at->market;
    if (bytes[at->first] != 1) return ground(2, place(at, 0));
    for (int j = 0; j < market->quotes; j++)
        if (!starts(bytes + rate_start(at, j), 2, maturities[j])) return ground(2, rate_place(at, j));
    for (int j = 0; j < market->volumes; j++)
        if (!starts(bytes + volume_start(at, j), 3, maturities[smoothing_quote(market) + j]))
            return ground(2, volume_place(at, j));
    if (bytes[ufr_start(at)] != 4) return ground(2, ufr_place(at));
    if (bytes[limit_start(at)] != 5) return ground(2, ufr_place(at) + 1);
    if (at->x && bytes[at->x] != 6) return ground(2, tail_place(at, at->x));
    if (at->adjustment && bytes[at->adjustment] != 7) return ground(2, tail_place(at, at->adjustment));
    return none;
}

static Sheet numbers(const uint8_t *bytes, const Layout *at) {
    Sheet sheet = {.market = at->market};
    sheet.month = two_bytes(bytes + at->first + 1);
    for (int j = 0; j < at->market->quotes; j++) sheet.rates[j] = (int16_t)two_bytes(bytes + rate_start(at, j) + 2);
    for (int j = 0; j < at->market->volumes; j++) sheet.volumes[j] = four_bytes(bytes + volume_start(at, j) + 2);
    sheet.ufr = two_bytes(bytes + ufr_start(at) + 1);
    sheet.limit = four_bytes(bytes + limit_start(at) + 1);
    sheet.x = at->x ? two_bytes(bytes + at->x + 1) : DEFAULT_X;
    sheet.is_adjusted = at->adjustment != 0;
    sheet.adjustment = sheet.is_adjusted ? (int16_t)two_bytes(bytes + at->adjustment + 1) : 0;
    return sheet;
}

static Ground check_ranges(const Sheet *sheet, const Layout *at) {
    if (sheet->month > LAST_MONTH) return ground(3, place(at, 0));
    for (int j = 0; j < at->market->quotes; j++)
        if (sheet->rates[j] < -2000 || sheet->rates[j] > 12000) return ground(3, rate_place(at, j));
    for (int j = 0; j < at->market->volumes; j++)
        if (sheet->volumes[j] > 1000000) return ground(3, volume_place(at, j));
    if (sheet->ufr > 10000) return ground(3, ufr_place(at));
    if (sheet->limit < 1 || sheet->limit > 100000) return ground(3, ufr_place(at) + 1);
    if (sheet->x < 10000 || sheet->x > 20000) return ground(3, tail_place(at, at->x));
    if (sheet->adjustment < -500 || sheet->adjustment > 500) return ground(3, tail_place(at, at->adjustment));
    return none;
}

static Ground read_sheet(const uint8_t *bytes, size_t length, Sheet *sheet) {
    Layout at;
    Ground found = find_market(bytes, length, &at);
    if (found.number) return found;
    found = find_tail(bytes, length, &at);
    if (found.number) return found;
    found = check_kinds(bytes, &at);
    if (found.number) return found;
    *sheet = numbers(bytes, &at);
    found = check_ranges(sheet, &at);
    if (found.number) return found;
    int64_t traded = 0;
    for (int j = 0; j < VOLUMES; j++) traded += sheet->volumes[j];
    return traded > 0 ? none : ground(4, 0);
}

/* Factors from the quotes [3]. */

static Pair by_par(int64_t rate, Pair sum) {
    int64_t for_low = rate >= 0 ? sum.high : sum.low, for_high = rate >= 0 ? sum.low : sum.high;
    Pair factor = {div_down(PAR - rate * for_low, RATE_UNIT + rate), div_up(PAR - rate * for_high, RATE_UNIT + rate)};
    return factor;
}

/* A gap: its years, the rate at its end, the factor before it and the sum of all factors before it. */
typedef struct {
    int years;
    int64_t rate;
    Pair start, sum;
} Gap;

/* T(k), and A + S, at a trial yearly factor x: lows alone, or highs alone. */
typedef struct {
    int64_t last, sum;
} Trial;

/* Longer gaps run on over a dropped maturity. */
enum { LONGEST_QUOTED_GAP = 10 };

/* Whether factors may come to many U: at a yearly factor up to U they only fall. */
static bool grows_long(const Gap *gap, int64_t x) { return gap->years > LONGEST_QUOTED_GAP && x > U; }

static Trial long_lows(const Gap *gap, int64_t x) {
    Trial trial = {gap->start.low, gap->sum.low};
    for (int j = 0; j < gap->years; j++) {
        trial.last = long_times_down(trial.last, x);
        trial.sum += trial.last;
    }
    return trial;
}

static Trial long_highs(const Gap *gap, int64_t x) {
    Trial trial = {gap->start.high, gap->sum.high};
    for (int j = 0; j < gap->years; j++) {
        trial.last = long_times_up(trial.last, x);
        trial.sum += trial.last;
    }
    return trial;
}

static Trial lows(const Gap *gap, int64_t x) {
    if (grows_long(gap, x)) return long_lows(gap, x);
    Trial trial = {gap->start.low, gap->sum.low};
    for (int j = 0; j < gap->years; j++) {
        trial.last = times_down(trial.last, x);
        trial.sum += trial.last;
    }
    return trial;
}

static Trial highs(const Gap *gap, int64_t x) {
    if (grows_long(gap, x)) return long_highs(gap, x);
    Trial trial = {gap->start.high, gap->sum.high};
    for (int j = 0; j < gap->years; j++) {
        trial.last = times_up(trial.last, x);
        trial.sum += trial.last;
    }
    return trial;
}

/* For a rate of 0 or more each test needs one side alone; for a rate below 0 the sum is the other side's. */

static bool surely_not_above_par(const Gap *gap, int64_t x) {
    Trial high = highs(gap, x);
    int64_t sum = gap->rate >= 0 ? high.sum : lows(gap, x).sum;
    return gap->rate * sum + RATE_UNIT * high.last <= PAR;
}

static bool surely_not_below_par(const Gap *gap, int64_t x) {
    Trial low = lows(gap, x);
    int64_t sum = gap->rate >= 0 ? low.sum : highs(gap, x).sum;
    return gap->rate * sum + RATE_UNIT * low.last >= PAR;
}

static const int64_t lower_end = 800000000, upper_end = 1100000000;

static int64_t low_x(const Gap *gap) {
    int64_t low = lower_end, high = upper_end;
    while (high - low > 1) {
        int64_t middle = (low + high) / 2;
        if (surely_not_above_par(gap, middle))
            low = middle;
        else
            high = middle;
    }
    return low;
}

static int64_t high_x(const Gap *gap) {
    int64_t low = lower_end, high = upper_end;
    while (high - low > 1) {
        int64_t middle = (low + high) / 2;
        if (surely_not_below_par(gap, middle))
            high = middle;
        else
            low = middle;
    }
    return high;
}

/* Years 1 to 50 as far as they are worked. The forwards are the last one before the smoothing year and, of the euro,
 * those of gaps 20-25, 25-30, 30-40 and 40-50, as far as they are worked: a gap that runs on has the same one in each
 * of these. */
typedef struct {
    int worked, forwards_worked;
    Pair factors[LAST_QUOTE + 1], sum, forwards[VOLUMES];
} Quoted;

static Ground add_year(Quoted *quoted, Pair factor) {
    int year = ++quoted->worked;
    if (factor.low < 1) return ground(7, year);
    if (factor.high > 2 * U) return ground(8, year);
    quoted->factors[year] = factor;
    quoted->sum.low += factor.low;
    quoted->sum.high += factor.high;
    return none;
}

static Ground add_gap(Quoted *quoted, int years, int64_t rate, Pair *x) {
    Pair factor = quoted->factors[quoted->worked];
    Gap gap = {years, rate, factor, quoted->sum};
    if (!surely_not_above_par(&gap, lower_end) || !surely_not_below_par(&gap, upper_end))
        return ground(9, quoted->worked + years);
    x->low = low_x(&gap);
    x->high = high_x(&gap);
    for (int j = 1; j < years; j++) {
        factor.low = times_down(factor.low, x->low);
        factor.high = times_up(factor.high, x->high);
        Ground found = add_year(quoted, factor);
        if (found.number) return found;
    }
    return none;
}

/* The last year over the one before it, where it is no gap. */
static Ground single_year(const Quoted *quoted, Pair *x) {
    Pair last = quoted->factors[quoted->worked], before = quoted->factors[quoted->worked - 1];
    *x = (Pair){over_down(last.low * U, before.high), over_up(last.high * U, before.low)};
    return x->low < lower_end || x->high > upper_end ? ground(9, quoted->worked) : none;
}

/* Logarithm and growth [4]. To their highs 1 is added, but not where the value is known: at U and at 0. */

static int64_t log_sum_down(int64_t x) {
    int64_t z = over_down((x > U ? x - U : U - x) * U, U + x), s = times_down(z, z);
    int64_t p2 = times_down(z, s), p3 = times_down(p2, s), p4 = times_down(p3, s), p5 = times_down(p4, s);
    return 2 * (z + over_down(p2, 3) + over_down(p3, 5) + over_down(p4, 7) + over_down(p5, 9));
}

static int64_t log_sum_up(int64_t x) {
    int64_t z = over_up((x > U ? x - U : U - x) * U, U + x), s = times_up(z, z);
    int64_t p2 = times_up(z, s), p3 = times_up(p2, s), p4 = times_up(p3, s), p5 = times_up(p4, s);
    return 2 * (z + over_up(p2, 3) + over_up(p3, 5) + over_up(p4, 7) + over_up(p5, 9));
}

static int64_t log_low(int64_t x) { return x > U ? -(log_sum_up(x) + 1) : log_sum_down(x); }

static int64_t log_high(int64_t x) { return x > U ? -log_sum_down(x) : log_sum_up(x) + (x != U); }

static int64_t growth_low(int64_t y) {
    int64_t term = U, sum = U;
    for (int i = 1; i <= 7; i++) {
        term = over_down(term * y, i * U);
        sum += term;
    }
    return sum;
}

static int64_t growth_high(int64_t y) {
    int64_t term = U, sum = U;
    for (int i = 1; i <= 7; i++) {
        term = over_up(term * y, i * U);
        sum += term;
    }
    return sum + (y != 0);
}

/* A quote beyond the smoothing year without volume is not used. */
static bool dropped(const Sheet *sheet, int quote) {
    int later = quote - smoothing_quote(sheet->market);
    return later > 0 && sheet->volumes[later] == 0;
}

static Ground work_quotes(const Sheet *sheet, Quoted *quoted) {
    Ground found = none;
    int first_forward = smoothing_quote(sheet->market);
    quoted->worked = quoted->forwards_worked = 0;
    quoted->sum.low = quoted->sum.high = 0;
    for (int j = 0; j < sheet->market->quotes; j++) {
        if (dropped(sheet, j)) continue;
        int years = maturities[j] - quoted->worked;
        Pair x = {U, U};
        if (years > 1) found = add_gap(quoted, years, sheet->rates[j], &x);
        if (found.number) return found;
        found = add_year(quoted, by_par(sheet->rates[j], quoted->sum));
        if (found.number) return found;
        if (j < first_forward) continue;
        if (years == 1) found = single_year(quoted, &x);
        if (found.number) return found;
        Pair forward = {log_low(x.high), log_high(x.low)};
        while (quoted->forwards_worked <= j - first_forward) quoted->forwards[quoted->forwards_worked++] = forward;
    }
    /* The rest has no weight. */
    while (quoted->forwards_worked < VOLUMES) quoted->forwards[quoted->forwards_worked++] = (Pair){0, 0};
    return none;
}

/* Extrapolated years [5]. */

/* The ends of k(h), by h; 0 is not used. */
typedef struct {
    Pair at[EXTRAPOLATED + 1];
} Weights;

static Weights table;

/* Long doubles leave nine digits to spare, and the compared lines would show a wrong one. */
static void fill_table(void) {
    for (int h = 1; h <= EXTRAPOLATED; h++) {
        table.at[h].low = (int64_t)floorl(10.0L * U * (expl((1 - h) / 10.0L) - expl(-h / 10.0L)));
        table.at[h].high = table.at[h].low + 1;
    }
}

/* a, in hundred-millionths. */
static int64_t convergence(const Sheet *sheet) {
    int rate = sheet->rates[smoothing_quote(sheet->market)], cut = rate < -500 ? -500 : rate > 500 ? 500 : rate;
    return TEN_PERCENT + (int64_t)(sheet->x - DEFAULT_X) * (500 - cut);
}

/* The numerator of LLFR, on the forwards' lows or highs. */
static int64_t weighed(const int64_t *v, int64_t g1, int64_t g2, int64_t g3, int64_t g4, int64_t g5) {
    return 12 * v[0] * g1 + 12 * v[1] * g2 + 6 * v[2] * (g2 + g3) + 3 * v[3] * (g2 + g3 + 2 * g4) +
           2 * v[4] * (g2 + g3 + 2 * g4 + 2 * g5);
}

static Pair last_liquid_forward(const int64_t *v, const Pair *g) {
    int64_t divisor = 12 * (v[0] + v[1] + v[2] + v[3] + v[4]);
    Pair llfr = {div_down(weighed(v, g[0].low, g[1].low, g[2].low, g[3].low, g[4].low), divisor),
                 div_up(weighed(v, g[0].high, g[1].high, g[2].high, g[3].high, g[4].high), divisor)};
    return llfr;
}

static int64_t smaller(int64_t a, int64_t b) { return a < b ? a : b; }

static int64_t larger(int64_t a, int64_t b) { return a > b ? a : b; }

static void work_weights(int64_t a, Weights *weights) {
    Pair growth = {growth_low(10 * a), growth_high(10 * a)}, power = {U, U};
    Pair q = {over_down(U * U, growth.high), over_up(U * U, growth.low)};
    Pair m = {over_down((U - q.high) * 100000000, a), over_up((U - q.low) * 100000000, a)};
    for (int h = 1; h <= EXTRAPOLATED; h++) {
        weights->at[h].low = times_down(power.low, m.low);
        weights->at[h].high = smaller(times_up(power.high, m.high), U);
        power.low = times_down(power.low, q.low);
        power.high = times_up(power.high, q.high);
    }
}

static int64_t forward_low(Pair l, Pair llfr, int64_t k) { return div_down(l.low * (U - k) + llfr.low * k, U); }

static int64_t forward_high(Pair l, Pair llfr, int64_t k) { return div_up(l.high * (U - k) + llfr.high * k, U); }

static Pair year_forward(Pair l, Pair llfr, Pair k) {
    Pair forward = {smaller(forward_low(l, llfr, k.low), forward_low(l, llfr, k.high)),
                    larger(forward_high(l, llfr, k.low), forward_high(l, llfr, k.high))};
    return forward;
}

static int64_t next_low(int64_t low, int64_t f) {
    return f >= 0 ? over_down(low * U, growth_high(f)) : times_down(low, growth_low(-f));
}

static int64_t next_high(int64_t high, int64_t f) {
    return f >= 0 ? over_up(high * U, growth_low(f)) : times_up(high, growth_high(-f));
}

/* What both curves of a sheet go on with past the smoothing year. */
typedef struct {
    int smoothing_year;
    Pair l;
    const Pair *weights;
    Weights worked; /* where the weights are not the table's */
} Beyond;

static void work_beyond(const Sheet *sheet, Beyond *beyond) {
    int64_t ultimate = U + 10000 * (int64_t)sheet->ufr, a = convergence(sheet);
    beyond->smoothing_year = sheet->market->smoothing_year;
    beyond->l = (Pair){-log_high(ultimate), -log_low(ultimate)};
    if (a != TEN_PERCENT) work_weights(a, &beyond->worked);
    beyond->weights = a == TEN_PERCENT ? table.at : beyond->worked.at;
}

static Ground extrapolate(const Beyond *beyond, Pair llfr, Pair *factors) {
    for (int h = 1, year = beyond->smoothing_year + 1; year <= YEARS; h++, year++) {
        Pair before = factors[year - 1], forward = year_forward(beyond->l, llfr, beyond->weights[h]);
        Pair factor = {next_low(before.low, forward.high), next_high(before.high, forward.low)};
        if (factor.high > 2 * U) return ground(8, year);
        factors[year] = factor;
    }
    return none;
}

/* From the curve's years to the smoothing year on. */
static Ground go_on(const Sheet *sheet, const Beyond *beyond, const Pair *forwards, Curve *curve) {
    Ground found = extrapolate(beyond, last_liquid_forward(sheet->volumes, forwards), curve->factors);
    if (found.number) return found;
    for (int year = 1; year <= YEARS; year++)
        if (curve->factors[year].high - curve->factors[year].low > sheet->limit) return ground(10, year);
    return none;
}

/* The adjusted curve, which is the euro's alone. Each of its steps to 20 has the same growth, which is worked once. */

static int64_t low_after(int64_t low, int64_t f, int64_t growth, int years) {
    for (int year = 0; year < years; year++) low = f >= 0 ? over_down(low * U, growth) : times_down(low, growth);
    return low;
}

static int64_t high_after(int64_t high, int64_t f, int64_t growth, int years) {
    for (int year = 0; year < years; year++) high = f >= 0 ? over_up(high * U, growth) : times_up(high, growth);
    return high;
}

static Ground adjust_years(int64_t f, int smoothing_year, const Pair *plain, Pair *adjusted) {
    int64_t for_low = f >= 0 ? growth_high(f) : growth_low(-f), for_high = f >= 0 ? growth_low(f) : growth_high(-f);
    for (int year = 1; year <= smoothing_year; year++) {
        adjusted[year].low = low_after(plain[year].low, f, for_low, year);
        adjusted[year].high = high_after(plain[year].high, f, for_high, year);
        if (adjusted[year].high > 2 * U) return ground(8, year);
    }
    return none;
}

static Ground work_adjusted(const Sheet *sheet, const Beyond *beyond, Quoted *quoted, Curve *adjusted) {
    int64_t f = 10000 * (int64_t)sheet->adjustment;
    Ground found = adjust_years(f, beyond->smoothing_year, quoted->factors, adjusted->factors);
    if (found.number) return found;
    quoted->forwards[0].low += f;
    quoted->forwards[0].high += f;
    return go_on(sheet, beyond, quoted->forwards, adjusted);
}

static Ground work_curves(const Sheet *sheet, Curve *plain, Curve *adjusted) {
    Quoted quoted;
    Beyond beyond;
    Ground found = work_quotes(sheet, &quoted);
    if (found.number) return found;
    work_beyond(sheet, &beyond);
    for (int year = 1; year <= beyond.smoothing_year; year++) plain->factors[year] = quoted.factors[year];
    found = go_on(sheet, &beyond, quoted.forwards, plain);
    if (found.number || !sheet->is_adjusted) return found;
    return work_adjusted(sheet, &beyond, &quoted, adjusted);
}

/* The book [7]. */

/* The desk shows no sums. They are held all the same, for every year. */
static void add_up(Curve *curve) {
    Pair sum = {0, 0};
    for (int year = 1; year <= YEARS; year++) {
        sum.low += curve->factors[year].low;
        sum.high += curve->factors[year].high;
        curve->sums[year] = sum;
    }
}

static Ground post(Book *book, const uint8_t *bytes, size_t length) {
    Sheet sheet;
    Curve plain, adjusted;
    Ground found = read_sheet(bytes, length, &sheet);
    if (found.number) return found;
    if (sheet.month > book->told) return ground(5, 0);
    if (book->has_curve && sheet.month < book->month) return ground(6, 0);
    found = work_curves(&sheet, &plain, &adjusted);
    if (found.number) return found;
    book->plain = plain;
    add_up(&book->plain);
    if (sheet.is_adjusted) {
        book->adjusted = adjusted;
        add_up(&book->adjusted);
    }
    book->month = sheet.month;
    book->has_curve = true;
    book->has_adjusted = sheet.is_adjusted;
    return none;
}

static Ground turn(Book *book, int month) {
    if (month > LAST_MONTH) return ground(11, 0);
    if (month < book->told) return ground(12, 0);
    book->told = month;
    return none;
}

/* Zero rates [7.1], by the multiplier, 100,000 more than the rate: where growth comes to pass a bound. */

static const uint64_t square = 1000000000000000000, cap = square + 1;

static uint64_t year_on(uint64_t g, uint64_t m, bool up) {
    uint64_t more = up ? 99999 : 0;
    if (g < 90000000000000) return (g * m + more) / 100000;
    uint64_t product = g / 100000 * m + (g % 100000 * m + more) / 100000;
    return product < cap ? product : cap;
}

typedef struct {
    uint64_t here, next;
} Growths;

static Growths grow(uint64_t m, int years, bool up) {
    Growths g = {U, U};
    for (int year = 0; year < years; year++) {
        g.here = year_on(g.here, m, up);
        g.next = year_on(g.next, m + 1, up);
    }
    return g;
}

/* By squaring: nearly right. */
static double nearly(uint64_t m, int years) {
    double product = U, power = (double)m / 100000;
    for (int left = years; left > 0; left /= 2) {
        if (left % 2) product *= power;
        power *= power;
    }
    return product;
}

static bool turns(uint64_t m, uint64_t hi, int years, uint64_t bound, bool up) {
    Growths g = grow(m, years, up);
    return g.here <= bound && (m + 1 == hi || bound < g.next);
}

/* The last multiplier from lo on, before hi, whose growth is within the bound: near or guessed, if a test confirms it, else searched. */
static uint64_t turning_point(uint64_t near, uint64_t lo, uint64_t hi, int years, uint64_t bound, bool up) {
    if (lo <= near && near < hi && turns(near, hi, years, bound, up)) return near;
    uint64_t below = lo, above = hi;
    while (above - below > 1) {
        uint64_t middle = below + (above - below) / 2;
        *(nearly(middle, years) <= (double)bound ? &below : &above) = middle;
    }
    if (turns(below, hi, years, bound, up)) return below;
    for (below = lo, above = hi; above - below > 1;) {
        uint64_t middle = below + (above - below) / 2;
        *(grow(middle, years, up).here <= bound ? &below : &above) = middle;
    }
    return below;
}

/* Ground 17, or the rates of a year's factor. */
static Ground zero_rates(int year, Pair factor, Pair *rates) {
    if (factor.low == 0) return ground(17, 0);
    uint64_t falls_short = turning_point(0, 49999, 200001, year, (square - 1) / (uint64_t)factor.low, false);
    if (falls_short >= 200000) return ground(17, 0);
    rates->low = (int64_t)turning_point(falls_short, 50000, 200001, year, square / (uint64_t)factor.high, true) - 100000;
    rates->high = (int64_t)falls_short + 1 - 100000;
    return none;
}

/* The desk prints no rates. They are kept here, so that the compiler does not drop their work. */
static volatile Pair rates_of_last_look_up;

/* The desk's age limit is the largest, which no curve's age is above, so ground 16 has no place here. Its look-ups are of the
 * plain curve: the adjusted one is tried and kept, and not shown. */
static Ground look_up(const Book *book, int year, Pair *factor) {
    Pair rates;
    if (year < 1 || year > YEARS) return ground(13, 0);
    if (!book->has_curve) return ground(14, 0);
    *factor = book->plain.factors[year];
    Ground found = zero_rates(year, *factor, &rates);
    if (found.number) return found;
    rates_of_last_look_up.low = rates.low;
    rates_of_last_look_up.high = rates.high;
    return none;
}

/* The desk [10]. */

static void print_refusal(Ground ground) { printf("R %d %d\n", ground.number, ground.place); }

static void answer_post(Book *book, const uint8_t *body, size_t length) {
    Ground found = post(book, body, length);
    if (found.number)
        print_refusal(found);
    else
        printf("P %d\n", book->month);
}

static void answer_turn(Book *book, const uint8_t *body) {
    Ground found = turn(book, two_bytes(body));
    if (found.number)
        print_refusal(found);
    else
        printf("M %d\n", book->told);
}

static void answer_look_up(const Book *book, const uint8_t *body) {
    Pair factor;
    Ground found = look_up(book, body[0], &factor);
    if (found.number)
        print_refusal(found);
    else
        printf("L %d %lld %lld %d %d\n", body[0], (long long)factor.low, (long long)factor.high, book->month,
               book->told - book->month);
}

/* A sheet's length stands before it. */
static size_t head_length(int kind) { return kind == 0x50 ? 2 : 0; }

/* Reads what follows the kind; false where the kind is unknown or the body is cut. */
static bool read_body(int kind, uint8_t *body, size_t *length) {
    uint8_t head[2];
    size_t heading = head_length(kind);
    if (fread(head, 1, heading, stdin) < heading) return false;
    *length = kind == 0x50 ? (size_t)two_bytes(head) : kind == 0x4D ? 2 : 1;
    bool known = kind == 0x50 || kind == 0x4D || kind == 0x4C;
    return known && fread(body, 1, *length, stdin) == *length;
}

int main(void) {
    static Book book; /* all zero: a fresh one */
    static uint8_t body[UINT16_MAX];
    size_t length;
    unsigned long long offset = 0;
    fill_table();
    for (int kind; (kind = getchar()) != EOF;) {
        if (!read_body(kind, body, &length)) {
            printf("X %llu\n", offset);
            break;
        }
        if (kind == 0x50)
            answer_post(&book, body, length);
        else if (kind == 0x4D)
            answer_turn(&book, body);
        else
            answer_look_up(&book, body);
        offset += 1 + head_length(kind) + length;
    }
    return 0;
}
