/* The vectors on the weather: seasons, conditions, snow, dry spells. */
#include "vectors.h"

#include <stdio.h>

/* ---------------------------------------------------------------- seasons and conditions */

/* One cell that runs off over the edge, of curve number 75, with interception 900 and 100. All its excess recharges, so that
 * what is gone tells the runoff. */
static void put_slope(int first, int last, int root)
{
    put("1 1 %d %d\n1\n", first, last);
    put_cover(3, 0, 75, 100000, 900, 100, root);
    put("1 3 2 200\n");
}

static void seasons(void)
{
    put_slope(120, 270, 250);
    put("1 119 30000 600 700 800 2000\n2 120 30000 600 700 800 2000\n3 121 30000 600 700 800 2000\n");
    vector("season's first day", "end 3", "119 dormant, 120 growing");
    put_slope(120, 270, 250);
    put("1 269 30000 600 700 800 2000\n2 270 30000 600 700 800 2000\n3 271 30000 600 700 800 2000\n");
    vector("season's last day", "end 3", "270 growing, 271 dormant");
    put_slope(1, 366, 250);
    put("1 366 30000 600 700 800 2000\n2 1 30000 600 700 800 2000\n");
    vector("growing all year", "end 2", "366 and 1 both growing");
    put_slope(200, 200, 250);
    put("1 199 9000 600 700 800 0\n2 200 9000 600 700 800 0\n3 201 9000 600 700 800 0\n");
    vector("season of one day's weather", "end 3", "only day 200 growing");
    put_slope(120, 270, 250);
    put("1 150 899 600 700 800 0\n2 151 900 600 700 800 0\n3 152 901 600 700 800 0\n4 300 99 600 700 800 0\n5 301 101 600 700 800 0\n");
    vector("interception takes all or its figure", "end 5", "the smaller of gross and the cover's figure");
}

/* Five days whose sum is given, then the same two inches. */
static void condition(const char *name, int day, int sum, const char *reason)
{
    put_slope(120, 270, 250);
    for (int i = 0; i < 5; i++)
        put("%d %d %d 600 700 800 2000\n", i + 1, day + i, i == 0 ? sum - 4 * (sum / 5) : sum / 5);
    put("6 %d 20000 600 700 800 2000\n", day + 5);
    vector(name, "end 6", reason);
}

static void conditions(void)
{
    condition("growing, five-day sum 13,999", 150, 13999, "condition I");
    condition("growing, five-day sum 14,000", 150, 14000, "condition II");
    condition("growing, five-day sum 21,000", 150, 21000, "condition II");
    condition("growing, five-day sum 21,001", 150, 21001, "condition III");
    condition("dormant, five-day sum 4,999", 300, 4999, "condition I");
    condition("dormant, five-day sum 5,000", 300, 5000, "condition II");
    condition("dormant, five-day sum 11,000", 300, 11000, "condition II");
    condition("dormant, five-day sum 11,001", 300, 11001, "condition III");
    condition("five-day sum over the season's start", 115, 12000, "dormant by day 119, growing on day 120: I by the growing limits");
    condition("five-day sum over the season's end", 266, 12000, "growing by day 270, dormant on day 271: III by the dormant limits");
    put_slope(120, 270, 250);
    put("1 150 21001 600 700 800 2000\n");
    for (int i = 2; i <= 8; i++)
        put("%d %d %d 600 700 800 2000\n", i, 149 + i, i >= 6 ? 20000 : 0);
    vector("a storm is forgotten after five days", "end 8", "III on days 2 to 6, then as the sum has it; today is not counted");
}

/* All 71 curve numbers at once, each on a cell of its own that drains over the edge, in every condition; what sinks in recharges. */
static void curve_numbers(void)
{
    put("1 71 120 270\n18\n");
    for (int i = 0; i < 18; i++) {
        int n = 30 + 4 * i, last = i == 17 ? 100 : n + 3;
        put("%d 0 %d %d %d %d 100000 100000 100000 100000 0 0 0 0 0 0\n", i + 1, n, n + 1, n + 2, last);
    }
    for (int i = 0; i < 71; i++)
        put("1 %d %d 0\n", i / 4 + 1, i % 4 + 1);
    put("1 150 17500 600 700 800 0\n2 151 17500 600 700 800 0\n3 152 400000 600 700 800 0\n");
    vector("every curve number", "end 3", "conditions I, II and III of 30 to 100");
}

/* ---------------------------------------------------------------- snow */

static void snowfall(void)
{
    put_slope(120, 270, 250);
    put("1 20 9000 280 360 400 0\n2 21 9000 280 361 400 0\n3 22 9000 -1000 -1000 -1000 0\n4 23 9000 320 320 320 0\n5 24 9000 321 321 321 0\n6 25 9000 281 360 400 0\n");
    vector("snow or rain", "end 6", "mean 360, span 280 to 400 is snow, 361 rain; a third of the span counts");
    put_slope(120, 270, 250);
    put("1 20 100000 -300 -200 -100 0\n2 21 0 300 310 320 0\n3 22 0 300 310 321 0\n4 23 0 300 400 500 0\n5 24 0 1500 1500 1500 0\n6 25 0 600 700 800 0\n");
    vector("melt", "end 6", "a maximum of 320 melts 0, 321 melts 32, 500 melts 5,905; at last all the store");
    put_slope(120, 270, 250);
    put("1 20 50000 200 300 400 0\n2 21 50000 500 600 700 0\n");
    vector("snow and thaw in one day, then rain on snow", "end 2", "snowfall joins the store first, then the melt");
    put_slope(120, 270, 0);
    put("1 20 1100 -300 -200 -100 0\n2 21 0 600 700 800 20000\n3 22 0 600 700 800 20000\n");
    vector("snow over capacity 0", "end 3", "melt meets potential first");
}

/* So many days of the most precipitation in deep frost, from serial 1 on. */
static void put_frost(int days)
{
    for (int i = 1; i <= days; i++)
        put("%d %d 400000 -300 -200 -100 0\n", i, i);
}

static void deep_snow(void)
{
    put("1 1 120 270\n"), put_three_covers(), put("1 1 1 0\n"), put_frost(25);
    vector("snow of 10,000,000", "end 25", "the most that may lie");
    put("1 1 120 270\n"), put_three_covers(), put("1 1 1 0\n"), put_frost(25), put("26 26 1 -300 -200 -100 0\n");
    vector("snow of 10,000,001", "refused 10 at 0", "25 lines stand");
    put("1 1 120 270\n"), put_three_covers(), put("1 1 1 0\n"), put_frost(25), put("26 26 1 200 300 400 0\n");
    vector("snow of 10,000,001 in a thaw", "refused 10 at 0", "the store is looked at before the melt");
    put("1 1 120 270\n"), put_three_covers(), put("1 1 1 0\n"), put_frost(25), put("26 26 1 600 700 800 0\n");
    vector("rain on snow of 10,000,000", "end 26", "rain takes no store past the most");
    put("4 1 120 270\n"), put_three_covers(), put("0 2 1 0\n0 3 1 0\n0 1 1 0\n0 1 1 0\n"), put_frost(25), put("26 26 2000 -300 -200 -100 0\n");
    vector("two of four cells have no room", "refused 10 at 2", "100 a day are intercepted at cell 0, and snow on open water is gone");
    put("3 1 120 270\n"), put_three_covers(), put("0 3 1 0\n0 3 1 0\n0 2 1 0\n"), put_frost(26);
    vector("snow behind two ponds", "refused 10 at 2", "never on open water; 26 days of 399,900 are too many");
    put("1 1 120 270\n"), put_three_covers(), put("0 2 1 0\n"), put_frost(25);
    put("26 26 2600 -300 -200 -100 0\n27 27 100 -300 -200 -100 0\n28 28 101 -300 -200 -100 0\n");
    vector("snow of 10,000,000 under a canopy", "refused 10 at 0", "100 a day are intercepted and no snowfall: 27 lines stand");
    put("2 1 120 270\n"), put_three_covers(), put("0 2 1 0\n0 1 1 0\n"), put_frost(25), put("26 26 2 -300 -200 -100 0\n");
    vector("interception spares the first cell", "refused 10 at 1", "2 units are intercepted at cell 0 and too many at cell 1");
}

/* ---------------------------------------------------------------- dry spells, recharge */

static void dry_spell(const char *name, int days, int root, int water, int potential, const char *reason)
{
    char ends[20];

    put("1 1 120 270\n1\n"), put_cover(3, 0, 75, 6000, 0, 0, root);
    put("0 3 2 %d\n", water);
    for (int i = 0; i < days; i++)
        put("%d %d 0 600 700 800 %d\n", i + 1, i % 366 + 1, potential);
    snprintf(ends, sizeof ends, "end %d", days);
    vector(name, ends, reason);
}

static void dry_spells(void)
{
    dry_spell("dry for 300 days", 300, 250, 200, 2000, "soil falls by less each day");
    dry_spell("dry for 60 days at the most potential", 60, 1000, 600, 20000, "the largest capacity");
    dry_spell("dry on a capacity of 1", 3, 1, 1, 1, "d is all of the capacity");
    dry_spell("dry on a capacity of 0", 3, 0, 600, 20000, "loss is 0");
    dry_spell("dry at no potential", 3, 250, 200, 0, "d is 0, no loss");
    dry_spell("dry just before the table's end", 3, 25, 100, 19999, "k is 2,047");
    dry_spell("dry at the table's end", 3, 25, 100, 20000, "k is 2,048");
    dry_spell("the table's last two entries", 2, 7, 312, 17465, "k is 2,047 on a capacity that tells F(2,047) from F(2,048)");
    dry_spell("dry past the table's end", 3, 24, 100, 20000, "k is over 2,048");
    dry_spell("dry between two entries", 5, 250, 200, 97, "k is 0, f is not");
}

/* One closed cell with room for 5 inches of soil; excess against a largest recharge of 6,000. */
static void recharge(void)
{
    static const int rain[] = {7999, 8000, 8001, 1999, 2000, 2001};

    put("1 1 1 366\n1\n"), put_cover(3, 0, 75, 6000, 0, 0, 250), put("0 3 2 200\n");
    for (int i = 0; i < 6; i++)
        put("%d %d %d 600 700 800 2000\n", i + 1, i + 1, rain[i]);
    vector("recharge up to the largest", "end 6", "an excess of 5,999, 6,000 and 6,001; then n below, at and above E");
    put("1 1 1 366\n1\n"), put_cover(3, 0, 75, 0, 0, 0, 250), put("0 3 2 200\n1 1 50000 600 700 800 2000\n");
    vector("a largest recharge of 0", "end 1", "all the excess is rejected");
    put("1 1 1 366\n1\n"), put_cover(3, 0, 75, 6000, 0, 0, 250), put("0 3 2 200\n");
    for (int i = 0; i < 40; i++)
        put("%d %d %d 600 700 800 3000\n", i + 1, i + 1, i % 10 == 9 ? 40000 : i % 4 == 3 ? 3500 : 0);
    vector("forty days of storms and dry spells", "end 40", "the soil fills again before it recharges");
}

/* As many days as a text holds: 14 bytes a day at least, more as the serials grow. */
static void many_days(void)
{
    put("1 1 1 366\n1\n"), put_cover(3, 0, 75, 6000, 0, 0, 1), put("0 3 2 9\n");
    for (int i = 0; i < 3900; i++)
        put("%d 1 %d 0 0 0 %d\n", i, i % 2, i % 3);
    vector("3,900 days", "end 3900", "nearly as many as a text can hold");
}

void weather_cases(void)
{
    seasons();
    conditions();
    curve_numbers();
    snowfall();
    deep_snow();
    dry_spells();
    recharge();
    many_days();
}
