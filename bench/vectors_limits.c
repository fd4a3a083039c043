/* The vectors on the limits of each field: refusals 1, 3, 4, 6, 7 and 8. */
#include "vectors.h"
#include "vectors_tokens.h"

#include <stdio.h>

static const struct replaced example_limits[] = {
    {0, "0", "refused 1 at 0", "width 0", "at least 1"},
    {1, "0", "refused 1 at 0", "height 0", "at least 1"},
    {0, "-2", "refused 1 at 0", "negative width", "gets its own field's refusal"},
    {1, "-1", "refused 1 at 0", "negative height", "gets its own field's refusal"},
    {0, "4097", "refused 1 at 0", "4,097 cells", "one too many"},
    {1, "2049", "refused 1 at 0", "4,098 cells", "two columns"},
    {0, "999999999", "refused 1 at 0", "the largest width", "nine digits are fine in form"},
    {0, "4096", "refused 11 at 43", "4,096 cells that are not there", "the grid is fine"},
    {4, "0", "refused 3 at 0", "no cover", "at least 1"},
    {4, "-1", "refused 3 at 0", "-1 covers", "gets its own field's refusal"},
    {4, "65", "refused 3 at 0", "65 covers", "one too many"},
    {4, "999999999", "refused 3 at 0", "the largest count", "nine digits are fine in form"},
    {2, "0", "refused 6 at 0", "season from 0", "1 to 366"},
    {3, "367", "refused 6 at 0", "season to 367", "1 to 366"},
    {2, "271", "refused 6 at 0", "season backwards", "first not after last"},
    {2, "-1", "refused 6 at 0", "negative season", "gets its own field's refusal"},
    {3, "-270", "refused 6 at 0", "negative end", "gets its own field's refusal"},
    {3, "999999999", "refused 6 at 0", "the largest end", "nine digits are fine in form"},
    {2, "270", "end 2", "season of one day", "first may be last"},
    {2, "1", "end 2", "season from the first day", "1 is fine"},
    {3, "366", "end 2", "season to the last day", "366 is fine"},
    {29, "0", "refused 8 at 0", "serial 0, then 2", "0 is fine, 2 does not follow"},
    {29, "-1", "refused 7 at 0", "negative serial", "gets its own field's refusal"},
    {29, "10000000", "refused 7 at 0", "serial 10,000,000", "past the largest"},
    {30, "0", "refused 7 at 0", "day of year 0", "1 to 366"},
    {30, "367", "refused 7 at 0", "day of year 367", "1 to 366"},
    {37, "367", "refused 7 at 0", "second day of year 367", "the first day's line stands"},
    {30, "-150", "refused 7 at 0", "negative day of year", "gets its own field's refusal"},
    {31, "400000", "end 2", "40 inches", "the most"},
    {31, "400001", "refused 7 at 0", "a unit over 40 inches", "past the most"},
    {31, "-1", "refused 7 at 0", "negative precipitation", "gets its own field's refusal"},
    {32, "-1000", "end 2", "-100 degrees", "the lowest"},
    {32, "-1001", "refused 7 at 0", "-100.1 degrees", "below the lowest"},
    {34, "1500", "end 2", "150 degrees", "the highest"},
    {34, "1501", "refused 7 at 0", "150.1 degrees", "past the highest"},
    {32, "701", "refused 7 at 0", "minimum over the mean", "minimum, mean, maximum rise"},
    {32, "700", "end 2", "minimum is the mean", "they may be equal"},
    {33, "801", "refused 7 at 0", "mean over the maximum", "minimum, mean, maximum rise"},
    {33, "800", "end 2", "mean is the maximum", "they may be equal"},
    {34, "-999999999", "refused 7 at 0", "the lowest number", "nine digits are fine in form"},
    {35, "20000", "end 2", "2 inches potential", "the most"},
    {35, "20001", "refused 7 at 0", "a unit over 2 inches potential", "past the most"},
    {42, "-5", "refused 7 at 0", "negative potential on the second day", "the first day's line stands"},
    {36, "1", "refused 8 at 0", "serial again", "one more than the last"},
    {36, "3", "refused 8 at 0", "serial skips one", "one more than the last"},
    {36, "0", "refused 8 at 0", "serial goes back", "one more than the last"},
    {36, "10000000", "refused 7 at 0", "second serial 10,000,000", "7 is tested before 8"},
};

static const struct replaced stream_limits[] = {
    {5, "0", "refused 3 at 0", "cover code 0", "1 to 255"},
    {5, "-3", "refused 3 at 0", "negative code", "gets its own field's refusal"},
    {21, "3", "refused 3 at 1", "cover code twice", "strictly rising; the later one is named"},
    {37, "4", "refused 3 at 2", "cover codes fall", "strictly rising; the later one is named"},
    {37, "256", "refused 3 at 2", "cover code 256", "1 to 255"},
    {5, "259", "refused 3 at 0", "cover code 259", "not its low byte, 3; the value's place comes before the order's"},
    {22, "2", "refused 3 at 1", "open water 2", "0 or 1"},
    {22, "-1", "refused 3 at 1", "open water -1", "0 or 1"},
    {7, "29", "refused 3 at 0", "curve number 29", "30 to 100"},
    {7, "30", "end 3", "curve number 30", "the least"},
    {26, "101", "refused 3 at 1", "curve number 101 of open water", "also where no rule reads it"},
    {42, "-75", "refused 3 at 2", "negative curve number", "gets its own field's refusal"},
    {43, "100000", "end 3", "largest recharge 100,000", "the most"},
    {46, "100001", "refused 3 at 2", "largest recharge 100,001", "past the most"},
    {47, "10000", "end 3", "growing interception 10,000", "the most"},
    {47, "10001", "refused 3 at 2", "growing interception 10,001", "past the most"},
    {16, "10001", "refused 3 at 0", "dormant interception 10,001", "past the most"},
    {48, "10000", "end 3", "dormant interception 10,000", "the most"},
    {17, "1000", "end 3", "root depth 1,000", "the most"},
    {36, "1001", "refused 3 at 1", "root depth 1,001 of open water", "also where no rule reads it"},
    {54, "4", "refused 4 at 0", "cover 4", "not in the table"},
    {58, "259", "refused 4 at 1", "cover 259", "not its low byte, 3"},
    {74, "0", "refused 4 at 5", "cover 0", "not in the table"},
    {66, "-9", "refused 4 at 3", "negative cover", "gets its own field's refusal"},
    {55, "0", "refused 4 at 0", "group 0", "1 to 4"},
    {63, "5", "refused 4 at 2", "group 5", "1 to 4"},
    {71, "257", "refused 4 at 4", "group 257 of open water", "also where no rule reads it"},
    {64, "600", "end 3", "6 inches per foot", "the most"},
    {64, "601", "refused 4 at 2", "6.01 inches per foot", "past the most"},
    {72, "-1", "refused 4 at 4", "negative water of open water", "also where no rule reads it"},
    {53, "-1", "refused 4 at 0", "negative direction", "a fault of its cell"},
    {69, "-128", "refused 4 at 4", "negative direction of open water", "also where no rule reads it"},
    {73, "-999999999", "refused 4 at 5", "the lowest direction", "nine digits are fine in form"},
    {53, "257", "end 3", "direction 257", "a closed depression, not its low byte, 1"},
    {53, "256", "end 3", "direction 256", "a closed depression"},
    {53, "3", "end 3", "direction 3", "a closed depression, not 1 and 2"},
    {53, "255", "end 3", "direction 255", "a closed depression"},
    {53, "999999999", "end 3", "the largest direction", "a closed depression"},
    {57, "16", "refused 5 at 0", "two cells at each other", "the lowest on the ring"},
    {61, "16", "refused 5 at 1", "two others at each other", "the lowest on the ring"},
    {77, "9999997", "refused 8 at 0", "serials 9,999,997 and 8", "one more than the last"},
    {84, "7", "refused 8 at 0", "the second serial again", "the first line stands"},
    {91, "10", "refused 8 at 0", "the third serial skips one", "two lines stand"},
    {94, "-1001", "refused 7 at 0", "third day too cold", "two lines stand"},
};

/* Sizes whose product does not fit 32 bits, or wraps to something small. */
static void sizes(void)
{
    static const char *const size[][2] = {{"641", "6700417"}, {"65536", "65536"},
        {"999999999", "999999999"}, {"65", "64"}, {"1", "4097"}, {"46341", "92681"}};
    char name[60];

    for (size_t i = 0; i < sizeof size / sizeof size[0]; i++) {
        put("%s %s 120 270 1\n", size[i][0], size[i][1]);
        snprintf(name, sizeof name, "%s by %s", size[i][0], size[i][1]);
        vector(name, "refused 1 at 0", "the product is looked at whole");
    }
}

/* Which of two faults is named. */
static void orders(void)
{
    put("2 1 0 367 2\n");
    put_cover(3, 0, 75, 6000, 900, 0, 250), put_cover(2, 0, 101, 6000, 900, 0, 250);
    put("1 9 2 200\n16 9 2 200\n");
    vector("season, cover and cell", "refused 3 at 1", "3 before 4, 5 and 6");
    put("2 1 0 367 1\n");
    put_cover(3, 0, 75, 6000, 900, 0, 250);
    put("1 3 2 200\n16 9 2 200\n");
    vector("season, cell and ring", "refused 4 at 1", "4 before 5 and 6");
    put("2 1 0 367 1\n");
    put_cover(3, 0, 75, 6000, 900, 0, 250);
    put("1 3 2 200\n16 3 2 200\n1 0 0 0 0 0 0\n");
    vector("season, ring and day", "refused 5 at 0", "5 before 6 and 7");
    put("2 1 0 367 1\n");
    put_cover(3, 0, 75, 6000, 900, 0, 250);
    put("1 3 2 200\n0 3 2 200\n1 0 0 0 0 0 0\n");
    vector("season and day", "refused 6 at 0", "6 before 7");
    put("1 1 1 366 3\n");
    put_cover(7, 0, 75, 0, 0, 0, 0), put_cover(6, 0, 75, 0, 0, 0, 0), put_cover(8, 2, 75, 0, 0, 0, 0);
    put("1 7 1 0\n");
    vector("order at 1, value at 2", "refused 3 at 1", "the lowest entry with any fault");
    put_tokens(stream, 0, 77, 72, "601");
    put("1 150 0 600 700 800 0 3 400 0 600 700 800 0\n");
    vector("cell and days", "refused 4 at 4", "4 before 7 and 8");
}

/* As many covers as there may be. */
static void many_covers(void)
{
    put("1 1 1 366 64\n");
    for (int i = 0; i < 64; i++)
        put_cover(192 + i, 0, 30 + i, 1000 * i, i, i, 10 * i);
    put("1 255 4 600\n1 1 400000 600 700 800 20000\n");
    vector("64 covers", "end 1", "the most, to code 255");
    put("1 1 1 366 64\n");
    for (int i = 0; i < 64; i++)
        put_cover(1 + i, 0, 75, 0, 0, 0, i == 63 ? 1001 : 0);
    put("1 1 1 0\n");
    vector("a fault in the last of 64 covers", "refused 3 at 63", "every entry is looked at");
}

void limit_cases(void)
{
    for (size_t i = 0; i < sizeof example_limits / sizeof example_limits[0]; i++)
        replace(example, &example_limits[i]);
    for (size_t i = 0; i < sizeof stream_limits / sizeof stream_limits[0]; i++)
        replace(stream, &stream_limits[i]);
    sizes();
    orders();
    many_covers();
    put_tokens(stream, 0, 77, -1, ""), put("9999999 150 0 600 700 800 0 10000000 150 0 600 700 800 0\n");
    vector("the largest serial", "refused 7 at 0", "after 9,999,999 no day follows");
}
