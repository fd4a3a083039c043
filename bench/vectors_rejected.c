/* The vectors on rejected recharge that runs on downhill (M-104). */
#include "vectors.h"
#include "vectors_foretold.h"

/* The paper's two days on a row of its cells, each draining to the right but the last, whose line is given; cover 4 is open water. Of 30,000
 * units of net rain and all that flows in, a cell evapotranspires 2,000 and recharges 6,000; the rest runs off or is rejected, and runs on. */
static void put_row(int cells, const char *last)
{
    put("%d 1 120 270\n2\n", cells), put_cover(3, 0, 75, 6000, 900, 0, 250), put_cover(4, 1, 75, 6000, 900, 0, 250);
    for (int i = 1; i < cells; i++)
        put("1 3 2 200\n");
    put("%s\n", last);
    put("1 150 30900 600 700 800 2000\n2 151 0 600 700 800 2000\n");
}

static void by_where_it_ends(void)
{
    put_row(2, "0 3 2 200");
    foretell("1 61800 1800 4000 12000 44000 0 100000\n2 0 0 3928 0 0 0 96072\n");
    foretold_vector("rejected recharge in a closed depression", 2, "52,000 units reach it, and 44,000 leave the balance there");
    put_row(2, "1 3 2 200");
    foretell("1 61800 1800 4000 12000 0 44000 100000\n2 0 0 3928 0 0 0 96072\n");
    foretold_vector("rejected recharge over the edge", 2, "it is gone with the runoff, and the total of what is rejected is 0");
    put_row(2, "1 4 2 200");
    foretell("1 61800 900 2000 6000 0 52900 50000\n2 0 0 1964 0 0 0 48036\n");
    foretold_vector("rejected recharge in a lake", 2, "22,000 units from the slope and the 30,900 that fall on the lake are gone");
}

static void down_a_row(void)
{
    put_row(4, "0 3 2 200");
    foretell("1 123600 3600 8000 24000 88000 0 200000\n2 0 0 7856 0 0 0 192144\n");
    foretold_vector("rejected recharge down a row", 2, "22,000, 44,000 and 66,000 units are handed on, and 96,000 reach the last cell");
}

/* A ridge over a closed depression, with their largest recharges: bare ground of curve number 30, which in condition I lets none of so little
 * water run off. */
static void put_ridge(int ridge, int valley)
{
    put("2 1 120 270\n2\n"), put_cover(3, 0, 30, ridge, 0, 0, 0), put_cover(4, 0, 30, valley, 0, 0, 0);
    put("1 3 2 0\n0 4 2 0\n");
}

static void about_the_largest(void)
{
    put_ridge(6000, 0);
    for (int i = 0; i < 3; i++)
        put_day(i + 1, GROWING, 5999 + i, 700);
    foretell("1 11998 0 0 5999 5999 0 0\n2 12000 0 0 6000 6000 0 0\n3 12002 0 0 6000 6002 0 0\n");
    foretold_vector("an excess about the largest recharge", 3, "5,999 and 6,000 all recharge; of 6,001 a unit runs on and is rejected below");
}

static void melt_runs_on(void)
{
    put_ridge(1000, 100000);
    put_day(1, DORMANT, 10000, -200), put("2 %d 0 100 200 500 0\n", DORMANT);
    foretell("1 20000 0 0 0 0 0 20000\n2 0 0 0 11810 0 0 8190\n");
    foretold_vector("melt that the ridge rejects", 2, "4,905 of its 5,905 units recharge in the valley the same day");
}

/* The water of the largest grid, handed on by 4,095 cells that reject all of it. */
static void of_a_whole_grid(const char *name, int last, const char *line, const char *reason)
{
    put("4096 1 120 270\n1\n"), put_cover(3, 0, 30, 0, 0, 0, 0);
    for (int i = 0; i < 4096; i++)
        put("%d 3 2 0\n", i == 4095 ? last : 1);
    put_day(1, GROWING, 400000, 700);
    foretell("%s\n", line);
    foretold_vector(name, 1, reason);
}

void rejected_cases(void)
{
    by_where_it_ends();
    down_a_row();
    about_the_largest();
    melt_runs_on();
    of_a_whole_grid("4,096 cells that reject, the last closed", 0, "1 1638400000 0 0 0 1638400000 0 0",
                    "all the water there is reaches the last cell and leaves there, counted once");
    of_a_whole_grid("4,096 cells that reject, the last over the edge", 1, "1 1638400000 0 0 0 0 1638400000 0",
                    "all the water there is goes over the edge, counted once");
}
