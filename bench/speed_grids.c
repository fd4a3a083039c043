/* The grids that are timed. */
#include "speed_grids.h"

uint32_t width, height, cells;
uint32_t covers[COVERS * BALANCE_ENTRY];
uint32_t direction[BALANCE_MAX_CELLS], cover[BALANCE_MAX_CELLS], group[BALANCE_MAX_CELLS],
    water[BALANCE_MAX_CELLS];
static uint32_t rank[BALANCE_MAX_CELLS];

static uint32_t scramble(uint32_t x)
{
    x ^= x >> 16;
    x *= 0x7feb352du;
    x ^= x >> 15;
    x *= 0x846ca68bu;
    return x ^ x >> 16;
}

/* Entry 0 is open water; the others go from woods to towns. */
void make_covers(void)
{
    for (uint32_t e = 0; e < COVERS; e++) {
        uint32_t *entry = covers + e * BALANCE_ENTRY;
        entry[0] = 3 + 20 * e;
        entry[1] = e == 0;
        for (uint32_t g = 0; g < 4; g++) {
            entry[2 + g] = 30 + 5 * e + 4 * g;
            entry[6 + g] = 12000 - 2500 * g;
            entry[12 + g] = e == COVERS - 1 ? 0 : 400 - 25 * e - 20 * g;
        }
        entry[10] = 900 - 50 * e;
        entry[11] = 400 - 20 * e;
    }
}

static void plain_cells(uint32_t w, uint32_t h)
{
    width = w;
    height = h;
    cells = w * h;
    for (uint32_t i = 0; i < cells; i++) {
        direction[i] = 0;
        cover[i] = 3 + 20 * 6;
        group[i] = 2;
        water[i] = 200;
    }
}

void make_closed(uint32_t w, uint32_t h)
{
    plain_cells(w, h);
}

/* Each row runs to the right and over the edge. */
void make_rows(uint32_t w, uint32_t h)
{
    plain_cells(w, h);
    for (uint32_t i = 0; i < cells; i++)
        direction[i] = 1;
}

/* One stream through every cell. */
void make_serpentine(uint32_t w, uint32_t h)
{
    plain_cells(w, h);
    for (uint32_t i = 0; i < cells; i++) {
        uint32_t row = i / w, column = i % w;
        int right = row % 2 == 0;
        int turns = right ? column + 1 == w : column == 0;
        direction[i] = turns ? 4 : right ? 1 : 16;
    }
}

/* Each cell drains to its lowest neighbour; a tenth is lake; covers, groups and water vary. */
void make_landscape(uint32_t w, uint32_t h)
{
    static const int step[8][2] = {{1, 0}, {1, 1}, {0, 1}, {-1, 1}, {-1, 0}, {-1, -1}, {0, -1}, {1, -1}};

    plain_cells(w, h);
    for (uint32_t i = 0; i < cells; i++)
        rank[i] = (scramble(i) % 64 + 40 * (i / w) + 10 * (i % w)) * BALANCE_MAX_CELLS + i;
    for (uint32_t i = 0; i < cells; i++) {
        uint32_t lowest = rank[i], kind = scramble(i + 77777);
        for (int d = 0; d < 8; d++) {
            int x = (int)(i % w) + step[d][0], y = (int)(i / w) + step[d][1];
            if (x < 0 || y < 0 || x >= (int)w || y >= (int)h)
                continue;
            uint32_t there = rank[(uint32_t)y * w + (uint32_t)x];
            if (there < lowest) {
                lowest = there;
                direction[i] = 1u << d;
            }
        }
        cover[i] = kind % 10 == 0 ? 3 : 3 + 20 * (1 + kind / 16 % (COVERS - 1));
        group[i] = 1 + kind / 1024 % 4;
        water[i] = 100 + kind / 8192 % 200;
    }
}
