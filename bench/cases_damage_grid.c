/* Damage to grids: tests 1 to 6. */
#include "cases_parts.h"

static uint64_t damage_size(struct grid_case *g)
{
    static const uint32_t sizes[][2] = {
        {0, 1},          {1, 0},           {0, 0},         {0, UINT32_MAX}, {UINT32_MAX, 0},
        {4097, 1},       {1, 4097},        {17, 241},      {241, 17},       {65, 64},
        {64, 65},        {2, 2049},        {65536, 65536}, {641, 6700417},  {6700417, 641},
        {1u << 31, 2},   {UINT32_MAX, 1},  {1, UINT32_MAX}, {UINT32_MAX, UINT32_MAX},
        {65537, 65535},  {1u << 20, 4097},
    };
    size_t i = below(COUNT(sizes));

    g->width = sizes[i][0];
    g->height = sizes[i][1];
    return refusal(1, 0);
}

size_t wrong_length(uint32_t cells)
{
    const size_t wrong[] = {0, cells - 1, cells + 1, cells + 8, cells / 2};
    return ONE_OF(wrong);
}

static uint64_t damage_length(struct grid_case *g)
{
    size_t *lengths[] = {&g->direction_len, &g->cover_len, &g->group_len, &g->water_len};

    if (chance(20) && g->cells + g->height <= BALANCE_MAX_CELLS)
        g->width++; /* the slices are those of a narrower grid */
    else
        *ONE_OF(lengths) = wrong_length(g->cells);
    return refusal(2, 0);
}

static uint64_t damage_covers(struct grid_case *g)
{
    static const uint32_t bad[BALANCE_ENTRY][4] = {
        {0, 256, 1000, UINT32_MAX},       {2, 3, 256, UINT32_MAX},
        {29, 101, 0, 306},                {29, 101, 1, UINT32_MAX},
        {29, 101, 65586, 131},            {29, 101, 15, 356},
        {100001, 100002, 1u << 31, ~0u},  {100001, 200000, 999999999, ~0u},
        {100001, 165536, 1u << 24, ~0u},  {100001, 100100, 1000000, ~0u},
        {10001, 10002, 65536, ~0u},       {10001, 20000, 75536, ~0u},
        {1001, 1002, 65536, ~0u},         {1001, 2000, 66536, ~0u},
        {1001, 1024, 1u << 30, ~0u},      {1001, 10000, 1u << 31, ~0u},
    };
    size_t entries = g->covers_len / BALANCE_ENTRY;
    size_t e = chance(30) ? entries - 1 : below(entries);

    switch (below(5)) {
    case 0: { /* the size */
        const size_t wrong[] = {0, 1, 15, g->covers_len - 1, g->covers_len + 1,
                                g->covers_len + 8, 65 * BALANCE_ENTRY, 66 * BALANCE_ENTRY};
        size_t length = ONE_OF(wrong);
        for (size_t i = g->covers_len; i < CASE_COVERS; i++) /* more of the same */
            g->covers[i] = g->covers[i % g->covers_len];
        g->covers_len = length;
        return refusal(3, 0);
    }
    case 1: /* the order */
        if (entries > 1) {
            e = 1 + below(entries - 1);
            uint32_t *code = g->covers + e * BALANCE_ENTRY;
            code[0] = chance(50) ? code[-BALANCE_ENTRY]
                                 : (uint32_t)between(1, code[-BALANCE_ENTRY]);
            return refusal(3, e);
        }
        /* fall through */
    default: {
        size_t field = below(BALANCE_ENTRY);
        g->covers[e * BALANCE_ENTRY + field] = ONE_OF(bad[field]);
        if (field == E_CODE && g->covers[e * BALANCE_ENTRY] == 0 && chance(50) && e > 0) {
            /* also a fault of order in the next entry: the lower one is named */
            g->covers[e * BALANCE_ENTRY] = 256;
        }
        return refusal(3, e);
    }
    }
}

static void spoil_cell(struct grid_case *g, uint32_t cell)
{
    const uint32_t code = g->cover[cell], group = g->group[cell];
    const uint32_t codes[] = {0, code + 256, code + 65536, code + (1u << 31), ~0u, 256, 512};
    const uint32_t groups[] = {0, 5, 6, 255, group + 4, group + 256, group + 65536, ~0u};
    const uint32_t waters[] = {601, 602, 65536, 65536 + 300, 1u << 31, ~0u};

    switch (below(4)) {
    case 0: g->cover[cell] = ONE_OF(codes); break;
    case 1: { /* a code that the table leaves out */
        uint32_t unused = (uint32_t)between(1, 255);
        for (size_t i = 0; i < g->covers_len; i += BALANCE_ENTRY)
            if (g->covers[i] == unused)
                unused = 0;
        g->cover[cell] = unused;
        break;
    }
    case 2: g->group[cell] = ONE_OF(groups); break;
    default: g->water[cell] = ONE_OF(waters); break;
    }
}

static uint64_t damage_cell(struct grid_case *g)
{
    uint32_t cell = chance(20) ? g->cells - 1 : (uint32_t)below(g->cells);
    uint32_t other = chance(30) ? (uint32_t)below(g->cells) : cell;

    spoil_cell(g, cell);
    if (other != cell) /* spoilt twice, a cell might be good again */
        spoil_cell(g, other);
    return refusal(4, cell < other ? cell : other);
}

/* The code of a random entry that is open water, or that is none; 0 if there is none. */
static uint32_t code_of_kind(const struct grid_case *g, uint32_t water)
{
    size_t entries = g->covers_len / BALANCE_ENTRY, start = below(entries);

    for (size_t i = 0; i < entries; i++) {
        const uint32_t *e = g->covers + (start + i) % entries * BALANCE_ENTRY;
        if (e[E_WATER] == water)
            return e[E_CODE];
    }
    return 0;
}

uint64_t damage_ring(struct grid_case *g)
{
    uint32_t land = code_of_kind(g, 0), lake = code_of_kind(g, 1), w = g->width;
    uint32_t on[2 * BALANCE_MAX_CELLS], count = 0;

    if (land == 0 || g->cells == 1)
        return 0;
    if (g->width > 1 && g->height > 1 && chance(70)) {
        uint32_t left = (uint32_t)below(g->width - 1), top = (uint32_t)below(g->height - 1);
        uint32_t right = (uint32_t)between(left + 1, g->width - 1);
        uint32_t bottom = (uint32_t)between(top + 1, g->height - 1);
        for (uint32_t c = left; c < right; c++) on[count++] = top * w + c;
        for (uint32_t r = top; r < bottom; r++) on[count++] = r * w + right;
        for (uint32_t c = right; c > left; c--) on[count++] = bottom * w + c;
        for (uint32_t r = bottom; r > top; r--) on[count++] = r * w + left;
    } else { /* a cell and any neighbour */
        uint32_t cell = (uint32_t)below(g->cells);
        int32_t other = CASE_STAYS;
        g->cover[cell] = land;
        for (int tries = 0; other < 0; tries++) {
            if (tries == 1000)
                return UNSURE; /* a table damaged before, where the code is open water too */
            g->direction[cell] = compass[below(8)].number;
            other = case_next(g, cell);
        }
        on[count++] = cell;
        on[count++] = (uint32_t)other;
    }
    bool backwards = chance(50);
    uint32_t lowest = g->cells;
    for (uint32_t i = 0; i < count; i++) {
        uint32_t to = on[(i + (backwards ? count - 1 : 1)) % count];
        g->cover[on[i]] = land;
        for (int k = 0; k < 8; k++) {
            g->direction[on[i]] = compass[k].number;
            if (case_next(g, on[i]) == (int32_t)to)
                break;
        }
        if (on[i] < lowest)
            lowest = on[i];
    }
    if (lake != 0 && chance(15)) {
        g->cover[on[below(count)]] = lake;
        return 0;
    }
    return refusal(5, lowest);
}

static uint64_t damage_season(struct grid_case *g)
{
    static const uint32_t bad[][2] = {{0, 366}, {0, 0}, {1, 367}, {367, 367}, {200, 199},
                                      {366, 1}, {1, 0}, {1, UINT32_MAX}, {UINT32_MAX, 300},
                                      {367, 400}, {257, 65736}, {2, 1}};
    size_t i = below(COUNT(bad));

    g->first = bad[i][0];
    g->last = bad[i][1];
    return refusal(6, 0);
}

static uint64_t damage_setpoints(struct grid_case *g)
{
    static const uint32_t bad[][2] = {{0, 2000001}, {2000000, 2000001}, {2000001, 2000001},
                                      {2000001, 2000000}, {2000001, 0}, {1, 0}, {56000, 55999},
                                      {83000, 56000}, {2000000, 1999999}, {56000, UINT32_MAX},
                                      {UINT32_MAX, 83000}, {UINT32_MAX, UINT32_MAX},
                                      {0, 1u << 31}};
    size_t i = below(COUNT(bad));

    g->first_setpoint = bad[i][0];
    g->second_setpoint = bad[i][1];
    return refusal(6, 0);
}

uint64_t damage_grid(struct grid_case *g)
{
    /* The others need a grid and a table of sound sizes; this may be a second damage. */
    if (g->width * g->height != g->cells || g->covers_len < BALANCE_ENTRY)
        return chance(50) ? damage_cell(g) : chance(50) ? damage_season(g) : damage_setpoints(g);
    switch (below(9)) {
    case 0: return damage_size(g);
    case 1: return damage_length(g);
    case 2:
    case 3: return damage_covers(g);
    case 4: return damage_cell(g);
    case 5:
    case 6: return damage_ring(g);
    case 7: return damage_setpoints(g);
    default: return damage_season(g);
    }
}
