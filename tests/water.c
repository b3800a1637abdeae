/* water.c: see water.h. */
#include "water.h"

#include "compare.h"

#include <string.h>

/* This reference length has no divisor in common with GRAM, so that its multiples leave every remainder. */
#define PRIME_REFERENCE 2003
#define FULL_STATION 37500

/* The number whose product with the reference length leaves 1 over GRAM. */
static int64_t inverse_of_reference(void)
{
    int64_t inverse = 1;
    while (PRIME_REFERENCE * inverse % GRAM != 1)
        inverse++;
    return inverse;
}

static uint32_t take(int64_t *sum, int64_t factor)
{
    int64_t reading = *sum / factor < 2500 ? *sum / factor : 2500;
    *sum -= factor * reading;
    return (uint32_t)reading;
}

/* Readings of which the product is breadth times the sum. */
static void fill_station(wb_station *station, uint32_t breadth, int64_t sum)
{
    station->b = breadth;
    station->r = take(&sum, 4);
    station->t = take(&sum, 4);
    station->s = take(&sum, 2);
    station->u = take(&sum, 2);
    station->v = take(&sum, 2);
    station->q = take(&sum, 1);
    insist(sum == 0, "the test's station has no such product");
}

/* The stations give the remainder of a gram, the volumes the grams. */
void set_water(wb_sheet *sheet, int64_t water)
{
    static int64_t inverse;
    inverse = inverse ? inverse : inverse_of_reference();
    int64_t sum = (water % GRAM + GRAM) % GRAM * inverse % GRAM, first = sum / 4 < FULL_STATION ? sum / 4 : FULL_STATION;
    sheet->reference = PRIME_REFERENCE;
    memset(sheet->station, 0, sizeof sheet->station);
    fill_station(&sheet->station[0], 1, first);
    fill_station(&sheet->station[3], 1, sum - 4 * first);
    int64_t grams = (water - PRIME_REFERENCE * sum) / GRAM + sheet->well + sheet->flooding;
    if (grams > 5000000) {
        fill_station(&sheet->station[2], 3600, FULL_STATION);
        grams -= 4 * 3600 * (int64_t)FULL_STATION * PRIME_REFERENCE / GRAM;
    }
    sheet->aft = grams > 0 ? (uint32_t)grams : 0;
    sheet->well += grams < 0 ? (uint32_t)-grams : 0;
}
