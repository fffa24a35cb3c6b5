/* Directions whose measured vector or north has norm 0 are refused by code 7 and leave the runs as they were; those
 * near it are accepted. */
#include <string.h>

#include "check.h"
#include "drifters_eqf.h"

/* The largest number whose square is 0, and the next one. */
#define LARGEST 1.5717277847026285e-162
#define NEXT 1.5717277847026288e-162

/* The runs of a call. */
struct lent {
    double filter[DRIFTERS_FILTER_LENGTH];
    double numbers[DRIFTERS_DIRECTION_LENGTH];
    double nis;
};

static void diagonal(double *to, int rows, double x)
{
    int i;

    for (i = 0; i < rows; i++)
        to[i * (rows + 1)] = x;
}

/* A filter at rest, seven where the NIS is written, and a direction that is accepted. */
static void prepare(struct lent *lent)
{
    double start[DRIFTERS_START_LENGTH] = {0};

    diagonal(start + DRIFTERS_STATE_ATTITUDE, 3, 1.0);
    diagonal(start + DRIFTERS_STATE_MAG, 3, 1.0);
    diagonal(start + DRIFTERS_START_SIGMA, DRIFTERS_STATES, 0.01);
    memset(lent, 0, sizeof *lent);
    CHECK(drifters_start(lent->filter, DRIFTERS_FILTER_LENGTH, start, DRIFTERS_START_LENGTH) == DRIFTERS_OK);
    lent->numbers[DRIFTERS_DIRECTION_MEASURED] = 1.0;
    lent->numbers[DRIFTERS_DIRECTION_NORTH + 1] = 1.0;
    diagonal(lent->numbers + DRIFTERS_DIRECTION_NOISE, 3, 1.0);
    lent->nis = 7.0;
}

static uint32_t call(struct lent *lent)
{
    return drifters_update_direction(lent->filter, DRIFTERS_FILTER_LENGTH, lent->numbers, DRIFTERS_DIRECTION_LENGTH,
                                     &lent->nis, DRIFTERS_NIS_LENGTH);
}

/* The answer where a vector is put at a place of the numbers, and the noise times a factor. After a refusal the runs are
 * as they were; an accepted call writes the NIS. */
static uint32_t answer(int place, double x, double y, double z, double factor)
{
    struct lent lent, before;
    uint32_t code;

    prepare(&lent);
    lent.numbers[place] = x;
    lent.numbers[place + 1] = y;
    lent.numbers[place + 2] = z;
    diagonal(lent.numbers + DRIFTERS_DIRECTION_NOISE, 3, factor);
    before = lent;
    code = call(&lent);
    if (code == DRIFTERS_OK)
        CHECK(lent.nis != 7.0);
    else
        CHECK(memcmp(&before, &lent, sizeof before) == 0);
    return code;
}

static void vector_at(int place)
{
    const double huge = 1e200, infinity = huge * huge;

    CHECK(answer(place, 0.0, 0.0, 0.0, 1.0) == DRIFTERS_REFUSED_NULL);
    CHECK(answer(place, -0.0, -0.0, -0.0, 1.0) == DRIFTERS_REFUSED_NULL);
    CHECK(answer(place, LARGEST, -LARGEST, LARGEST, 1.0) == DRIFTERS_REFUSED_NULL);
    CHECK(answer(place, 0.0, NEXT, 0.0, 1.0) == DRIFTERS_OK);
    CHECK(answer(place, LARGEST, LARGEST, -NEXT, 1.0) == DRIFTERS_OK);
    CHECK(answer(place, huge, 0.0, 0.0, 1.0) == DRIFTERS_OK); /* its norm overflows, and is not 0 */
    CHECK(answer(place, 0.0, infinity, 0.0, 1.0) == DRIFTERS_REFUSED_BLANK);
    CHECK(answer(place, 0.0, 0.0, 0.0, -1.0) == DRIFTERS_REFUSED_NULL); /* before 4 */
    CHECK(answer(place, 1.0, 1.0, 1.0, -1.0) == DRIFTERS_REFUSED_PIVOT);
}

/* 2 is tested before 7. */
static void blank_and_null(void)
{
    const double huge = 1e200;
    struct lent lent;

    prepare(&lent);
    lent.numbers[DRIFTERS_DIRECTION_MEASURED] = huge * huge;
    lent.numbers[DRIFTERS_DIRECTION_NORTH + 1] = 0.0;
    CHECK(call(&lent) == DRIFTERS_REFUSED_BLANK);
    lent.numbers[DRIFTERS_DIRECTION_MEASURED] = 1.0;
    CHECK(call(&lent) == DRIFTERS_REFUSED_NULL);
    lent.numbers[DRIFTERS_DIRECTION_NORTH + 1] = 1.0;
    CHECK(call(&lent) == DRIFTERS_OK);
}

int main(void)
{
    vector_at(DRIFTERS_DIRECTION_MEASURED);
    vector_at(DRIFTERS_DIRECTION_NORTH);
    blank_and_null();
    /* each answer has a start and a check of the runs */
    return status_of("directions", 2 * 9 * 3 + 4);
}
