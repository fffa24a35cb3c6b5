/* Updates by the best of several compasses: the reading that is applied leaves what its direction call leaves; refused
 * readings are passed over; where none is accepted, and where the call is refused, filter and NIS stay. */
#include <string.h>

#include "check.h"
#include "drifters_eqf.h"

#define MOST DRIFTERS_MOST_READINGS
#define READING DRIFTERS_READING_LENGTH

/* The runs of a call, how many readings it has, and its budget. */
struct lent {
    double filter[DRIFTERS_FILTER_LENGTH];
    double readings[MOST * READING];
    double field[DRIFTERS_COMPASSES_LENGTH];
    double nis;
    size_t counts[DRIFTERS_COUNTS_LENGTH];
    size_t count;
    size_t budget;
};

static double infinity(void)
{
    const double huge = 1e200;

    return huge * huge;
}

static void diagonal(double *to, int rows, double x)
{
    int i;

    for (i = 0; i < rows; i++)
        to[i * (rows + 1)] = x;
}

static void put_reading(struct lent *lent, int i, double x, double y, double z)
{
    double *to = lent->readings + i * READING;

    to[0] = x;
    to[1] = y;
    to[2] = z;
}

/* A filter at rest, eight readings that are off by more the later they come, a budget for all, and sevens where the
 * call writes. */
static void prepare(struct lent *lent)
{
    double start[DRIFTERS_START_LENGTH] = {0};
    int i;

    memset(lent, 0, sizeof *lent);
    diagonal(start + DRIFTERS_STATE_ATTITUDE, 3, 1.0);
    diagonal(start + DRIFTERS_STATE_MAG, 3, 1.0);
    diagonal(start + DRIFTERS_START_SIGMA, DRIFTERS_STATES, 0.01);
    CHECK(drifters_start(lent->filter, DRIFTERS_FILTER_LENGTH, start, DRIFTERS_START_LENGTH) == DRIFTERS_OK);
    for (i = 0; i < MOST; i++)
        put_reading(lent, i, 0.4, 0.01 * (i + 1), 0.9);
    lent->field[DRIFTERS_COMPASSES_NORTH] = 0.4;
    lent->field[DRIFTERS_COMPASSES_NORTH + 2] = 0.9;
    diagonal(lent->field + DRIFTERS_COMPASSES_NOISE, 3, 0.001);
    lent->nis = 7.0;
    lent->counts[0] = lent->counts[1] = 7;
    lent->count = lent->budget = MOST;
}

static uint32_t call(struct lent *lent)
{
    return drifters_update_compasses(lent->filter, DRIFTERS_FILTER_LENGTH, lent->readings, lent->count * READING,
                                     lent->field, DRIFTERS_COMPASSES_LENGTH, lent->budget,
                                     lent->counts, DRIFTERS_COUNTS_LENGTH, &lent->nis, DRIFTERS_NIS_LENGTH);
}

/* The call tries so many readings and applies reading i: what it leaves is what a direction call by it leaves. */
static void applies(const struct lent *first, size_t tried, size_t i)
{
    struct lent lent = *first, expected = *first;
    double numbers[DRIFTERS_DIRECTION_LENGTH];

    memcpy(numbers + DRIFTERS_DIRECTION_MEASURED, first->readings + i * READING, READING * sizeof *numbers);
    memcpy(numbers + DRIFTERS_DIRECTION_NORTH, first->field, sizeof first->field);
    CHECK(drifters_update_direction(expected.filter, DRIFTERS_FILTER_LENGTH, numbers, DRIFTERS_DIRECTION_LENGTH,
                                    &expected.nis, DRIFTERS_NIS_LENGTH) == DRIFTERS_OK);
    expected.counts[DRIFTERS_COUNTS_TRIED] = tried;
    expected.counts[DRIFTERS_COUNTS_CHOSEN] = i;
    CHECK(call(&lent) == DRIFTERS_OK);
    CHECK(memcmp(&expected, &lent, sizeof lent) == 0);
    CHECK(memcmp(first->filter, lent.filter, sizeof lent.filter) != 0);
}

/* The call tries so many readings and applies none: filter and NIS stay. */
static void applies_none(const struct lent *first, size_t tried)
{
    struct lent lent = *first, expected = *first;

    expected.counts[DRIFTERS_COUNTS_TRIED] = tried;
    expected.counts[DRIFTERS_COUNTS_CHOSEN] = DRIFTERS_NONE_CHOSEN;
    CHECK(call(&lent) == DRIFTERS_OK);
    CHECK(memcmp(&expected, &lent, sizeof lent) == 0);
}

/* The call is refused, and leaves its runs. */
static void refused(const struct lent *first, uint32_t code)
{
    struct lent lent = *first;

    CHECK(call(&lent) == code);
    CHECK(memcmp(first, &lent, sizeof lent) == 0);
}

static void the_best(void)
{
    struct lent lent;

    prepare(&lent);
    applies(&lent, 8, 0);
    put_reading(&lent, 5, 0.4, 0.001, 0.9);
    applies(&lent, 8, 5);
    put_reading(&lent, 2, 0.8, 0.002, 1.8); /* the same direction, to the last bit */
    applies(&lent, 8, 2);
}

static void refused_ones(void)
{
    struct lent lent;

    prepare(&lent);
    put_reading(&lent, 0, 0.0, 0.0, 0.0);
    put_reading(&lent, 1, 0.4, infinity() - infinity(), 0.9);
    put_reading(&lent, 2, 0.4, 0.0, -infinity());
    put_reading(&lent, 3, 1e-170, -1e-170, 1e-170);
    applies(&lent, 8, 4);
    lent.budget = 4;
    applies_none(&lent, 4);
    lent.count = 3;
    applies_none(&lent, 3);
}

/* A better reading after those that are tried is not chosen, and one that is not a number does not matter. */
static void budgets(void)
{
    struct lent lent;

    prepare(&lent);
    lent.budget = 0;
    applies_none(&lent, 0);
    lent.budget = 1;
    applies(&lent, 1, 0);
    put_reading(&lent, 7, 0.4, 0.0, 0.9);
    lent.budget = 7;
    applies(&lent, 7, 0);
    put_reading(&lent, 7, infinity() - infinity(), infinity(), 0.0);
    applies(&lent, 7, 0);
    lent.budget = 8;
    lent.count = 2;
    applies(&lent, 2, 0);
}

static void null_north(void)
{
    struct lent lent;

    prepare(&lent);
    lent.field[DRIFTERS_COMPASSES_NORTH] = lent.field[DRIFTERS_COMPASSES_NORTH + 2] = -0.0;
    applies_none(&lent, 8);
}

/* Lengths one off are in runs.c. */
static void out_of_range(void)
{
    struct lent lent;

    prepare(&lent);
    lent.field[DRIFTERS_COMPASSES_NORTH] = infinity(); /* 1 comes before 2 */
    lent.count = 0;
    refused(&lent, DRIFTERS_REFUSED_LENGTH);
    lent.count = MOST;
    lent.budget = 9;
    refused(&lent, DRIFTERS_REFUSED_LENGTH);
    lent.budget = (size_t)-1;
    refused(&lent, DRIFTERS_REFUSED_LENGTH);
    lent.budget = 8;
    refused(&lent, DRIFTERS_REFUSED_BLANK);
}

/* Nine readings, which no other run here has room for. */
static void nine(void)
{
    struct lent lent, before;
    double readings[9 * READING];
    int i;

    prepare(&lent);
    before = lent;
    for (i = 0; i < 9 * READING; i++)
        readings[i] = 1.0;
    CHECK(drifters_update_compasses(lent.filter, DRIFTERS_FILTER_LENGTH, readings, 9 * READING,
                                    lent.field, DRIFTERS_COMPASSES_LENGTH, lent.budget,
                                    lent.counts, DRIFTERS_COUNTS_LENGTH, &lent.nis, DRIFTERS_NIS_LENGTH)
          == DRIFTERS_REFUSED_LENGTH);
    CHECK(memcmp(&before, &lent, sizeof lent) == 0);
}

/* Of filter, north and noise; be it that no reading is tried. */
static void blanks(void)
{
    struct lent lent;
    int i;

    for (i = 0; i < DRIFTERS_COMPASSES_LENGTH; i++) {
        prepare(&lent);
        lent.field[i] = -infinity();
        refused(&lent, DRIFTERS_REFUSED_BLANK);
    }
    for (i = DRIFTERS_FILTER_POSITION_ALPHA; i <= DRIFTERS_FILTER_DIRECTION_ALPHA; i++) {
        prepare(&lent);
        lent.filter[i] = infinity() - infinity();
        refused(&lent, DRIFTERS_REFUSED_BLANK);
        lent.budget = 0;
        refused(&lent, DRIFTERS_REFUSED_BLANK);
    }
}

int main(void)
{
    the_best();
    refused_ones();
    budgets();
    null_north();
    out_of_range();
    nine();
    blanks();
    /* 21 starts; 8 readings that are applied, with four checks each; none is 4 times, with two; 22 refused calls, with two;
     * nine */
    return status_of("compasses", 21 + 8 * 4 + 4 * 2 + 22 * 2 + 2);
}
