/* A filter with one alpha, changed over to one with an alpha for each sensor, and back; and which call takes which
 * alpha. Wrong lengths are in runs.c. */
#include <string.h>

#include "check.h"
#include "drifters_eqf.h"

#define ALPHAS 3

/* What comes before the alphas, in bytes. */
#define FRONT_BYTES (DRIFTERS_FILTER_POSITION_ALPHA * sizeof(double))

/* A filter, and the NIS of the last update of it. */
struct flown {
    double filter[DRIFTERS_FILTER_LENGTH];
    double nis;
};

static double infinity(void)
{
    const double huge = 1e200;

    return huge * huge;
}

static void diagonal(double *to, int rows, double x)
{
    int i;

    for (i = 0; i < rows; i++)
        to[i * (rows + 1)] = x;
}

static void fill(double *run, size_t length, double x)
{
    size_t i;

    for (i = 0; i < length; i++)
        run[i] = x;
}

/* A filter at rest with these alphas, for positions, velocities and directions. */
static void start(struct flown *flown, const double *alphas)
{
    double numbers[DRIFTERS_START_LENGTH] = {0};

    diagonal(numbers + DRIFTERS_STATE_ATTITUDE, 3, 1.0);
    diagonal(numbers + DRIFTERS_STATE_MAG, 3, 1.0);
    diagonal(numbers + DRIFTERS_START_SIGMA, DRIFTERS_STATES, 0.02);
    memset(flown, 0, sizeof *flown);
    CHECK(drifters_start(flown->filter, DRIFTERS_FILTER_LENGTH, numbers, DRIFTERS_START_LENGTH) == DRIFTERS_OK);
    flown->filter[DRIFTERS_FILTER_POSITION_ALPHA] = alphas[0];
    flown->filter[DRIFTERS_FILTER_VELOCITY_ALPHA] = alphas[1];
    flown->filter[DRIFTERS_FILTER_DIRECTION_ALPHA] = alphas[2];
}

/* The calls, each by numbers that surprise the filter, so that an update hangs on its alpha. */
static uint32_t propagate(struct flown *flown)
{
    double numbers[DRIFTERS_PROPAGATE_LENGTH] = {0};

    numbers[DRIFTERS_PROPAGATE_OMEGA] = 0.3;
    numbers[DRIFTERS_PROPAGATE_ACCEL + 1] = -9.0;
    numbers[DRIFTERS_PROPAGATE_DT] = 0.01;
    fill(numbers + DRIFTERS_PROPAGATE_GYRO_DENSITY, 3, 0.001);
    return drifters_propagate(flown->filter, DRIFTERS_FILTER_LENGTH, numbers, DRIFTERS_PROPAGATE_LENGTH);
}

static uint32_t position(struct flown *flown)
{
    double numbers[DRIFTERS_POSITION_LENGTH] = {0};

    numbers[DRIFTERS_POSITION_ANTENNA] = 1.0;
    diagonal(numbers + DRIFTERS_POSITION_NOISE, 3, 0.01);
    return drifters_update_position(flown->filter, DRIFTERS_FILTER_LENGTH, numbers, DRIFTERS_POSITION_LENGTH,
                                    &flown->nis, DRIFTERS_NIS_LENGTH);
}

static uint32_t velocity(struct flown *flown)
{
    double numbers[DRIFTERS_VELOCITY_LENGTH] = {0};

    numbers[DRIFTERS_VELOCITY_ANTENNA] = 1.0;
    numbers[DRIFTERS_VELOCITY_OMEGA] = 0.3;
    diagonal(numbers + DRIFTERS_VELOCITY_NOISE, 3, 0.01);
    return drifters_update_velocity(flown->filter, DRIFTERS_FILTER_LENGTH, numbers, DRIFTERS_VELOCITY_LENGTH,
                                    &flown->nis, DRIFTERS_NIS_LENGTH);
}

static uint32_t direction(struct flown *flown)
{
    double numbers[DRIFTERS_DIRECTION_LENGTH] = {0};

    fill(numbers + DRIFTERS_DIRECTION_MEASURED, 2, 1.0);
    numbers[DRIFTERS_DIRECTION_NORTH] = 1.0;
    diagonal(numbers + DRIFTERS_DIRECTION_NOISE, 3, 0.01);
    return drifters_update_direction(flown->filter, DRIFTERS_FILTER_LENGTH, numbers, DRIFTERS_DIRECTION_LENGTH,
                                     &flown->nis, DRIFTERS_NIS_LENGTH);
}

static uint32_t update(struct flown *flown)
{
    double numbers[DRIFTERS_UPDATE_LENGTH] = {0};

    fill(numbers + DRIFTERS_UPDATE_OUTPUT, DRIFTERS_STATES, 0.1);
    numbers[DRIFTERS_UPDATE_INNOVATION] = 1.0;
    diagonal(numbers + DRIFTERS_UPDATE_NOISE, 3, 0.01);
    return drifters_update(flown->filter, DRIFTERS_FILTER_LENGTH, numbers, DRIFTERS_UPDATE_LENGTH,
                           &flown->nis, DRIFTERS_NIS_LENGTH);
}

static uint32_t scalar(struct flown *flown)
{
    double numbers[DRIFTERS_SCALAR_LENGTH] = {0};

    fill(numbers + DRIFTERS_SCALAR_OUTPUT, DRIFTERS_STATES, 0.1);
    numbers[DRIFTERS_SCALAR_INNOVATION] = 1.0;
    numbers[DRIFTERS_SCALAR_VARIANCE] = 0.01;
    return drifters_update_scalar(flown->filter, DRIFTERS_FILTER_LENGTH, numbers, DRIFTERS_SCALAR_LENGTH,
                                  &flown->nis, DRIFTERS_NIS_LENGTH);
}

static uint32_t compasses(struct flown *flown)
{
    double readings[2 * DRIFTERS_READING_LENGTH] = {0};
    double numbers[DRIFTERS_COMPASSES_LENGTH] = {0};
    size_t counts[DRIFTERS_COUNTS_LENGTH];

    fill(readings, 5, 1.0);
    numbers[DRIFTERS_COMPASSES_NORTH] = 1.0;
    diagonal(numbers + DRIFTERS_COMPASSES_NOISE, 3, 0.01);
    return drifters_update_compasses(flown->filter, DRIFTERS_FILTER_LENGTH, readings, 2 * DRIFTERS_READING_LENGTH,
                                     numbers, DRIFTERS_COMPASSES_LENGTH, DRIFTERS_MOST_READINGS,
                                     counts, DRIFTERS_COUNTS_LENGTH, &flown->nis, DRIFTERS_NIS_LENGTH);
}

/* A call, and the index of the alpha that it takes, or NONE. */
#define NONE ALPHAS
struct call {
    uint32_t (*make)(struct flown *flown);
    int alpha;
};

#define CALLS 7
static const struct call calls[CALLS] = {
    {propagate, NONE}, {position, 0}, {velocity, 1}, {direction, 2}, {update, 0}, {scalar, 0}, {compasses, 2},
};

/* The call does to a filter what it does to one whose alphas are all the one that it takes, and to no other whose alphas
 * are equal. It leaves the alphas. */
static void takes_its_alpha(const struct call *call)
{
    static const double alphas[ALPHAS] = {0.05, 0.3, 0.8};
    struct flown flown, equal;
    double three[ALPHAS];
    int i;

    start(&flown, alphas);
    CHECK(call->make(&flown) == DRIFTERS_OK);
    CHECK(memcmp(flown.filter + DRIFTERS_FILTER_POSITION_ALPHA, alphas, sizeof alphas) == 0);
    for (i = 0; i < ALPHAS; i++) {
        fill(three, ALPHAS, alphas[i]);
        start(&equal, three);
        CHECK(call->make(&equal) == DRIFTERS_OK);
        CHECK(memcmp(&flown.nis, &equal.nis, sizeof flown.nis) == 0);
        CHECK((memcmp(flown.filter, equal.filter, FRONT_BYTES) == 0) == (call->alpha == NONE || call->alpha == i));
    }
}

/* Changes a filter back to one alpha, and over, through runs that hold no numbers before. */
static void back_and_over(double *filter)
{
    double one_alpha[DRIFTERS_ONE_ALPHA_LENGTH];

    fill(one_alpha, DRIFTERS_ONE_ALPHA_LENGTH, infinity() - infinity());
    CHECK(drifters_downgrade(filter, DRIFTERS_FILTER_LENGTH, one_alpha, DRIFTERS_ONE_ALPHA_LENGTH) == DRIFTERS_OK);
    CHECK(memcmp(one_alpha, filter, sizeof one_alpha) == 0);
    fill(filter, DRIFTERS_FILTER_LENGTH, infinity());
    CHECK(drifters_upgrade(one_alpha, DRIFTERS_ONE_ALPHA_LENGTH, filter, DRIFTERS_FILTER_LENGTH) == DRIFTERS_OK);
}

/* A flight whose filter is changed back and over after each call. */
static void back_and_over_keeps_the_bits(double alpha)
{
    struct flown flown;
    double before[DRIFTERS_FILTER_LENGTH], three[ALPHAS];
    int i;

    fill(three, ALPHAS, alpha);
    start(&flown, three);
    for (i = 0; i < CALLS; i++) {
        CHECK(calls[i].make(&flown) == DRIFTERS_OK);
        memcpy(before, flown.filter, sizeof before);
        back_and_over(flown.filter);
        CHECK(memcmp(before, flown.filter, sizeof before) == 0);
    }
}

/* Changing back is refused by the code, and changes neither run. */
static void not_back(const double *filter, uint32_t code)
{
    double filter_before[DRIFTERS_FILTER_LENGTH];
    double one_alpha[DRIFTERS_ONE_ALPHA_LENGTH], before[DRIFTERS_ONE_ALPHA_LENGTH];

    memcpy(filter_before, filter, sizeof filter_before);
    fill(one_alpha, DRIFTERS_ONE_ALPHA_LENGTH, 7.0);
    memcpy(before, one_alpha, sizeof before);
    CHECK(drifters_downgrade(filter, DRIFTERS_FILTER_LENGTH, one_alpha, DRIFTERS_ONE_ALPHA_LENGTH) == code);
    CHECK(memcmp(before, one_alpha, sizeof before) == 0);
    CHECK(memcmp(filter_before, filter, sizeof filter_before) == 0);
}

/* Zeros of two signs are unequal; an alpha that is infinite is refused first. */
static void unequal(double a, double b)
{
    struct flown flown;
    double alphas[ALPHAS];
    int i;

    for (i = 0; i < ALPHAS; i++) {
        fill(alphas, ALPHAS, a);
        alphas[i] = b;
        start(&flown, alphas);
        not_back(flown.filter, DRIFTERS_REFUSED_UNEQUAL);
        flown.filter[DRIFTERS_FILTER_POSITION_ALPHA + i] = -infinity();
        not_back(flown.filter, DRIFTERS_REFUSED_BLANK);
    }
}

/* Wherever a number is infinite that is read, changing over is refused, and changes neither run. */
static void not_over(void)
{
    double one_alpha[DRIFTERS_ONE_ALPHA_LENGTH] = {0}, one_alpha_before[DRIFTERS_ONE_ALPHA_LENGTH];
    double filter[DRIFTERS_FILTER_LENGTH], before[DRIFTERS_FILTER_LENGTH];
    int i;

    fill(filter, DRIFTERS_FILTER_LENGTH, 7.0);
    memcpy(before, filter, sizeof before);
    for (i = 0; i < DRIFTERS_ONE_ALPHA_LENGTH; i++) {
        one_alpha[i] = infinity();
        memcpy(one_alpha_before, one_alpha, sizeof one_alpha);
        CHECK(drifters_upgrade(one_alpha, DRIFTERS_ONE_ALPHA_LENGTH, filter, DRIFTERS_FILTER_LENGTH)
              == DRIFTERS_REFUSED_BLANK);
        CHECK(memcmp(before, filter, sizeof before) == 0);
        CHECK(memcmp(one_alpha_before, one_alpha, sizeof one_alpha) == 0);
        one_alpha[i] = 0.0;
    }
}

int main(void)
{
    int i;

    for (i = 0; i < CALLS; i++)
        takes_its_alpha(calls + i);
    back_and_over_keeps_the_bits(0.3);
    back_and_over_keeps_the_bits(-0.0);
    back_and_over_keeps_the_bits(0.0);
    unequal(0.0, -0.0);
    unequal(0.3, 0.4);
    not_over();
    /* of each call, a start and two checks, then four for each alpha; three flights, each with a start and five checks
     * for each call; two pairs in three places, each with a start and two refusals of three checks; 478 refusals of
     * three checks */
    return status_of("upgrade", CALLS * (3 + ALPHAS * 4) + 3 * (1 + CALLS * 5) + 2 * ALPHAS * (1 + 2 * 3) + 478 * 3);
}
