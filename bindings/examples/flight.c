/* A short flight: start, a propagation, each update, a change to one alpha and back, a refused update, the estimate, and
 * a call sheet. flight.rs is the same in Rust. */
#include <inttypes.h>
#include <stdio.h>
#include <stdlib.h>
#include <string.h>

#include "drifters_eqf.h"
#include "first_sigma.h"

/* The sheet: a count, a kind and an offset for each entry, then the numbers of the filter and the calls. */
#define CALLS 3
#define TABLE_BYTES (4 + 8 * (1 + CALLS))
#define SHEET_BYTES (TABLE_BYTES + 8 * (DRIFTERS_FILTER_LENGTH + CALLS * DRIFTERS_POSITION_LENGTH))

/* A vector. */
static void vector(double *to, double x, double y, double z)
{
    to[0] = x;
    to[1] = y;
    to[2] = z;
}

/* A 3 by 3 matrix with x on its diagonal; what is not on it stays as it was. */
static void diagonal(double *to, double x)
{
    to[0] = x;
    to[4] = x;
    to[8] = x;
}

static uint64_t bits_of(double x)
{
    uint64_t bits;
    memcpy(&bits, &x, sizeof bits);
    return bits;
}

/* A number by its bits and in decimal. */
static void print_number(double x)
{
    printf(" %016" PRIX64 " %.9f\n", bits_of(x), x);
}

/* Ends the flight where a call is refused that it cannot do without. */
static void need(const char *name, uint32_t code)
{
    if (code == DRIFTERS_OK)
        return;
    fprintf(stderr, "%s refused %" PRIu32 " (%s): %s\n",
            name, code, drifters_code_word(code), drifters_code_meaning(code));
    exit(1);
}

static void print_update(const char *name, uint32_t code, double nis)
{
    if (code == DRIFTERS_OK) {
        printf("%s", name);
        print_number(nis);
    } else {
        printf("%s refused %" PRIu32 "\n", name, code);
    }
}

/* Level and at rest at the origin, with some doubt in every direction. Each alpha is 0.5 after a start, too much for
 * most flights: docs/MANUAL.md says why. */
static void start(double *filter)
{
    double numbers[DRIFTERS_START_LENGTH] = {0};
    double *state = numbers + DRIFTERS_START_STATE;
    double deviations[DRIFTERS_STATES];

    diagonal(state + DRIFTERS_STATE_ATTITUDE, 1.0);
    diagonal(state + DRIFTERS_STATE_MAG, 1.0);
    for (size_t i = 0; i < DRIFTERS_STATES; i++)
        deviations[i] = 0.1;
    first_sigma(numbers + DRIFTERS_START_SIGMA, state, deviations);
    vector(numbers + DRIFTERS_START_GRAVITY, 0.0, 0.0, 9.81);
    need("start", drifters_start(filter, DRIFTERS_FILTER_LENGTH, numbers, DRIFTERS_START_LENGTH));
    filter[DRIFTERS_FILTER_POSITION_ALPHA] = 0.01;
    filter[DRIFTERS_FILTER_VELOCITY_ALPHA] = 0.01;
    filter[DRIFTERS_FILTER_DIRECTION_ALPHA] = 0.01;
    printf("start ok\n");
}

/* Ten milliseconds of a slow turn under thrust. */
static void propagate(double *filter)
{
    double numbers[DRIFTERS_PROPAGATE_LENGTH] = {0};

    vector(numbers + DRIFTERS_PROPAGATE_OMEGA, 0.01, -0.02, 0.03);
    vector(numbers + DRIFTERS_PROPAGATE_ACCEL, 0.5, 0.0, -9.81);
    numbers[DRIFTERS_PROPAGATE_DT] = 0.01;
    vector(numbers + DRIFTERS_PROPAGATE_GYRO_DENSITY, 0.001, 0.001, 0.001);
    vector(numbers + DRIFTERS_PROPAGATE_ACCEL_DENSITY, 0.001, 0.001, 0.001);
    vector(numbers + DRIFTERS_PROPAGATE_GYRO_BIAS_DENSITY, 0.00001, 0.00001, 0.00001);
    vector(numbers + DRIFTERS_PROPAGATE_ACCEL_BIAS_DENSITY, 0.00001, 0.00001, 0.00001);
    need("propagate", drifters_propagate(filter, DRIFTERS_FILTER_LENGTH, numbers, DRIFTERS_PROPAGATE_LENGTH));
    printf("propagate ok\n");
}

/* An antenna position with the given variance on each axis. */
static void update_position(double *filter, double variance)
{
    double numbers[DRIFTERS_POSITION_LENGTH] = {0};
    double nis = 0.0;
    uint32_t code;

    vector(numbers + DRIFTERS_POSITION_ANTENNA, 0.25, -0.5, 0.125);
    diagonal(numbers + DRIFTERS_POSITION_NOISE, variance);
    code = drifters_update_position(filter, DRIFTERS_FILTER_LENGTH, numbers, DRIFTERS_POSITION_LENGTH,
                                    &nis, DRIFTERS_NIS_LENGTH);
    print_update("update_position", code, nis);
}

static void update_velocity(double *filter)
{
    double numbers[DRIFTERS_VELOCITY_LENGTH] = {0};
    double nis = 0.0;
    uint32_t code;

    vector(numbers + DRIFTERS_VELOCITY_ANTENNA, 0.0625, 0.0, -0.03125);
    vector(numbers + DRIFTERS_VELOCITY_OMEGA, 0.01, -0.02, 0.03);
    diagonal(numbers + DRIFTERS_VELOCITY_NOISE, 0.04);
    code = drifters_update_velocity(filter, DRIFTERS_FILTER_LENGTH, numbers, DRIFTERS_VELOCITY_LENGTH,
                                    &nis, DRIFTERS_NIS_LENGTH);
    print_update("update_velocity", code, nis);
}

static void update_direction(double *filter)
{
    double numbers[DRIFTERS_DIRECTION_LENGTH] = {0};
    double nis = 0.0;
    uint32_t code;

    vector(numbers + DRIFTERS_DIRECTION_MEASURED, 0.875, 0.125, 0.5);
    vector(numbers + DRIFTERS_DIRECTION_NORTH, 1.0, 0.0, 0.5);
    diagonal(numbers + DRIFTERS_DIRECTION_NOISE, 0.01);
    code = drifters_update_direction(filter, DRIFTERS_FILTER_LENGTH, numbers, DRIFTERS_DIRECTION_LENGTH,
                                     &nis, DRIFTERS_NIS_LENGTH);
    print_update("update_direction", code, nis);
}

/* The position of the sensor itself, as a tracker on the ground sees it: predicted minus measured. m^ stands on the
 * attitude's columns, where m is halfway between the two. */
static void update(double *filter)
{
    static const double tracked[3] = {0.125, 0.0, -0.25};
    const double *predicted = filter + DRIFTERS_FILTER_POSITION;
    double numbers[DRIFTERS_UPDATE_LENGTH] = {0};
    double m[3];
    double nis = 0.0;
    uint32_t code;

    for (size_t i = 0; i < 3; i++)
        m[i] = (predicted[i] + tracked[i]) * 0.5;
    for (size_t i = 0; i < 3; i++) {
        double *row = numbers + DRIFTERS_UPDATE_OUTPUT + i * DRIFTERS_STATES;
        size_t j = (i + 1) % 3, k = (i + 2) % 3;
        row[DRIFTERS_COORDINATE_ATTITUDE + j] = -m[k];
        row[DRIFTERS_COORDINATE_ATTITUDE + k] = m[j];
        row[DRIFTERS_COORDINATE_POSITION + i] = -1.0;
        numbers[DRIFTERS_UPDATE_INNOVATION + i] = predicted[i] - tracked[i];
    }
    diagonal(numbers + DRIFTERS_UPDATE_NOISE, 0.5);
    code = drifters_update(filter, DRIFTERS_FILTER_LENGTH, numbers, DRIFTERS_UPDATE_LENGTH, &nis, DRIFTERS_NIS_LENGTH);
    print_update("update", code, nis);
}

/* The height of the sensor, as a pressure gauge has it: the third row of the update above, with the m that is predicted,
 * since north and east are not measured. */
static void update_scalar(double *filter)
{
    static const double height = 0.0625;
    const double *predicted = filter + DRIFTERS_FILTER_POSITION;
    double numbers[DRIFTERS_SCALAR_LENGTH] = {0};
    double *row = numbers + DRIFTERS_SCALAR_OUTPUT;
    double nis = 0.0;
    uint32_t code;

    row[DRIFTERS_COORDINATE_ATTITUDE] = -predicted[1];
    row[DRIFTERS_COORDINATE_ATTITUDE + 1] = predicted[0];
    row[DRIFTERS_COORDINATE_POSITION + 2] = -1.0;
    numbers[DRIFTERS_SCALAR_INNOVATION] = predicted[2] - -height;
    numbers[DRIFTERS_SCALAR_VARIANCE] = 0.25;
    code = drifters_update_scalar(filter, DRIFTERS_FILTER_LENGTH, numbers, DRIFTERS_SCALAR_LENGTH,
                                  &nis, DRIFTERS_NIS_LENGTH);
    print_update("update_scalar", code, nis);
}

/* Three compasses: one is switched off, one is beside a magnet, and the third is applied. */
static void update_compasses(double *filter)
{
    double readings[3 * DRIFTERS_READING_LENGTH] = {0};
    double numbers[DRIFTERS_COMPASSES_LENGTH] = {0};
    size_t counts[DRIFTERS_COUNTS_LENGTH] = {0};
    double nis = 0.0;

    vector(readings + DRIFTERS_READING_LENGTH, 0.5, 0.75, 0.25);
    vector(readings + 2 * DRIFTERS_READING_LENGTH, 0.875, 0.0625, 0.5);
    vector(numbers + DRIFTERS_COMPASSES_NORTH, 1.0, 0.0, 0.5);
    diagonal(numbers + DRIFTERS_COMPASSES_NOISE, 0.01);
    need("update_compasses",
         drifters_update_compasses(filter, DRIFTERS_FILTER_LENGTH, readings, 3 * DRIFTERS_READING_LENGTH,
                                   numbers, DRIFTERS_COMPASSES_LENGTH, DRIFTERS_MOST_READINGS,
                                   counts, DRIFTERS_COUNTS_LENGTH, &nis, DRIFTERS_NIS_LENGTH));
    printf("update_compasses, %zu tried,", counts[DRIFTERS_COUNTS_TRIED]);
    if (counts[DRIFTERS_COUNTS_CHOSEN] == DRIFTERS_NONE_CHOSEN) {
        printf(" none\n");
    } else {
        printf(" compass %zu", counts[DRIFTERS_COUNTS_CHOSEN]);
        print_number(nis);
    }
}

static void print_change(const double *before, const double *after)
{
    printf("filter %s\n", memcmp(before, after, DRIFTERS_FILTER_LENGTH * sizeof *before) == 0 ? "unchanged" : "changed");
}

/* To a filter with one alpha, as version 0.6.0 takes it, and back. The alphas are equal, so nothing is lost. */
static void change_over(const double *filter)
{
    double one_alpha[DRIFTERS_ONE_ALPHA_LENGTH];
    double again[DRIFTERS_FILTER_LENGTH];

    need("downgrade", drifters_downgrade(filter, DRIFTERS_FILTER_LENGTH, one_alpha, DRIFTERS_ONE_ALPHA_LENGTH));
    printf("downgrade ok\n");
    need("upgrade", drifters_upgrade(one_alpha, DRIFTERS_ONE_ALPHA_LENGTH, again, DRIFTERS_FILTER_LENGTH));
    printf("upgrade ok\n");
    print_change(filter, again);
}

/* A variance below 0: no such matrix has a Cholesky factor. The refused update changes nothing. */
static void refused_update(double *filter)
{
    double before[DRIFTERS_FILTER_LENGTH];

    memcpy(before, filter, sizeof before);
    update_position(filter, -1.0);
    print_change(before, filter);
}

static void print_state(const double *filter)
{
    double state[DRIFTERS_STATE_LENGTH] = {0};

    need("nav_state", drifters_nav_state(filter, DRIFTERS_FILTER_LENGTH, state, DRIFTERS_STATE_LENGTH));
    printf("nav_state\n");
    for (size_t i = 0; i < DRIFTERS_STATE_LENGTH; i++)
        print_number(state[i]);
}

/* The low bytes of n, little-endian; the place after them. */
static uint8_t *put(uint8_t *at, uint64_t n, size_t bytes)
{
    for (size_t i = 0; i < bytes; i++)
        at[i] = (uint8_t)(n >> (8 * i));
    return at + bytes;
}

static uint8_t *put_numbers(uint8_t *at, const double *numbers, size_t length)
{
    for (size_t i = 0; i < length; i++)
        at = put(at, bits_of(numbers[i]), 8);
    return at;
}

/* A position call: an antenna at (x, 0, 0), the same variance on each axis. */
static uint8_t *put_position(uint8_t *at, double x, double variance)
{
    double numbers[DRIFTERS_POSITION_LENGTH] = {0};

    vector(numbers + DRIFTERS_POSITION_ANTENNA, x, 0.0, 0.0);
    diagonal(numbers + DRIFTERS_POSITION_NOISE, variance);
    return put_numbers(at, numbers, DRIFTERS_POSITION_LENGTH);
}

/* Three position calls on a filter with identity A and E, and each alpha 0.5. */
static void make_sheet(uint8_t *sheet)
{
    double filter[DRIFTERS_FILTER_LENGTH] = {0};
    uint8_t *at = put(sheet, 1 + CALLS, 4);

    at = put(at, DRIFTERS_KIND_FILTER, 4);
    at = put(at, TABLE_BYTES, 4);
    for (size_t i = 0; i < CALLS; i++) {
        at = put(at, DRIFTERS_KIND_POSITION, 4);
        at = put(at, TABLE_BYTES + 8 * (DRIFTERS_FILTER_LENGTH + i * DRIFTERS_POSITION_LENGTH), 4);
    }
    diagonal(filter + DRIFTERS_FILTER_A, 1.0);
    diagonal(filter + DRIFTERS_FILTER_E, 1.0);
    filter[DRIFTERS_FILTER_POSITION_ALPHA] = 0.5;
    filter[DRIFTERS_FILTER_VELOCITY_ALPHA] = 0.5;
    filter[DRIFTERS_FILTER_DIRECTION_ALPHA] = 0.5;
    at = put_numbers(at, filter, DRIFTERS_FILTER_LENGTH);
    at = put_position(at, 0.0, 1.0);
    at = put_position(at, 1.0, 1.0);
    put_position(at, 0.0, -1.0);
}

static void run_sheet(void)
{
    uint8_t sheet[SHEET_BYTES];
    uint8_t text[DRIFTERS_TEXT_LENGTH];
    size_t length = 0;

    make_sheet(sheet);
    need("run_sheet", drifters_run_sheet(sheet, sizeof sheet, text, sizeof text, &length, 1));
    printf("run_sheet\n");
    fwrite(text, 1, length, stdout);
}

int main(void)
{
    double filter[DRIFTERS_FILTER_LENGTH] = {0};

    start(filter);
    propagate(filter);
    update_position(filter, 0.25);
    update_velocity(filter);
    update_direction(filter);
    update(filter);
    update_scalar(filter);
    update_compasses(filter);
    change_over(filter);
    refused_update(filter);
    print_state(filter);
    run_sheet();
    return 0;
}
