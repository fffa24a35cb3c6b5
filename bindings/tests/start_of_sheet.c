/* The filter of a sheet that tools/sheet built from the `start` line of start_of_sheet.txt, against the one that the
 * library starts from the same numbers: bit for bit. The sheet's file is the program's argument. */
#include <string.h>

#include "check.h"
#include "drifters_eqf.h"

/* A sheet with a filter alone: a count, its kind and its offset, then the numbers. */
#define TABLE_BYTES 12
#define SHEET_BYTES (TABLE_BYTES + 8 * DRIFTERS_FILTER_LENGTH)

static const double state[DRIFTERS_STATE_LENGTH] = {
    /* attitude */
    -0.6666666666666666, 0.13333333333333333, 0.7333333333333333,
    0.6666666666666666, -0.3333333333333333, 0.6666666666666666,
    0.3333333333333333, 0.9333333333333333, 0.13333333333333333,
    1.1, -2.3, 3.7,          /* velocity */
    120.3, -45.7, -1000.9,   /* position */
    0.001, -0.0023, 0.0007,  /* gyro_bias */
    0.03, -0.017, 0.0051,    /* accel_bias */
    0.3, -0.11, -1.7,        /* lever */
    0.6, 0.0, 0.8, 0.0, 1.0, 0.0, -0.8, 0.0, 0.6 /* mag */
};

/* Sigma is diagonal: one variance for each three coordinates. */
static const double variances[DRIFTERS_STATES / 3] = {0.01, 0.02, 0.03, 0.04, 0.05, 0.06, 0.07};

static const double gravity[3] = {0.001, -0.002, 9.81};

static void start(double *filter)
{
    double numbers[DRIFTERS_START_LENGTH] = {0};
    size_t i;

    memcpy(numbers + DRIFTERS_START_STATE, state, sizeof state);
    for (i = 0; i < DRIFTERS_STATES; i++)
        numbers[DRIFTERS_START_SIGMA + i * DRIFTERS_STATES + i] = variances[i / 3];
    memcpy(numbers + DRIFTERS_START_GRAVITY, gravity, sizeof gravity);
    CHECK(drifters_start(filter, DRIFTERS_FILTER_LENGTH, numbers, DRIFTERS_START_LENGTH) == DRIFTERS_OK);
}

/* The bytes of the sheet, and one more where the file has one. */
static size_t read_sheet(const char *path, uint8_t *bytes)
{
    FILE *file = fopen(path, "rb");
    size_t size = 0;

    if (file) {
        size = fread(bytes, 1, SHEET_BYTES + 1, file);
        fclose(file);
    }
    return size;
}

static uint32_t u32_at(const uint8_t *bytes)
{
    return bytes[0] | (uint32_t)bytes[1] << 8 | (uint32_t)bytes[2] << 16 | (uint32_t)bytes[3] << 24;
}

/* The library is for x86-64, where a double in memory is in the sheet's order of bytes. */
static void same_number(const uint8_t *in_sheet, const double *started, int place)
{
    char what[40];

    sprintf(what, "number %d of the filter", place);
    check(memcmp(in_sheet, started, sizeof *started) == 0, what, __FILE__, __LINE__);
}

int main(int count, char **words)
{
    double filter[DRIFTERS_FILTER_LENGTH] = {0};
    uint8_t sheet[SHEET_BYTES + 1] = {0};
    int i;

    if (count != 2 || read_sheet(words[1], sheet) != SHEET_BYTES) {
        fprintf(stderr, "start_of_sheet: its argument is no sheet with a filter alone\n");
        return 1;
    }
    CHECK(u32_at(sheet) == 1);
    CHECK(u32_at(sheet + 4) == DRIFTERS_KIND_FILTER);
    CHECK(u32_at(sheet + 8) == TABLE_BYTES);
    start(filter);
    for (i = 0; i < DRIFTERS_FILTER_LENGTH; i++)
        same_number(sheet + TABLE_BYTES + 8 * i, filter + i, i);
    return status_of("start_of_sheet", 4 + DRIFTERS_FILTER_LENGTH);
}
