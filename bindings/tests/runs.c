/* Runs of a wrong length, for every run of every function: null with length 0, one number too few, one too many, and
 * where a filter is lent, that of the other filter, with one alpha or with an alpha for each sensor. Each is refused by
 * code 1 and leaves the runs as they were; at the stated lengths the same call is accepted. */
#include <string.h>

#include "check.h"
#include "drifters_eqf.h"

/* The runs of a call, each with room for a wrong length. What is written is a NIS, a state, or sine and cosine. Of
 * several compasses, the numbers are north and noise. */
#define MOST_READING_NUMBERS (DRIFTERS_MOST_READINGS * DRIFTERS_READING_LENGTH)
enum { FILTER, NUMBERS, WRITTEN, READINGS, COUNTS, ONE_ALPHA, RUNS };
struct lent {
    double filter[DRIFTERS_FILTER_LENGTH + 1];
    double numbers[DRIFTERS_START_LENGTH + 1];
    double written[DRIFTERS_STATE_LENGTH + 1];
    double readings[MOST_READING_NUMBERS + 1];
    size_t counts[DRIFTERS_COUNTS_LENGTH + 1];
    double one_alpha[DRIFTERS_FILTER_LENGTH];
};

/* Pointers and lengths of a call's runs: of counts, or else of numbers. */
struct run {
    void *at;
    size_t length;
};

/* The two arguments of a run. */
#define LENT(i) (double *)run[i].at, run[i].length
#define LENT_COUNTS(i) (size_t *)run[i].at, run[i].length

static void diagonal(double *to, size_t rows, double x)
{
    size_t i;

    for (i = 0; i < rows; i++)
        to[i * (rows + 1)] = x;
}

/* What the numbers of each call hold, zeros but for this, so that it is accepted. */
static void start_numbers(double *numbers)
{
    diagonal(numbers + DRIFTERS_START_STATE + DRIFTERS_STATE_ATTITUDE, 3, 1.0);
    diagonal(numbers + DRIFTERS_START_STATE + DRIFTERS_STATE_MAG, 3, 1.0);
    diagonal(numbers + DRIFTERS_START_SIGMA, DRIFTERS_STATES, 0.01);
}

static void propagate_numbers(double *numbers)
{
    numbers[DRIFTERS_PROPAGATE_DT] = 0.01;
}

static void position_numbers(double *numbers)
{
    diagonal(numbers + DRIFTERS_POSITION_NOISE, 3, 1.0);
}

static void velocity_numbers(double *numbers)
{
    diagonal(numbers + DRIFTERS_VELOCITY_NOISE, 3, 1.0);
}

static void direction_numbers(double *numbers)
{
    numbers[DRIFTERS_DIRECTION_MEASURED] = 1.0;
    numbers[DRIFTERS_DIRECTION_NORTH] = 1.0;
    diagonal(numbers + DRIFTERS_DIRECTION_NOISE, 3, 1.0);
}

static void update_numbers(double *numbers)
{
    diagonal(numbers + DRIFTERS_UPDATE_NOISE, 3, 1.0);
}

static void scalar_numbers(double *numbers)
{
    numbers[DRIFTERS_SCALAR_VARIANCE] = 1.0;
}

static void compasses_numbers(double *numbers)
{
    numbers[DRIFTERS_COMPASSES_NORTH] = 1.0;
    diagonal(numbers + DRIFTERS_COMPASSES_NOISE, 3, 1.0);
}

static void no_numbers(double *numbers)
{
    (void)numbers;
}

/* The calls on runs. */
static uint32_t start(const struct run *run)
{
    return drifters_start(LENT(FILTER), LENT(NUMBERS));
}

static uint32_t upgrade(const struct run *run)
{
    return drifters_upgrade(LENT(ONE_ALPHA), LENT(FILTER));
}

static uint32_t downgrade(const struct run *run)
{
    return drifters_downgrade(LENT(FILTER), LENT(ONE_ALPHA));
}

static uint32_t propagate(const struct run *run)
{
    return drifters_propagate(LENT(FILTER), LENT(NUMBERS));
}

static uint32_t position(const struct run *run)
{
    return drifters_update_position(LENT(FILTER), LENT(NUMBERS), LENT(WRITTEN));
}

static uint32_t velocity(const struct run *run)
{
    return drifters_update_velocity(LENT(FILTER), LENT(NUMBERS), LENT(WRITTEN));
}

static uint32_t direction(const struct run *run)
{
    return drifters_update_direction(LENT(FILTER), LENT(NUMBERS), LENT(WRITTEN));
}

static uint32_t update(const struct run *run)
{
    return drifters_update(LENT(FILTER), LENT(NUMBERS), LENT(WRITTEN));
}

static uint32_t scalar(const struct run *run)
{
    return drifters_update_scalar(LENT(FILTER), LENT(NUMBERS), LENT(WRITTEN));
}

static uint32_t compasses(const struct run *run)
{
    return drifters_update_compasses(LENT(FILTER), LENT(READINGS), LENT(NUMBERS), DRIFTERS_MOST_READINGS,
                                     LENT_COUNTS(COUNTS), LENT(WRITTEN));
}

static uint32_t nav_state(const struct run *run)
{
    return drifters_nav_state(LENT(FILTER), LENT(WRITTEN));
}

static uint32_t sin_cos(const struct run *run)
{
    return drifters_sin_cos(1.0, LENT(WRITTEN));
}

/* A function: its name, how many numbers each of its runs has (0: it has no such run), and what they hold. */
struct function {
    const char *name;
    uint32_t (*call)(const struct run *run);
    void (*fill)(double *numbers);
    size_t lengths[RUNS];
};

#define FUNCTIONS 12
static const struct function functions[FUNCTIONS] = {
    {"start", start, start_numbers, {DRIFTERS_FILTER_LENGTH, DRIFTERS_START_LENGTH, 0, 0, 0, 0}},
    {"upgrade", upgrade, no_numbers, {DRIFTERS_FILTER_LENGTH, 0, 0, 0, 0, DRIFTERS_ONE_ALPHA_LENGTH}},
    {"downgrade", downgrade, no_numbers, {DRIFTERS_FILTER_LENGTH, 0, 0, 0, 0, DRIFTERS_ONE_ALPHA_LENGTH}},
    {"propagate", propagate, propagate_numbers, {DRIFTERS_FILTER_LENGTH, DRIFTERS_PROPAGATE_LENGTH, 0, 0, 0, 0}},
    {"position", position, position_numbers,
     {DRIFTERS_FILTER_LENGTH, DRIFTERS_POSITION_LENGTH, DRIFTERS_NIS_LENGTH, 0, 0, 0}},
    {"velocity", velocity, velocity_numbers,
     {DRIFTERS_FILTER_LENGTH, DRIFTERS_VELOCITY_LENGTH, DRIFTERS_NIS_LENGTH, 0, 0, 0}},
    {"direction", direction, direction_numbers,
     {DRIFTERS_FILTER_LENGTH, DRIFTERS_DIRECTION_LENGTH, DRIFTERS_NIS_LENGTH, 0, 0, 0}},
    {"update", update, update_numbers, {DRIFTERS_FILTER_LENGTH, DRIFTERS_UPDATE_LENGTH, DRIFTERS_NIS_LENGTH, 0, 0, 0}},
    {"scalar", scalar, scalar_numbers, {DRIFTERS_FILTER_LENGTH, DRIFTERS_SCALAR_LENGTH, DRIFTERS_NIS_LENGTH, 0, 0, 0}},
    {"compasses", compasses, compasses_numbers,
     {DRIFTERS_FILTER_LENGTH, DRIFTERS_COMPASSES_LENGTH, DRIFTERS_NIS_LENGTH, MOST_READING_NUMBERS,
      DRIFTERS_COUNTS_LENGTH, 0}},
    {"nav_state", nav_state, no_numbers, {DRIFTERS_FILTER_LENGTH, 0, DRIFTERS_STATE_LENGTH, 0, 0, 0}},
    {"sin_cos", sin_cos, no_numbers, {0, 0, DRIFTERS_SIN_COS_LENGTH, 0, 0, 0}},
};

/* What is lent to a function at its stated lengths: a started filter, its numbers, readings that are ones, a filter with
 * one alpha that is zeros, and sevens where it writes. */
static void prepare(const struct function *function, struct lent *lent, struct run *run)
{
    size_t i;

    memset(lent, 0, sizeof *lent);
    start_numbers(lent->numbers);
    CHECK(drifters_start(lent->filter, DRIFTERS_FILTER_LENGTH, lent->numbers, DRIFTERS_START_LENGTH) == DRIFTERS_OK);
    memset(lent->numbers, 0, sizeof lent->numbers);
    function->fill(lent->numbers);
    for (i = 0; i < DRIFTERS_STATE_LENGTH + 1; i++)
        lent->written[i] = 7.0;
    for (i = 0; i < MOST_READING_NUMBERS + 1; i++)
        lent->readings[i] = 1.0;
    for (i = 0; i < DRIFTERS_COUNTS_LENGTH + 1; i++)
        lent->counts[i] = 7;
    run[FILTER].at = lent->filter;
    run[NUMBERS].at = lent->numbers;
    run[WRITTEN].at = lent->written;
    run[READINGS].at = lent->readings;
    run[COUNTS].at = lent->counts;
    run[ONE_ALPHA].at = lent->one_alpha;
    for (i = 0; i < RUNS; i++)
        run[i].length = function->lengths[i];
}

/* Makes a call of which run i was given a wrong length. */
static void refused(const struct function *function, const struct lent *lent, const struct run *run, int i)
{
    struct lent before = *lent;
    char what[80];

    sprintf(what, "%s, run %d of length %lu: refused by 1", function->name, i, (unsigned long)run[i].length);
    check(function->call(run) == DRIFTERS_REFUSED_LENGTH, what, __FILE__, __LINE__);
    sprintf(what, "%s, run %d of length %lu: runs as before", function->name, i, (unsigned long)run[i].length);
    check(memcmp(&before, lent, sizeof before) == 0, what, __FILE__, __LINE__);
}

static void wrong_lengths(const struct function *function, int i)
{
    struct lent lent;
    struct run run[RUNS];

    prepare(function, &lent, run);
    run[i].length = function->lengths[i] - 1;
    refused(function, &lent, run, i);
    run[i].length = function->lengths[i] + 1;
    refused(function, &lent, run, i);
    if (i == FILTER || i == ONE_ALPHA) {
        run[i].length = i == FILTER ? DRIFTERS_ONE_ALPHA_LENGTH : DRIFTERS_FILTER_LENGTH;
        refused(function, &lent, run, i);
    }
    run[i].length = 0;
    run[i].at = NULL;
    refused(function, &lent, run, i);
}

static void all_null(const struct function *function)
{
    static const struct run null[RUNS] = {{NULL, 0}, {NULL, 0}, {NULL, 0}, {NULL, 0}, {NULL, 0}, {NULL, 0}};

    check(function->call(null) == DRIFTERS_REFUSED_LENGTH, function->name, __FILE__, __LINE__);
}

/* The stated lengths are those that are taken. */
static void accepted(const struct function *function)
{
    struct lent lent;
    struct run run[RUNS];

    prepare(function, &lent, run);
    check(function->call(run) == DRIFTERS_OK, function->name, __FILE__, __LINE__);
}

static void every_function(void)
{
    const struct function *function;
    int i;

    for (function = functions; function < functions + FUNCTIONS; function++) {
        accepted(function);
        all_null(function);
        for (i = 0; i < RUNS; i++)
            if (function->lengths[i] > 0)
                wrong_lengths(function, i);
    }
}

/* The text's bytes from `from` on are sevens, as they were filled. */
static int sevens(const uint8_t *text, size_t from)
{
    for (; from < DRIFTERS_TEXT_LENGTH + 1; from++)
        if (text[from] != 7)
            return 0;
    return 1;
}

/* A sheet of no bytes is broken, which its text says. */
static void empty_sheet(void)
{
    uint8_t text[DRIFTERS_TEXT_LENGTH + 1];
    size_t length = 9;

    memset(text, 7, sizeof text);
    CHECK(drifters_run_sheet(NULL, 0, text, DRIFTERS_TEXT_LENGTH, &length, 1) == DRIFTERS_OK);
    CHECK(length == 10);
    CHECK(memcmp(text, "refused 6\n", 10) == 0);
    CHECK(sevens(text, 10));
    CHECK(drifters_run_sheet(NULL, 0, text, DRIFTERS_TEXT_LENGTH + 1, &length, 1) == DRIFTERS_OK);
}

static void sheet_lengths(void)
{
    uint8_t text[DRIFTERS_TEXT_LENGTH + 1];
    uint8_t sheet[1] = {0};
    size_t length[2] = {9, 9};

    memset(text, 7, sizeof text);
    CHECK(drifters_run_sheet(sheet, 1, NULL, 0, length, 1) == DRIFTERS_REFUSED_LENGTH);
    CHECK(drifters_run_sheet(sheet, 1, text, DRIFTERS_TEXT_LENGTH - 1, length, 1) == DRIFTERS_REFUSED_LENGTH);
    CHECK(drifters_run_sheet(sheet, 1, text, DRIFTERS_TEXT_LENGTH, NULL, 0) == DRIFTERS_REFUSED_LENGTH);
    CHECK(drifters_run_sheet(sheet, 1, text, DRIFTERS_TEXT_LENGTH, length, 2) == DRIFTERS_REFUSED_LENGTH);
    CHECK(drifters_run_sheet(NULL, 0, NULL, 0, NULL, 0) == DRIFTERS_REFUSED_LENGTH);
    CHECK(sevens(text, 0));
    CHECK(length[0] == 9 && length[1] == 9);
}

/* What has no run that could be wrong. */
static void numbers_only(void)
{
    double out[DRIFTERS_SIN_COS_LENGTH];

    CHECK(drifters_sin_cos(0.0, out, DRIFTERS_SIN_COS_LENGTH) == DRIFTERS_OK);
    CHECK(out[0] == 0.0 && out[1] == 1.0);
    CHECK(drifters_sqrt(6.25) == 2.5);
}

int main(void)
{
    every_function();
    empty_sheet();
    sheet_lengths();
    numbers_only();
    /* 31 runs, with a start and six checks each; 13 of them are filters, with two more; 12 functions with a start and
     * two checks each; the rest */
    return status_of("runs", 31 * 7 + 13 * 2 + FUNCTIONS * 3 + 5 + 7 + 3);
}
