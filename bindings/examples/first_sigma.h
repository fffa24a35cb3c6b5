/* The first covariance of a filter from standard deviations of its first state, as docs/MANUAL.md says: J P J^T. Copy it to your program.
 * It is plain arithmetic, not a part of the proved library. */
#ifndef FIRST_SIGMA_H
#define FIRST_SIGMA_H

#include "drifters_eqf.h"

/* to += factor * (a x b) */
static void add_cross(double *to, double factor, const double *a, const double *b)
{
    int i;
    for (i = 0; i < 3; i++)
        to[i] += factor * (a[(i + 1) % 3] * b[(i + 2) % 3] - a[(i + 2) % 3] * b[(i + 1) % 3]);
}

/* to += factor * (m a), m a 3 by 3 matrix */
static void add_rotated(double *to, double factor, const double *m, const double *a)
{
    int i;
    for (i = 0; i < 3; i++)
        to[i] += factor * (m[3 * i] * a[0] + m[3 * i + 1] * a[1] + m[3 * i + 2] * a[2]);
}

/* The 21 coordinates of an error d of a state, in the order of the coordinates: d(theta), d(v), d(p), d(b_omega), d(b_a), d(t), d(s). */
static void error_coordinates(double *to, const double *state, const double *d)
{
    const double *r = state + DRIFTERS_STATE_ATTITUDE;
    const double *v = state + DRIFTERS_STATE_VELOCITY;
    const double *p = state + DRIFTERS_STATE_POSITION;
    const double *theta = d + DRIFTERS_COORDINATE_ATTITUDE;
    const double *gyro_bias = d + DRIFTERS_COORDINATE_GYRO_BIAS;
    double turned[3] = {0, 0, 0};
    int i;

    for (i = 0; i < DRIFTERS_STATES; i++)
        to[i] = i < DRIFTERS_COORDINATE_GYRO_BIAS ? d[i] : 0;
    add_cross(to + DRIFTERS_COORDINATE_VELOCITY, 1, v, theta);
    add_cross(to + DRIFTERS_COORDINATE_POSITION, 1, p, theta);
    add_rotated(to + DRIFTERS_COORDINATE_GYRO_BIAS, -1, r, gyro_bias);
    add_rotated(to + DRIFTERS_COORDINATE_ACCEL_BIAS, -1, r, d + DRIFTERS_COORDINATE_ACCEL_BIAS);
    add_rotated(turned, 1, r, gyro_bias);
    add_cross(to + DRIFTERS_COORDINATE_ACCEL_BIAS, -1, v, turned);
    add_rotated(to + DRIFTERS_COORDINATE_LEVER, -1, r, d + DRIFTERS_COORDINATE_LEVER);
    for (i = 0; i < 3; i++)
        to[DRIFTERS_COORDINATE_MAG + i] = theta[i];
    add_rotated(to + DRIFTERS_COORDINATE_MAG, 1, r, d + DRIFTERS_COORDINATE_MAG);
}

/* Writes the covariance, 21 by 21, at a state of 33 numbers, from 21 standard deviations: of d(theta), d(v) and so on, as above. */
static void first_sigma(double *sigma, const double *state, const double *deviations)
{
    double d[DRIFTERS_STATES], c[DRIFTERS_STATES];
    int i, j, k;

    for (i = 0; i < DRIFTERS_SIGMA_LENGTH; i++)
        sigma[i] = 0;
    for (k = 0; k < DRIFTERS_STATES; k++) {
        for (i = 0; i < DRIFTERS_STATES; i++)
            d[i] = i == k ? deviations[k] : 0;
        error_coordinates(c, state, d);
        for (i = 0; i < DRIFTERS_STATES; i++)
            for (j = 0; j < DRIFTERS_STATES; j++)
                sigma[i * DRIFTERS_STATES + j] += c[i] * c[j];
    }
}

#endif
