/* The equivariant filter of drifters-eqf, proved: the calls of libdrifters_eqf_c.a (x86-64 Linux). For C89 with
 * <stdint.h>, later C, and C++11. docs/MANUAL.md explains the filter, and has frames, units and signs in full.
 * crates/drifters_eqf_c/src/lib.rt has the contract of each function. The prover does not read this file: bindings/test
 * calls every function through it and tries the length of every run; tools/test_versions.py compares the places with
 * those of tools/sheet and of the Rust crate.
 *
 * RUNS. A run is a pointer and its length: in numbers (double; size_t for counts and a text's length), in bytes for a
 * sheet and its text. For every run:
 *   - the pointer is aligned for its type and valid for the whole length. Null is allowed with length 0;
 *   - no two runs of one call overlap.
 * What the pointers and lengths say is trusted. What the runs hold is not: every length and every bit pattern gets its
 * stated answer.
 *
 * CODES. A function answers 0, or the number of the first refusal that applies. A refused call leaves every run as it
 * was.
 *
 * MACHINE. The functions keep nothing between calls and take no heap: threads may call them at once on runs of their
 * own. They call memcpy and memset only. The floating-point mode must be the usual one: round to nearest, no flush to
 * zero, exceptions masked. The processor must know the instructions of x86-64-v2 (SSE4.2), as those since about 2010
 * do. Stack, measured and not proved: about 80 kB for a call on a filter, 90 kB for one by several compasses, 175 kB
 * for a sheet.
 *
 * FRAMES. Reference: fixed to the ground, such as north-east-down. Body: the inertial sensor's. Compass: the
 * magnetometer's. Attitude R rotates a body vector into the reference frame, mag S a compass vector into the body
 * frame. With x^ for the matrix of the cross product with x:
 *   R' = R (omega - gyro_bias)^, velocity' = R (accel - accel_bias) + gravity, position' = velocity.
 *
 * LAYOUT. The constants say where each part of a run begins, counted from 0; the number stands in the comment again.
 * A part has three numbers where nothing else is said. Matrices stand row by row.
 */
#ifndef DRIFTERS_EQF_H
#define DRIFTERS_EQF_H

#include <stddef.h>
#include <stdint.h>

#define DRIFTERS_VERSION_MAJOR 0
#define DRIFTERS_VERSION_MINOR 7
#define DRIFTERS_VERSION_PATCH 0
#define DRIFTERS_VERSION "0.7.0"

/* Codes; drifters_code_meaning, below, says what each means. */
#define DRIFTERS_OK 0u
#define DRIFTERS_REFUSED_LENGTH 1u
#define DRIFTERS_REFUSED_BLANK 2u
#define DRIFTERS_REFUSED_TURN 3u
#define DRIFTERS_REFUSED_PIVOT 4u
#define DRIFTERS_REFUSED_RANGE 5u
#define DRIFTERS_REFUSED_SHEET 6u /* no function answers it: it stands in the text of a broken sheet, "refused 6" */
#define DRIFTERS_REFUSED_NULL 7u /* of a direction call alone; DRIFTERS_KIND_SCALAR, 7 too, is something else */
#define DRIFTERS_REFUSED_UNEQUAL 8u /* of drifters_downgrade alone */

/* drifters_code_word and drifters_code_meaning are in this file, not in the library. */
#if defined(__cplusplus) || (defined(__STDC_VERSION__) && __STDC_VERSION__ >= 199901L)
#define DRIFTERS_INLINE static inline
#elif defined(__GNUC__)
#define DRIFTERS_INLINE static __inline__
#else
#define DRIFTERS_INLINE static
#endif

/* The word of a code. */
DRIFTERS_INLINE const char *drifters_code_word(uint32_t code)
{
    switch (code) {
    case DRIFTERS_OK: return "ok";
    case DRIFTERS_REFUSED_LENGTH: return "length";
    case DRIFTERS_REFUSED_BLANK: return "blank";
    case DRIFTERS_REFUSED_TURN: return "turn";
    case DRIFTERS_REFUSED_PIVOT: return "pivot";
    case DRIFTERS_REFUSED_RANGE: return "range";
    case DRIFTERS_REFUSED_SHEET: return "sheet";
    case DRIFTERS_REFUSED_NULL: return "null";
    case DRIFTERS_REFUSED_UNEQUAL: return "unequal";
    default: return "unknown";
    }
}

/* What a code means and what to do, in one line without its end. */
DRIFTERS_INLINE const char *drifters_code_meaning(uint32_t code)
{
    switch (code) {
    case DRIFTERS_OK: return "accepted";
    case DRIFTERS_REFUSED_LENGTH:
        return "a run is not of its stated length, or a budget is above 8; check the length given with each run";
    case DRIFTERS_REFUSED_BLANK:
        return "a number of the filter or of the call is infinite or not a number; check the call's numbers and the "
               "alphas";
    case DRIFTERS_REFUSED_TURN:
        return "one step would turn by more than 8 rad, or by no number; check omega, dt and the innovation";
    case DRIFTERS_REFUSED_PIVOT:
        return "the innovation covariance, raw or inflated, is not positive definite; check measurement, noise and "
               "sigma";
    case DRIFTERS_REFUSED_RANGE: return "a result is not finite; check the units and sizes of the numbers";
    case DRIFTERS_REFUSED_SHEET:
        return "a call sheet breaks its layout or cannot be read; check how it was built";
    case DRIFTERS_REFUSED_NULL:
        return "a direction's measured vector or north has norm 0; check that the compass is on and that north is set";
    case DRIFTERS_REFUSED_UNEQUAL:
        return "the filter's alphas have not all the same bits; set them to one number, of one sign where it is 0";
    default: return "no code of this library";
    }
}

#undef DRIFTERS_INLINE

/* The 21 coordinates of the error, where the truth is exp(error) * estimate: rows and columns of sigma, columns of an
 * output matrix or row. To first order, with d(v) = v_true - v and so on, d(theta) and d(s) as rotation vectors
 * (R_true = (I + d(theta)^) R, S_true = (I + d(s)^) S): */
#define DRIFTERS_COORDINATE_ATTITUDE 0                                     /* 0: d(theta) */
#define DRIFTERS_COORDINATE_VELOCITY (DRIFTERS_COORDINATE_ATTITUDE + 3)    /* 3: d(v) + v x d(theta) */
#define DRIFTERS_COORDINATE_POSITION (DRIFTERS_COORDINATE_VELOCITY + 3)    /* 6: d(p) + p x d(theta) */
#define DRIFTERS_COORDINATE_GYRO_BIAS (DRIFTERS_COORDINATE_POSITION + 3)   /* 9: -R d(b_omega) */
#define DRIFTERS_COORDINATE_ACCEL_BIAS (DRIFTERS_COORDINATE_GYRO_BIAS + 3) /* 12: -(R d(b_a) + v x (R d(b_omega))) */
#define DRIFTERS_COORDINATE_LEVER (DRIFTERS_COORDINATE_ACCEL_BIAS + 3)     /* 15: -R d(t) */
#define DRIFTERS_COORDINATE_MAG (DRIFTERS_COORDINATE_LEVER + 3)            /* 18: d(theta) + R d(s) */
#define DRIFTERS_STATES (DRIFTERS_COORDINATE_MAG + 3)                      /* 21 */
#define DRIFTERS_SIGMA_LENGTH (DRIFTERS_STATES * DRIFTERS_STATES)          /* 441 */

/* State: the estimate. */
#define DRIFTERS_STATE_ATTITUDE 0                                /* 0: R, 3 x 3 */
#define DRIFTERS_STATE_VELOCITY (DRIFTERS_STATE_ATTITUDE + 9)    /* 9: v, m/s, reference frame */
#define DRIFTERS_STATE_POSITION (DRIFTERS_STATE_VELOCITY + 3)    /* 12: p, m, reference frame */
#define DRIFTERS_STATE_GYRO_BIAS (DRIFTERS_STATE_POSITION + 3)   /* 15: b_omega, rad/s, body frame */
#define DRIFTERS_STATE_ACCEL_BIAS (DRIFTERS_STATE_GYRO_BIAS + 3) /* 18: b_a, m/s^2, body frame */
#define DRIFTERS_STATE_LEVER (DRIFTERS_STATE_ACCEL_BIAS + 3)     /* 21: t, inertial sensor to antenna, m, body frame */
#define DRIFTERS_STATE_MAG (DRIFTERS_STATE_LEVER + 3)            /* 24: S, 3 x 3 */
#define DRIFTERS_STATE_LENGTH (DRIFTERS_STATE_MAG + 9)           /* 33 */

/* Start: what a filter is made of. */
#define DRIFTERS_START_STATE 0                                                /* 0: a state, 33 numbers */
#define DRIFTERS_START_SIGMA (DRIFTERS_START_STATE + DRIFTERS_STATE_LENGTH)   /* 33: 21 x 21, see drifters_start */
#define DRIFTERS_START_GRAVITY (DRIFTERS_START_SIGMA + DRIFTERS_SIGMA_LENGTH) /* 474: m/s^2, reference frame */
#define DRIFTERS_START_LENGTH (DRIFTERS_START_GRAVITY + 3)                    /* 477 */

/* Filter. A, velocity and position are the estimate's attitude, velocity and position. gamma, delta and E are NOT its
 * biases, lever and mag: drifters_nav_state gives these. */
#define DRIFTERS_FILTER_A 0                                                     /* 0: 3 x 3 */
#define DRIFTERS_FILTER_VELOCITY (DRIFTERS_FILTER_A + 9)                        /* 9: m/s, reference frame */
#define DRIFTERS_FILTER_POSITION (DRIFTERS_FILTER_VELOCITY + 3)                 /* 12: m, reference frame */
#define DRIFTERS_FILTER_GAMMA (DRIFTERS_FILTER_POSITION + 3)                    /* 15: 6 numbers, omega and nu */
#define DRIFTERS_FILTER_DELTA (DRIFTERS_FILTER_GAMMA + 6)                       /* 21 */
#define DRIFTERS_FILTER_E (DRIFTERS_FILTER_DELTA + 3)                           /* 24: 3 x 3 */
#define DRIFTERS_FILTER_SIGMA (DRIFTERS_FILTER_E + 9)                           /* 33: covariance, 21 x 21 */
#define DRIFTERS_FILTER_GRAVITY (DRIFTERS_FILTER_SIGMA + DRIFTERS_SIGMA_LENGTH) /* 474: m/s^2, reference frame */
#define DRIFTERS_FILTER_POSITION_ALPHA (DRIFTERS_FILTER_GRAVITY + 3)            /* 477: one number, see the updates */
#define DRIFTERS_FILTER_VELOCITY_ALPHA (DRIFTERS_FILTER_POSITION_ALPHA + 1)     /* 478: one number */
#define DRIFTERS_FILTER_DIRECTION_ALPHA (DRIFTERS_FILTER_VELOCITY_ALPHA + 1)    /* 479: one number */
#define DRIFTERS_FILTER_LENGTH (DRIFTERS_FILTER_DIRECTION_ALPHA + 1)            /* 480 */

/* Filter with one alpha, as versions up to 0.6.0 have it. Its other places are those of a filter. */
#define DRIFTERS_ONE_ALPHA_ALPHA (DRIFTERS_FILTER_GRAVITY + 3)   /* 477: one number */
#define DRIFTERS_ONE_ALPHA_LENGTH (DRIFTERS_ONE_ALPHA_ALPHA + 1) /* 478 */

/* Propagation. */
#define DRIFTERS_PROPAGATE_OMEGA 0                              /* 0: gyroscope, rad/s, body frame */
#define DRIFTERS_PROPAGATE_ACCEL (DRIFTERS_PROPAGATE_OMEGA + 3) /* 3: specific force, m/s^2, body frame */
#define DRIFTERS_PROPAGATE_DT (DRIFTERS_PROPAGATE_ACCEL + 3)    /* 6: one number, s */
/* Power spectral densities, not their roots: white noise of standard deviation s at samples dt apart has s^2 dt. */
#define DRIFTERS_PROPAGATE_GYRO_DENSITY (DRIFTERS_PROPAGATE_DT + 1)                      /* 7: (rad/s)^2/Hz */
#define DRIFTERS_PROPAGATE_ACCEL_DENSITY (DRIFTERS_PROPAGATE_GYRO_DENSITY + 3)           /* 10: (m/s^2)^2/Hz */
#define DRIFTERS_PROPAGATE_GYRO_BIAS_DENSITY (DRIFTERS_PROPAGATE_ACCEL_DENSITY + 3)      /* 13: (rad/s^2)^2/Hz */
#define DRIFTERS_PROPAGATE_ACCEL_BIAS_DENSITY (DRIFTERS_PROPAGATE_GYRO_BIAS_DENSITY + 3) /* 16: (m/s^3)^2/Hz */
#define DRIFTERS_PROPAGATE_LEVER_DENSITY (DRIFTERS_PROPAGATE_ACCEL_BIAS_DENSITY + 3)     /* 19: m^2/s */
#define DRIFTERS_PROPAGATE_MAG_DENSITY (DRIFTERS_PROPAGATE_LEVER_DENSITY + 3)            /* 22: rad^2/s */
#define DRIFTERS_PROPAGATE_LENGTH (DRIFTERS_PROPAGATE_MAG_DENSITY + 3)                   /* 25 */

/* Position of the antenna. Noise, here and below, is a covariance, 3 x 3, in the reference frame. */
#define DRIFTERS_POSITION_ANTENNA 0                             /* 0: p + R t, m, reference frame */
#define DRIFTERS_POSITION_NOISE (DRIFTERS_POSITION_ANTENNA + 3) /* 3: m^2 */
#define DRIFTERS_POSITION_LENGTH (DRIFTERS_POSITION_NOISE + 9)  /* 12 */

/* Velocity of the antenna. */
#define DRIFTERS_VELOCITY_ANTENNA 0                             /* 0: v + R (omega x t), m/s, reference frame */
#define DRIFTERS_VELOCITY_OMEGA (DRIFTERS_VELOCITY_ANTENNA + 3) /* 3: body rate, rad/s; no bias is subtracted */
#define DRIFTERS_VELOCITY_NOISE (DRIFTERS_VELOCITY_OMEGA + 3)   /* 6: (m/s)^2 */
#define DRIFTERS_VELOCITY_LENGTH (DRIFTERS_VELOCITY_NOISE + 9)  /* 15 */

/* Direction of the magnetic field. */
#define DRIFTERS_DIRECTION_MEASURED 0                              /* 0: S^T R^T north, compass frame */
#define DRIFTERS_DIRECTION_NORTH (DRIFTERS_DIRECTION_MEASURED + 3) /* 3: as it is known, reference frame */
#define DRIFTERS_DIRECTION_NOISE (DRIFTERS_DIRECTION_NORTH + 3)    /* 6: rad^2, of north x (R S measured) */
#define DRIFTERS_DIRECTION_LENGTH (DRIFTERS_DIRECTION_NOISE + 9)   /* 15 */

/* General update. Output is the derivative of the innovation in the 21 coordinates; noise is the innovation's. */
#define DRIFTERS_UPDATE_OUTPUT 0                                                  /* 0: 3 x 21 */
#define DRIFTERS_UPDATE_INNOVATION (DRIFTERS_UPDATE_OUTPUT + 3 * DRIFTERS_STATES) /* 63: predicted MINUS measured */
#define DRIFTERS_UPDATE_NOISE (DRIFTERS_UPDATE_INNOVATION + 3)                    /* 66 */
#define DRIFTERS_UPDATE_LENGTH (DRIFTERS_UPDATE_NOISE + 9)                        /* 75 */

/* Scalar update, by one measured number: output as above, one row of it; innovation and variance are one number each. */
#define DRIFTERS_SCALAR_OUTPUT 0                                              /* 0: 1 x 21 */
#define DRIFTERS_SCALAR_INNOVATION (DRIFTERS_SCALAR_OUTPUT + DRIFTERS_STATES) /* 21: predicted MINUS measured */
#define DRIFTERS_SCALAR_VARIANCE (DRIFTERS_SCALAR_INNOVATION + 1)             /* 22 */
#define DRIFTERS_SCALAR_LENGTH (DRIFTERS_SCALAR_VARIANCE + 1)                 /* 23 */

/* Update by several compasses. Its readings are 1 to 8 measured vectors, each as in a direction, one after the other.
 * North and noise are those of a direction, one for all readings. */
#define DRIFTERS_READING_LENGTH 3
#define DRIFTERS_MOST_READINGS 8                                 /* the largest budget too */
#define DRIFTERS_COMPASSES_NORTH 0                               /* 0: as it is known, reference frame */
#define DRIFTERS_COMPASSES_NOISE (DRIFTERS_COMPASSES_NORTH + 3)  /* 3: rad^2, of north x (R S reading) */
#define DRIFTERS_COMPASSES_LENGTH (DRIFTERS_COMPASSES_NOISE + 9) /* 12 */

/* Counts: what an update by several compasses writes beside the NIS. Each is one size_t. */
#define DRIFTERS_COUNTS_TRIED 0                             /* 0: how many readings were tried */
#define DRIFTERS_COUNTS_CHOSEN (DRIFTERS_COUNTS_TRIED + 1)  /* 1: the index, from 0, of the reading that was applied */
#define DRIFTERS_COUNTS_LENGTH (DRIFTERS_COUNTS_CHOSEN + 1) /* 2 */
#define DRIFTERS_NONE_CHOSEN DRIFTERS_MOST_READINGS         /* 8: that index where none was applied */

/* Results. */
#define DRIFTERS_NIS_LENGTH 1
#define DRIFTERS_SIN_COS_LENGTH 2

/* Call sheets. A sheet is little-endian: the count of its entries; for each its kind and the offset of its numbers, in
 * bytes from the start (all these 4 bytes long); then the numbers of each entry, 8 bytes each, with no gap. The first
 * entry, and no other, is the filter. Here are the kinds, the most entries and bytes of a sheet, and the bytes that
 * hold the text of every sheet, 23 for each call. */
#define DRIFTERS_KIND_FILTER 0
#define DRIFTERS_KIND_PROPAGATE 1
#define DRIFTERS_KIND_POSITION 2
#define DRIFTERS_KIND_VELOCITY 3
#define DRIFTERS_KIND_DIRECTION 4
#define DRIFTERS_KIND_GENERAL 5
#define DRIFTERS_KIND_STATE 6
#define DRIFTERS_KIND_SCALAR 7
#define DRIFTERS_SHEET_ENTRIES 256
#define DRIFTERS_SHEET_BYTES 65536
#define DRIFTERS_TEXT_LENGTH ((DRIFTERS_SHEET_ENTRIES - 1) * 23) /* 5865 */

#ifdef __cplusplus
extern "C" {
#endif

/* Writes a filter for a state, a covariance and gravity; each alpha is 0.5. What the filter held before does not
 * matter. Sigma is J P J^T, where J maps the errors d(..) to the 21 coordinates and P is the diagonal of their
 * variances. A plain diagonal is wrong where the attitude is uncertain (mag goes with attitude) and away from the
 * origin; docs/MANUAL.md has an example. Codes: 1 (filter not 480, numbers not 477), 2, 5. */
uint32_t drifters_start(double *filter, size_t filter_length, const double *numbers, size_t numbers_length);

/* Changes a filter with one alpha over, with no new start: writes its numbers to filter, and its alpha to each of the
 * three places. What filter held before does not matter. As long as nobody else writes an alpha, every later call on
 * filter answers as version 0.6.0 does on the filter with one alpha, to the last bit. Codes: 1 (one_alpha not 478,
 * filter not 480), 2 (of one_alpha only), tested in this order; a refusal changes neither run. */
uint32_t drifters_upgrade(const double *one_alpha, size_t one_alpha_length, double *filter, size_t filter_length);

/* Changes a filter back whose three alphas have equal bits: +0 and -0 are unequal. Writes its numbers, with the alpha
 * once, to one_alpha; what that held before does not matter. Codes: 1 (filter not 480, one_alpha not 478), 2 (of filter
 * only), 8, tested in this order; a refusal changes neither run. */
uint32_t drifters_downgrade(const double *filter, size_t filter_length, double *one_alpha, size_t one_alpha_length);

/* Propagates the filter over dt, which may be negative or zero. accel is (0, 0, -9.81) level and at rest in
 * north-east-down, where gravity is (0, 0, +9.81). Codes: 1 (filter not 480, numbers not 25), 2, 3, 5. */
uint32_t drifters_propagate(double *filter, size_t filter_length, const double *numbers, size_t numbers_length);

/* The updates. An accepted one writes the new filter, and its normalised innovation squared (NIS) to nis, a run of one
 * number. Where the filter is consistent, the NIS is about 3 on average; for a direction about 2, for a scalar update
 * about 1. One of the filter's alphas, clamped to 0..1 by the call, says how a surprising measurement is taken: at 0
 * nearly at full weight, at 1 least. Position, general and scalar updates take DRIFTERS_FILTER_POSITION_ALPHA, velocity
 * updates DRIFTERS_FILTER_VELOCITY_ALPHA, direction updates and those by several compasses
 * DRIFTERS_FILTER_DIRECTION_ALPHA. No update and no propagation changes an alpha. The original's None is code 4.
 * Codes: 1 (nis not 1, filter not 480, numbers not as stated), 2, 4, 3, 5, tested in this order; a direction has 7 too,
 * between 2 and 4; several compasses have 1 and 2 alone. */

/* By a GNSS antenna position; numbers: 12. */
uint32_t drifters_update_position(double *filter, size_t filter_length, const double *numbers, size_t numbers_length,
                                  double *nis, size_t nis_length);

/* By a GNSS antenna velocity, with the body rate omega at that time; numbers: 15. */
uint32_t drifters_update_velocity(double *filter, size_t filter_length, const double *numbers, size_t numbers_length,
                                  double *nis, size_t nis_length);

/* By a magnetometer direction, against the known direction north; both are normalised. numbers: 15. Codes: 1, 2, 7, 4,
 * 3, 5, tested in this order. 7: measured or north has norm 0. The square of each of its numbers is then 0, as that of
 * every number is whose size is at most about 1.57e-162. */
uint32_t drifters_update_direction(double *filter, size_t filter_length, const double *numbers, size_t numbers_length,
                                   double *nis, size_t nis_length);

/* By any output matrix and innovation, which is predicted minus measured; numbers: 75. */
uint32_t drifters_update(double *filter, size_t filter_length, const double *numbers, size_t numbers_length,
                         double *nis, size_t nis_length);

/* By one measured number, such as the height of a pressure gauge; numbers: 23. */
uint32_t drifters_update_scalar(double *filter, size_t filter_length, const double *numbers, size_t numbers_length,
                                double *nis, size_t nis_length);

/* By the best of several compasses. Readings are tried in order, each as a direction call with the same north and noise
 * on the same filter. The one with the smallest NIS, the earliest among equals, is applied: filter and nis become what
 * its direction call would make of them, to the last bit. counts gets how many were tried and which was applied. A
 * reading that its direction call would refuse (2, 7, 4, 3, 5) counts as tried and is passed over. Where none is
 * accepted, as with a budget of 0 or a north of norm 0, the code is 0 too: filter and nis stay, and the index is
 * DRIFTERS_NONE_CHOSEN.
 *
 * How many are tried hangs on the budget, 0 to 8, and the number of readings alone. It is at most either, and at least
 * half the smaller; in this version it is the smaller. Readings after these are not looked at. The call takes about the
 * time of a direction call for each that is tried. The choice favours what the filter believes, and makes the NIS
 * smaller on average: docs/MANUAL.md says what follows.
 *
 * readings: 3 numbers each, 1 to 8 of them; north_noise: 12; counts: 2. Codes: 1 (counts not 2, nis not 1, filter not
 * 480, readings not 3, 6, 9 .. 24, north_noise not 12, budget above 8), 2 (of filter, north and noise only). */
uint32_t drifters_update_compasses(double *filter, size_t filter_length, const double *readings, size_t readings_length,
                                   const double *north_noise, size_t north_noise_length, size_t budget,
                                   size_t *counts, size_t counts_length, double *nis, size_t nis_length);

/* Writes the estimate to state, 33 numbers. Codes: 1 (filter not 480, state not 33), 2, 5. */
uint32_t drifters_nav_state(const double *filter, size_t filter_length, double *state, size_t state_length);

/* Runs the bytes of a call sheet. Writes its text to the front of text and the text's length in bytes to length, a run
 * of one; each line ends with a newline, and no zero byte follows. A filter alone has no line. The calls' refusals, and
 * that of a broken sheet (refused 6), stand in the text: the code is then 0. Code 1: text shorter than 5865 bytes, or
 * length not a run of one. */
uint32_t drifters_run_sheet(const uint8_t *sheet, size_t sheet_length, uint8_t *text, size_t text_length,
                            size_t *length, size_t length_length);

/* Writes the sine and the cosine of an angle from 0 to 8 to out, a run of two; for any other angle both are not a
 * number, with code 0. Code 1: out not 2. */
uint32_t drifters_sin_cos(double theta, double *out, size_t out_length);

/* The square root, rounded to nearest; of a number below 0 it is not a number. */
double drifters_sqrt(double x);

#ifdef __cplusplus
}
#endif

#endif
