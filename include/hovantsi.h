/* Hovantsi for callers in C.
 *
 * Lengths are in steps, a sixteenth of a pixel's side; x grows to the right, y downwards in the plan, z towards the viewer.
 * Link with target/staticlib/libgeometry.a, made by tools/staticlib.sh; nothing else is needed.
 */
#ifndef HOVANTSI_H
#define HOVANTSI_H

#include <stdint.h>

/* What hovantsi_strike answers: no, yes, or why it refuses. */
enum hovantsi_strike_answer {
    HOVANTSI_NOT_STRUCK = 0,
    HOVANTSI_STRUCK = 1,
    HOVANTSI_COORDINATE = 3, /* a coordinate outside -8192 to 8192 (the receiver's z: up to 8193) */
    HOVANTSI_RUN = 8         /* dx or dy outside -1024 to 1024, or dz outside -1024 to -1 */
};

/* Whether the triangle a, b, c, seen from outside against the clock, keeps light that travels along (dx, dy, dz) from the
 * receiver p. The coordinates are tested before the run. */
uint8_t hovantsi_strike(int64_t dx, int64_t dy, int64_t dz,
                        int64_t ax, int64_t ay, int64_t az,
                        int64_t bx, int64_t by, int64_t bz,
                        int64_t cx, int64_t cy, int64_t cz,
                        int64_t px, int64_t py, int64_t pz);

#endif
