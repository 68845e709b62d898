/* Plan blocks that the C programs here are given. */
#include <stdint.h>

/* 01's 18 bytes: Clip, LumaToXyz at 0.5, 0.25, XyzToLuma */
static const uint8_t example[18] = {'C', 'T', 'P', 1, 0, 1, 3, 9, 1, 0, 0, 0, 0x3f, 0, 0, 0x80, 0x3e, 2};
/* Clip and XyzToLuma at width 1, where the second finds another width than it needs */
static const uint8_t misfit[9] = {'C', 'T', 'P', 1, 0, 1, 2, 9, 2};
/* the Unknown curve, which is retired, at width 1: its curve, g, inverse, and five floats */
static const uint8_t retired[34] = {'C', 'T', 'P', 1, 0, 1, 1, 4, 3};
