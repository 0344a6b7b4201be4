/* Document 01's policy A. */
#include <stdint.h>

static const uint8_t policy[6 * 18] = {
    [0] = 1, 16, 0x03,               /* 16 if 0, 1 */
    [18] = 1, 16, 0x04, [28] = 0x08, /* 16 if 2, not 3 */
    [36] = 1, 63, 0x05,              /* 63 if 0, 2 */
    [54] = 2, 0,                     /* disclosure 0 always */
    [72] = 2, 1, 0x01,               /* disclosure 1 if 0 */
    [90] = 2, 2,                     /* disclosure 2 always */
};
