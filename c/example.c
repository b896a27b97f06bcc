#include <stdio.h>
#include "stilefray.h"

static uint8_t image[4 * 1024]; /* the chip's bytes: 4 regions of 1,024 */

int main(void) {
    const char *gains = "R1.1 G1 B0.9";
    uint8_t buffer[64];
    /* 1000 is the main key: with any other than the chip's own the chip is erased, and with another s or n it may be */
    stilefray_answer a = stilefray_initialise(image, sizeof image, 1024, 4, 1000);
    if (a.kind == STILEFRAY_REFUSED) return (int)a.refusal;
    a = stilefray_append_key(image, sizeof image, 1024, 4, 101, (const uint8_t *)gains, 12);
    if (a.kind == STILEFRAY_REFUSED) return (int)a.refusal;
    a = stilefray_get_key(image, sizeof image, 1024, 4, 101, buffer, sizeof buffer);
    if (a.kind == STILEFRAY_REFUSED) return (int)a.refusal;
    printf("%zu bytes: %.*s\n", a.value, (int)a.value, (const char *)buffer);
    return 0;
}
