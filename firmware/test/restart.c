/* A board that was off, made again of the bytes that lasted, on two plates, taken and refused: to measure the call's stack. perf/calls.c does not have it. */
#include "../../perf/state.h"

#include <stdbool.h>

static uint8_t made[QS_IMAGE_LENGTH];

static bool restarted(uint64_t label_length, uint64_t lasting_length, uint64_t image_length) {
    return qs_restart(total, BITS, PLATE_ADDRESS, TICKS, pause_bits, label, label_length, image + QS_IMAGE_LASTING, lasting_length, made, image_length) == 0;
}

static bool is_taken_and_refused(uint8_t blocks, uint32_t pause) {
    set_plate(blocks, pause);
    set_image();
    if (!restarted(QS_LABEL_LENGTH, QS_LASTING_LENGTH, QS_IMAGE_LENGTH))
        return false;
    if (restarted(QS_LABEL_LENGTH - 1, QS_LASTING_LENGTH, QS_IMAGE_LENGTH) || restarted(QS_LABEL_LENGTH, QS_LASTING_LENGTH - 1, QS_IMAGE_LENGTH) ||
        restarted(QS_LABEL_LENGTH, QS_LASTING_LENGTH, QS_IMAGE_LENGTH - 1))
        return false;
    image[QS_IMAGE_ADDRESS] = 32;
    return !restarted(QS_LABEL_LENGTH, QS_LASTING_LENGTH, QS_IMAGE_LENGTH);
}

int main(void) {
    return is_taken_and_refused(TOTAL, PAUSE) && is_taken_and_refused(SMALL_TOTAL, SHORT_PAUSE) ? 0 : 1;
}
