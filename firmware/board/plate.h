/* This board: its plate, its label and its line. */
#ifndef PLATE_H
#define PLATE_H

#include "quicksetter.h"

#ifndef TOTAL
#define TOTAL 112
#endif
#ifndef TICKS_A_BIT
#define TICKS_A_BIT 4
#endif

enum { BITS = 24, PLATE_ADDRESS = 0, PAUSE = 55 };

/* What the drive is told by 52h and 56h. E4h is 9600 baud, even parity, the long pause; 80h blocks are all of a part of 2048 bytes, of which 70h are for fields. Each
 * board's own serial number would stand in a part of the flash that is written once. */
static const uint8_t LABEL[QS_LABEL_LENGTH] = {
    [QS_LABEL_TYPE] = 0xE4, 0x07, 0x80, 0x00,
    [QS_LABEL_SERIAL] = 'B', 'A', 'R', 'E', '0', '0', '0', '0', '1',
    [QS_LABEL_VERSION] = 'f', 'i', 'r', 'm', 'w', 'a', 'r', 'e', ' ', '1', '.', '0', /* 00h behind it, as 000 has it */
    [QS_LABEL_DATE] = '1', '7', '.', '1', '1', '.', '2', '6',
};

#endif
