/* The board that a measuring program calls: BOARD=qs is the library, BOARD=hand the one of hand.c. */
#ifndef BOARD_H
#define BOARD_H

#include "hand.h"

#ifndef BOARD
#define BOARD qs
#endif

#define JOINED(board, call) board##_##call
#define OF_BOARD(board, call) JOINED(board, call)
#define CALL(call) OF_BOARD(BOARD, call)

#endif
