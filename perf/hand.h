/* The board of hand.c: the calls of host/quicksetter.h with the same parameters, results, refusals and image. */
#ifndef HAND_H
#define HAND_H

#include "../host/quicksetter.h"

uint64_t hand_fresh(uint32_t total, uint32_t bits, uint32_t address, uint32_t ticks, uint32_t pause, const uint8_t *label, uint64_t label_length,
                    uint8_t *image, uint64_t image_length);
uint64_t hand_character(uint8_t *image, uint64_t image_length, uint32_t tick, uint8_t value, uint8_t parity, uint8_t *memory, uint64_t memory_length,
                        uint8_t *room, uint64_t room_length);
uint64_t hand_poll(uint8_t *image, uint64_t image_length, uint32_t tick, uint8_t *memory, uint64_t memory_length, uint8_t *room, uint64_t room_length);
uint64_t hand_measured(uint8_t *image, uint64_t image_length, uint32_t position);
uint64_t hand_fault(uint8_t *image, uint64_t image_length, uint8_t code);
uint64_t hand_power_on(uint8_t *image, uint64_t image_length);

#endif
