/* A quick slot in C, written from document 01 and Annex A.1 alone: what the archive's speed is measured against. The calls
   have the meaning of include/silberlaus.h. Call quick_prepare once, before any other. */
#ifndef QUICK_H
#define QUICK_H

#include "silberlaus.h"

void quick_prepare(void);
uint8_t quick_protect(size_t size, uint32_t mode, uint32_t request, const uint8_t *frame, size_t frame_len,
                      uint8_t *slot, size_t slot_len);
silberlaus_unprotected quick_unprotect(size_t size, uint32_t mode, const uint8_t *slot, size_t slot_len, uint8_t *frame,
                                       size_t frame_len);
uint8_t quick_unprotect_each(size_t size, uint32_t mode, const uint8_t *slots, size_t slots_len, uint8_t *numbers,
                             size_t numbers_len, uint8_t *requests, size_t requests_len, uint16_t *semi_octets,
                             size_t semi_octets_len, uint16_t *bits, size_t bits_len, uint8_t *frames, size_t frames_len);

#endif
