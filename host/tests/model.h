/*
 * The paper once more, in plain C: the translator's eight calls, written from documents 01 and 02 alone, slow and simple. The
 * model counts what happens (events.h). The journal has a model of its own (model_journal.h).
 */
#ifndef MODEL_H
#define MODEL_H

#include <stddef.h>
#include <stdint.h>

uint64_t model_start(uint8_t *image, size_t image_len, uint64_t width, uint8_t *answer, size_t answer_len);
uint64_t model_start_with(uint8_t *image, size_t image_len, uint64_t width, uint64_t flags, uint8_t *answer, size_t answer_len);
uint64_t model_translate(uint8_t *image, size_t image_len, uint8_t *low, size_t low_len, uint8_t *high, size_t high_len,
                         uint64_t kind, uint64_t address, uint64_t ac, uint8_t *answer, size_t answer_len);
uint64_t model_translate_many(uint8_t *image, size_t image_len, uint8_t *low, size_t low_len, uint8_t *high, size_t high_len,
                              const uint8_t *pairs, size_t pairs_len, uint8_t *answers, size_t answers_len);
uint64_t model_invlpg(uint8_t *image, size_t image_len, uint64_t address, uint8_t *answer, size_t answer_len);
uint64_t model_invpcid(uint8_t *image, size_t image_len, uint64_t type, uint64_t pcid, uint64_t address, uint8_t *answer,
                       size_t answer_len);
uint64_t model_write_cr3(uint8_t *image, size_t image_len, uint64_t value, uint8_t *answer, size_t answer_len);
uint64_t model_write_mode(uint8_t *image, size_t image_len, uint64_t flags, uint8_t *answer, size_t answer_len);

#endif
