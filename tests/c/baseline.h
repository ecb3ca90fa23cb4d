/* An independent, straightforward implementation of document 01 with hashed shapes: what the proved one is compared with. */
#ifndef BASELINE_H
#define BASELINE_H
#include <stddef.h>
#include <stdint.h>

/* An answer: number 0 for acceptance, then three values; else the refusal's number and its place in the first value. */
struct baseline_answer { uint32_t number; uint32_t values[3]; };

struct baseline_answer baseline_evaluate(const uint8_t *sheet, size_t sheet_length, uint32_t budget, uint8_t *out, size_t room);
struct baseline_answer baseline_check(const uint8_t *sheet, size_t sheet_length, const uint8_t *certificate, size_t certificate_length);
#endif
