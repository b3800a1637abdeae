/* reference.h: the eighteen calls once more, in plain C, from the rules alone. The library is compared with them. */
#ifndef WILLOWBLINK_REFERENCE_H
#define WILLOWBLINK_REFERENCE_H

#include "willowblink.h"

wb_answer ref_fresh(uint32_t *mem, size_t mem_len);
wb_answer ref_new_hull(uint32_t *mem, size_t mem_len, const uint8_t *text, size_t text_len);
wb_answer ref_open(uint32_t *mem, size_t mem_len, uint32_t desk, uint32_t hull);
wb_answer ref_set_fitting(uint32_t *mem, size_t mem_len, uint32_t desk, uint32_t line, uint32_t weight, uint32_t count);
wb_answer ref_replace(uint32_t *mem, size_t mem_len, uint32_t desk, const uint8_t *text, size_t text_len);
wb_answer ref_trial_a(const uint32_t *mem, size_t mem_len, uint32_t desk);
wb_answer ref_trial_c(const uint32_t *mem, size_t mem_len, uint32_t desk, const uint32_t *powers, size_t powers_len, const uint32_t *weights,
                      size_t weights_len);
wb_answer ref_trial_u(const uint32_t *mem, size_t mem_len, uint32_t desk);
wb_answer ref_save(uint32_t *mem, size_t mem_len, uint32_t desk);
wb_answer ref_drop(uint32_t *mem, size_t mem_len, uint32_t desk);
wb_answer ref_plate_a(const uint32_t *mem, size_t mem_len, uint32_t hull);
wb_answer ref_plate_c(const uint32_t *mem, size_t mem_len, uint32_t hull, const uint32_t *powers, size_t powers_len, const uint32_t *weights,
                      size_t weights_len);
wb_answer ref_plate_u(const uint32_t *mem, size_t mem_len, uint32_t hull);
wb_answer ref_weight(const uint32_t *mem, size_t mem_len, uint32_t hull);
wb_answer ref_write_hull(const uint32_t *mem, size_t mem_len, uint32_t hull, uint8_t *out, size_t out_len);
wb_answer ref_read_sheet(const uint8_t *text, size_t text_len, wb_sheet *sheet);
wb_answer ref_write_sheet(const wb_sheet *sheet, uint8_t *out, size_t out_len);
wb_answer ref_read_engines(const uint8_t *text, size_t text_len, uint32_t *powers, size_t powers_len, uint32_t *weights, size_t weights_len);

#endif
