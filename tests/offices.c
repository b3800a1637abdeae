/* offices.c: see offices.h. */
#include "offices.h"

#include "random.h"
#include "reference.h"

const struct office library = {
    wb_fresh, wb_new_hull, wb_open, wb_set_fitting, wb_replace, wb_trial_a, wb_trial_c, wb_trial_u, wb_save, wb_drop, wb_plate_a, wb_plate_c,
    wb_plate_u, wb_weight, wb_write_hull, wb_read_sheet, wb_write_sheet, wb_read_engines,
};

const struct office reference = {
    ref_fresh, ref_new_hull, ref_open, ref_set_fitting, ref_replace, ref_trial_a, ref_trial_c, ref_trial_u, ref_save, ref_drop, ref_plate_a,
    ref_plate_c, ref_plate_u, ref_weight, ref_write_hull, ref_read_sheet, ref_write_sheet, ref_read_engines,
};

/* ---- the library with rubbish beside every number ---- */

/*
 * A number of 32 bits goes over in a register of 64, and its caller may leave anything in the upper half. Compiled C mostly leaves 0 there, so that a call
 * that looked at it would not show. Here the calls are declared as taking all 64 bits, under names of our own that the linker knows as theirs.
 */
wb_answer wide_open(uint32_t *, size_t, uint64_t, uint64_t) __asm__("wb_open");
wb_answer wide_set_fitting(uint32_t *, size_t, uint64_t, uint64_t, uint64_t, uint64_t) __asm__("wb_set_fitting");
wb_answer wide_replace(uint32_t *, size_t, uint64_t, const uint8_t *, size_t) __asm__("wb_replace");
wb_answer wide_trial_a(const uint32_t *, size_t, uint64_t) __asm__("wb_trial_a");
wb_answer wide_trial_c(const uint32_t *, size_t, uint64_t, const uint32_t *, size_t, const uint32_t *, size_t) __asm__("wb_trial_c");
wb_answer wide_trial_u(const uint32_t *, size_t, uint64_t) __asm__("wb_trial_u");
wb_answer wide_save(uint32_t *, size_t, uint64_t) __asm__("wb_save");
wb_answer wide_drop(uint32_t *, size_t, uint64_t) __asm__("wb_drop");
wb_answer wide_plate_a(const uint32_t *, size_t, uint64_t) __asm__("wb_plate_a");
wb_answer wide_plate_c(const uint32_t *, size_t, uint64_t, const uint32_t *, size_t, const uint32_t *, size_t) __asm__("wb_plate_c");
wb_answer wide_plate_u(const uint32_t *, size_t, uint64_t) __asm__("wb_plate_u");
wb_answer wide_weight(const uint32_t *, size_t, uint64_t) __asm__("wb_weight");
wb_answer wide_write_hull(const uint32_t *, size_t, uint64_t, uint8_t *, size_t) __asm__("wb_write_hull");

static uint64_t soiled(uint32_t number)
{
    static const uint32_t rubbish[] = {1, 0x80000000, 0xFFFFFFFF};
    return (uint64_t)(one_in(2) ? ONE_OF(rubbish) : random_word()) << 32 | number;
}

static wb_answer open_soiled(uint32_t *mem, size_t len, uint32_t desk, uint32_t hull)
{
    return wide_open(mem, len, soiled(desk), soiled(hull));
}

static wb_answer set_fitting_soiled(uint32_t *mem, size_t len, uint32_t desk, uint32_t line, uint32_t weight, uint32_t count)
{
    return wide_set_fitting(mem, len, soiled(desk), soiled(line), soiled(weight), soiled(count));
}

static wb_answer replace_soiled(uint32_t *mem, size_t len, uint32_t desk, const uint8_t *text, size_t text_len)
{
    return wide_replace(mem, len, soiled(desk), text, text_len);
}

static wb_answer trial_a_soiled(const uint32_t *mem, size_t len, uint32_t desk)
{
    return wide_trial_a(mem, len, soiled(desk));
}

static wb_answer trial_c_soiled(const uint32_t *mem, size_t len, uint32_t desk, const uint32_t *powers, size_t powers_len, const uint32_t *weights,
                                size_t weights_len)
{
    return wide_trial_c(mem, len, soiled(desk), powers, powers_len, weights, weights_len);
}

static wb_answer trial_u_soiled(const uint32_t *mem, size_t len, uint32_t desk)
{
    return wide_trial_u(mem, len, soiled(desk));
}

static wb_answer save_soiled(uint32_t *mem, size_t len, uint32_t desk)
{
    return wide_save(mem, len, soiled(desk));
}

static wb_answer drop_soiled(uint32_t *mem, size_t len, uint32_t desk)
{
    return wide_drop(mem, len, soiled(desk));
}

static wb_answer plate_a_soiled(const uint32_t *mem, size_t len, uint32_t hull)
{
    return wide_plate_a(mem, len, soiled(hull));
}

static wb_answer plate_c_soiled(const uint32_t *mem, size_t len, uint32_t hull, const uint32_t *powers, size_t powers_len, const uint32_t *weights,
                                size_t weights_len)
{
    return wide_plate_c(mem, len, soiled(hull), powers, powers_len, weights, weights_len);
}

static wb_answer plate_u_soiled(const uint32_t *mem, size_t len, uint32_t hull)
{
    return wide_plate_u(mem, len, soiled(hull));
}

static wb_answer weight_soiled(const uint32_t *mem, size_t len, uint32_t hull)
{
    return wide_weight(mem, len, soiled(hull));
}

static wb_answer write_hull_soiled(const uint32_t *mem, size_t len, uint32_t hull, uint8_t *out, size_t out_len)
{
    return wide_write_hull(mem, len, soiled(hull), out, out_len);
}

/* The calls that take no such number are as they are. */
const struct office library_with_rubbish = {
    wb_fresh, wb_new_hull, open_soiled, set_fitting_soiled, replace_soiled, trial_a_soiled, trial_c_soiled, trial_u_soiled, save_soiled,
    drop_soiled, plate_a_soiled, plate_c_soiled, plate_u_soiled, weight_soiled, write_hull_soiled, wb_read_sheet,
    wb_write_sheet, wb_read_engines,
};
