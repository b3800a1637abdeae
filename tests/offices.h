/*
 * offices.h: the eighteen calls as one table, of the library and of the reference; and of the library once more with
 * rubbish beside every number.
 */
#ifndef WILLOWBLINK_OFFICES_H
#define WILLOWBLINK_OFFICES_H

#include "willowblink.h"

struct office {
    wb_answer (*fresh)(uint32_t *, size_t);
    wb_answer (*new_hull)(uint32_t *, size_t, const uint8_t *, size_t);
    wb_answer (*open)(uint32_t *, size_t, uint32_t, uint32_t);
    wb_answer (*set_fitting)(uint32_t *, size_t, uint32_t, uint32_t, uint32_t, uint32_t);
    wb_answer (*replace)(uint32_t *, size_t, uint32_t, const uint8_t *, size_t);
    wb_answer (*trial_a)(const uint32_t *, size_t, uint32_t);
    wb_answer (*trial_c)(const uint32_t *, size_t, uint32_t, const uint32_t *, size_t, const uint32_t *, size_t);
    wb_answer (*trial_u)(const uint32_t *, size_t, uint32_t);
    wb_answer (*save)(uint32_t *, size_t, uint32_t);
    wb_answer (*drop)(uint32_t *, size_t, uint32_t);
    wb_answer (*plate_a)(const uint32_t *, size_t, uint32_t);
    wb_answer (*plate_c)(const uint32_t *, size_t, uint32_t, const uint32_t *, size_t, const uint32_t *, size_t);
    wb_answer (*plate_u)(const uint32_t *, size_t, uint32_t);
    wb_answer (*weight)(const uint32_t *, size_t, uint32_t);
    wb_answer (*write_hull)(const uint32_t *, size_t, uint32_t, uint8_t *, size_t);
    wb_answer (*read_sheet)(const uint8_t *, size_t, wb_sheet *);
    wb_answer (*write_sheet)(const wb_sheet *, uint8_t *, size_t);
    wb_answer (*read_engines)(const uint8_t *, size_t, uint32_t *, size_t, uint32_t *, size_t);
};

extern const struct office library, library_with_rubbish, reference;

#endif
