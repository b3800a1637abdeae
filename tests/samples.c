/* samples.c: the sample sheets of the rules by their numbers, starred or not, with the figures that the rules give. */
#include "material.h"
#include "parts.h"
#include "steps.h"

static void samples_1_to_4(void)
{
    wb_sheet sheet = base_hull();
    expect_load('C', &sheet, 326);
    expect_load('A', &sheet, 327);

    sheet.declared = 1500;
    expect_load('C', &sheet, 490);
    sheet.declared = 1501;
    expect_load('C', &sheet, 326);

    sheet.declared = 20000;
    sheet.fitting[0] = (wb_fitting){3333, 1};
    expect_load('C', &sheet, 326);
    sheet.fitting[0] = (wb_fitting){3334, 1};
    expect_load('C', &sheet, 325);
    expect_load('A', &sheet, 326);

    /* the same grams by the piece */
    sheet.fitting[0] = (wb_fitting){1111, 3};
    expect_load('C', &sheet, 326);
    expect_load('A', &sheet, 326);
    expect_plate('U', &sheet, 0, 718, 0);
    sheet.fitting[0] = (wb_fitting){1667, 2};
    expect_load('C', &sheet, 325);
    expect_load('A', &sheet, 326);
    expect_plate('U', &sheet, 0, 718, 0);

    /* A load of 1 is not refused with 12, but it carries nobody: the call goes on to 14, or to 15 where persons were tested. */
    sheet.fitting[0] = (wb_fitting){0, 0};
    sheet.bare = 1828333;
    expect_plate('C', &sheet, 14, 0, 0);
    sheet.tested = 5;
    expect_plate('C', &sheet, 15, 0, 0);
    sheet.bare = 1828334;
    expect_plate('C', &sheet, 12, 0, 0);
    expect_load('A', &sheet, 1);
}

static void samples_5_to_8(void)
{
    wb_sheet sheet = base_hull();
    sheet.outboard = 0;
    sheet.fuel = 20000;
    sheet.machinery = 50000;
    expect_load('A', &sheet, 257);
    expect_plate('C', &sheet, 0, 312, 4);

    sheet = base_hull();
    sheet.length = 2250;
    sheet.reference = 2250;
    sheet.transom_width = 1000;
    expect_power(&sheet, 1500);
    sheet.length = 2251;
    expect_power(&sheet, 3000);
    sheet.length = 2250;
    sheet.flat = 1;
    expect_plate('A', &sheet, 13, 0, 0);

    sheet = base_hull();
    sheet.length = 4100;
    sheet.transom_width = 1250;
    sheet.remote = 1;
    expect_power(&sheet, 15000);

    sheet = base_hull();
    sheet.remote = 1;
    expect_power(&sheet, 20000);
    sheet.remote = 0;
    expect_power(&sheet, 20000);
    sheet.flat = 1;
    expect_power(&sheet, 15000);
}

static void sample_9(void)
{
    wb_sheet sheet = base_hull();
    enter_alone(&sheet);
    for (uint32_t edit = 0; edit < 4; edit++) {
        expect(attempt((struct call){.kind = OPEN, .desk = 7}), 0, edit, 0);
        expect(attempt((struct call){.kind = SAVE, .desk = 7}), 0, edit + 1, 0);
    }
    expect(attempt((struct call){.kind = OPEN, .desk = 0}), 0, 4, 0);
    expect(attempt((struct call){.kind = OPEN, .desk = 1}), 0, 4, 0);
    expect(attempt((struct call){.kind = SAVE, .desk = 1}), 0, 5, 0);
    expect(attempt((struct call){.kind = SAVE, .desk = 0}), 8, 0, 0);
    expect(attempt((struct call){.kind = OPEN, .desk = 0}), 0, 5, 0);
    expect(attempt((struct call){.kind = SAVE, .desk = 0}), 0, 6, 0);
}

/* The text that the plate program is shown with, by the calls that it needs. */
static void sample_text(void)
{
    start_fresh();
    lend_text("HULL\t0\nFORM\t4500\t4000\t1200\t500\t0\t1\nSTN\tQ\t1000\t500\t500\t500\t500\t500\t500\nSTN\tR\t1000\t500\t500\t500\t500\t500\t500\n"
              "STN\tS\t1000\t500\t500\t500\t500\t500\t500\nSTN\tT\t1000\t500\t500\t500\t500\t500\t500\nVOL\t0\t0\t0\nMASS\t200000\t0\t0\n"
              "PWR\t1\t20000\nSEAT\t5\t3\nFIT\t1\t3334\nEND\n");
    expect(attempt((struct call){.kind = NEW_HULL}), 0, 0, 0);
    lend_text("ENG\t10000\t45000\nENG\t20000\t60000\n");
    lend_slices(2, 2);
    expect(attempt((struct call){.kind = READ_ENGINES}), 0, 2, 0);
    expect(attempt((struct call){.kind = PLATE_A}), 0, 326, 20000);
    expect(attempt((struct call){.kind = PLATE_C}), 0, 325, 3);
    expect(attempt((struct call){.kind = WEIGH}), 0, 203334, 0);
}

void try_samples(void)
{
    static const uint32_t powers[] = {1500, 20000}, weights[] = {20000, 60000};
    begin_part("samples");
    lend_rows(powers, weights, 2);
    samples_1_to_4();
    samples_5_to_8();
    sample_9();
    sample_text();
}
