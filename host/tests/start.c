/*
 * Both starts, and the loading of a saved state: what they leave in an image of any bytes, and which widths and flags a start
 * refuses. Then a guest under the flags that a start leaves.
 */
#include <string.h>

#include "check.h"
#include "machine.h"
#include "random.h"

static struct machine machine;
static struct random random;

static void fill_image(void)
{
    for (unsigned i = 0; i < PASTRULOW_IMAGE_BYTES; i += 8)
        pastrulow_put_word(machine.image + i, random_word(&random));
}

static void check_answer(struct pastrulow_answer came, uint64_t kind, uint64_t value, uint64_t size, uint64_t read)
{
    check("kind", came.kind, kind);
    check("value", came.value, value);
    check("size", came.size, size);
    check("read", came.read, read);
}

static void is_done(struct pastrulow_answer came)
{
    check_answer(came, PASTRULOW_DONE, 0, 0, 0);
}

static void image_holds(uint64_t width, uint64_t flags, uint64_t cr3)
{
    static const uint8_t zeros[PASTRULOW_IMAGE_BYTES - 24];
    check("width", pastrulow_word(machine.image), width);
    check("flags", pastrulow_word(machine.image + 8), flags);
    check("CR3", pastrulow_word(machine.image + 16), cr3);
    check("bytes after CR3", memcmp(machine.image + 24, zeros, sizeof zeros) != 0, 0);
}

static void starts(uint64_t width)
{
    fill_image();
    is_done(machine_start(&machine, width));
    image_holds(width, PASTRULOW_WP, 0);
}

static void starts_with(uint64_t width, uint64_t flags)
{
    fill_image();
    is_done(machine_start_with(&machine, width, flags));
    image_holds(width, flags, 0);
}

static void loads(uint64_t width, uint64_t flags, uint64_t cr3)
{
    fill_image();
    is_done(machine_load(&machine, width, flags, cr3));
    image_holds(width, flags, cr3);
}

/* The image stays as it is. */
static void refuses(uint64_t width, uint64_t flags, uint64_t number)
{
    static uint8_t before[PASTRULOW_IMAGE_BYTES];
    fill_image();
    memcpy(before, machine.image, sizeof before);
    check_answer(machine_start_with(&machine, width, flags), PASTRULOW_REFUSED, number, 0, 0);
    check("image", memcmp(machine.image, before, sizeof before) != 0, 0);
}

/* Whether calls lead to these flags. */
static bool is_reached(uint64_t flags)
{
    return flags < 128 && (!(flags & PASTRULOW_PCIDE) || flags & PASTRULOW_PG);
}

static void take_flags(uint64_t width)
{
    for (uint64_t flags = 0; flags <= 300; flags++)
        if (is_reached(flags))
            starts_with(width, flags);
        else
            refuses(width, flags, 7);
    for (unsigned bit = 7; bit < 64; bit++)
        refuses(width, UINT64_C(1) << bit, 7);
    refuses(width, UINT64_MAX, 7);
}

/* CR3 with and without low bits and its highest one. */
static void load_states(uint64_t width)
{
    for (uint64_t flags = 0; flags < 128; flags++) {
        if (!is_reached(flags))
            continue;
        loads(width, flags, 0);
        loads(width, flags, 0x1000);
        loads(width, flags, 0xfff);
        loads(width, flags, (UINT64_C(1) << width) - 1);
    }
}

static void take_widths(void)
{
    for (uint64_t width = PASTRULOW_WIDTH_MIN; width <= PASTRULOW_WIDTH_MAX; width++) {
        starts(width);
        take_flags(width);
        load_states(width);
    }
}

/* Refusal 2 comes before 7. */
static void refuse_widths(void)
{
    static const uint64_t widths[] = {0, 1, 35, 53, 64, UINT64_C(0x100000028), UINT64_C(1) << 63, UINT64_MAX};
    for (size_t i = 0; i < sizeof widths / sizeof *widths; i++) {
        check_answer(machine_start(&machine, widths[i]), PASTRULOW_REFUSED, 2, 0, 0);
        refuses(widths[i], 0, 2);
        refuses(widths[i], PASTRULOW_PCIDE, 2);
        refuses(widths[i], 128, 2);
    }
}

/* So it does where the image's length is wrong; and 1 comes before both. */
static void refuse_lengths(void)
{
    uint8_t *image = machine.image, answer[PASTRULOW_ANSWER_BYTES];
    check("image", pastrulow_start_with(image, 2047, 40, PASTRULOW_PCIDE, answer, sizeof answer), 2);
    check("image", pastrulow_start_with(image, 2047, 40, 128, answer, sizeof answer), 2);
    check("answer", pastrulow_start_with(image, sizeof machine.image, 40, 128, answer, 31), 1);
    check("answer", pastrulow_start_with(image, sizeof machine.image, 35, 128, answer, 31), 1);
    check("answer", pastrulow_start_with(image, 2047, 40, 128, answer, 31), 1);
}

/* The part of the trial guest that leads to its read-only page, at 0x1000. */
static void put_tables(void)
{
    static uint8_t low[6 * PASTRULOW_PAGE_BYTES];
    memset(low, 0, sizeof low);
    machine.low = low;
    machine.low_len = sizeof low;
    machine_put_word(&machine, 0x1000, 0x2007);
    machine_put_word(&machine, 0x2000, 0x3007);
    machine_put_word(&machine, 0x3000, 0x4007);
    machine_put_word(&machine, 0x4008, 0x5005);
}

static void write_is_barred(void)
{
    check_answer(machine_translate(&machine, PASTRULOW_WRITE, 0x1000, 0), PASTRULOW_FAULT, 3, 0, 4);
}

static void write_is_answered(void)
{
    check_answer(machine_translate(&machine, PASTRULOW_WRITE, 0x1000, 0), PASTRULOW_ADDRESS, 0x5000, 4096, 4);
}

/* A mode write that does not name write protect turns it off, also the one that turns paging on. */
static void write_protect(void)
{
    put_tables();
    is_done(machine_start(&machine, 40));
    is_done(machine_write_cr3(&machine, 0x1000));
    is_done(machine_write_mode(&machine, PASTRULOW_PG | PASTRULOW_WP));
    write_is_barred();
    is_done(machine_write_mode(&machine, PASTRULOW_PG));
    write_is_answered();
    is_done(machine_start(&machine, 40));
    is_done(machine_write_cr3(&machine, 0x1000));
    is_done(machine_write_mode(&machine, PASTRULOW_PG));
    write_is_answered();
}

/* The root is 0 until CR3 is written. */
static void paging_at_once(void)
{
    put_tables();
    is_done(machine_start_with(&machine, 40, PASTRULOW_PG | PASTRULOW_WP));
    check_answer(machine_translate(&machine, PASTRULOW_WRITE, 0x1000, 0), PASTRULOW_FAULT, 2, 0, 1);
    machine_put_word(&machine, 0, 0x2007);
    write_is_barred();
    machine_put_word(&machine, 0, 0);
    is_done(machine_write_cr3(&machine, 0x1000));
    write_is_barred();
    is_done(machine_start_with(&machine, 40, PASTRULOW_PG));
    is_done(machine_write_cr3(&machine, 0x1000));
    write_is_answered();
}

int main(void)
{
    random = random_start(1, 0);
    take_widths();
    refuse_widths();
    refuse_lengths();
    write_protect();
    paging_at_once();
    return checked("start");
}
