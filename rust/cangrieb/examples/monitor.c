/* The six records of document 01's job program, as calls; prints the lines that the program prints, a forecast's, those of
   single bytes, what a search among the marks finds, how accessed and dirty bits are set, and how a table that is written often
   gets its mark. */
#include "cangrieb.h"
#include <inttypes.h>
#include <stdio.h>

static uint64_t memory[16 * 512];
static const size_t words = sizeof memory / sizeof *memory;

static void say(int line, struct cangrieb_answer a)
{
    printf("%d ", line);
    if (a.kind == CANGRIEB_VALUE)
        printf("value %016" PRIX64 " ", a.number);
    if (a.kind == CANGRIEB_DONE)
        printf("done ");
    if (a.kind == CANGRIEB_FAULT)
        printf("fault %c %" PRIu64 " %" PRIu64 " ", (char)a.letter, a.level, a.frame);
    if (a.kind == CANGRIEB_FIGURES)
        printf("tables %" PRIu64 " ", a.number);
    if (a.kind == CANGRIEB_OK)
        printf("ok\n");
    else if (a.kind == CANGRIEB_REFUSED)
        printf("no %" PRIu64 "\n", a.number);
    else
        printf("%" PRIu64 " %" PRIu64 "\n", a.references, a.exits);
}

static void say_lookup(int line, struct cangrieb_lookup found)
{
    printf("%d depth %" PRIu64 ", %" PRIu64 " read\n", line, found.depth, found.read);
}

static void say_marks(int line, const struct cangrieb_record *unit)
{
    for (uint64_t at = 0; at < 64; at++) {
        struct cangrieb_mark mark = cangrieb_mark(CANGRIEB_PARTS(*unit), at);
        const char *whose = mark.kind == CANGRIEB_AUTOMATIC_MARK ? "automatic" : "operator's";
        if (mark.kind != CANGRIEB_NO_MARK)
            printf("%d %s mark at 0x%" PRIx64 " of level %" PRIu64 ", %" PRIu64 " charges\n", line, whose,
                   mark.address, mark.level, mark.charges);
    }
}

int main(void)
{
    struct cangrieb_record unit;
    say(1, cangrieb_open(CANGRIEB_PARTS(unit), memory, words, 4, 4, false, false));
    say(2, cangrieb_map(CANGRIEB_PARTS(unit), memory, words, 0, 8, true));
    say(3, cangrieb_root(CANGRIEB_PARTS(unit), memory, words, 0));
    say(4, cangrieb_device_store(CANGRIEB_PARTS(unit), memory, words, 0, 8, 0x1003));
    say(5, cangrieb_load(CANGRIEB_PARTS(unit), memory, words, 0, 8));
    say(6, cangrieb_load(CANGRIEB_PARTS(unit), memory, words, 4, 8));
    /* What these loads would cost once more, and what none would. */
    const uint64_t addresses[] = {0, 4};
    say(7, cangrieb_forecast(CANGRIEB_PARTS(unit), memory, words, addresses, 2));
    say(8, cangrieb_forecast(CANGRIEB_PARTS(unit), memory, words, NULL, 0));
    /* Byte 1 of the entry is cleared, so that it names frame 0; then its byte 0 is loaded through it. No access has 3 bytes. */
    say(9, cangrieb_device_store(CANGRIEB_PARTS(unit), memory, words, 1, 1, 0));
    say(10, cangrieb_load(CANGRIEB_PARTS(unit), memory, words, 0, 1));
    say(11, cangrieb_load(CANGRIEB_PARTS(unit), memory, words, 0, 3));
    /* The depth of address 0, and how many marks are read for it: both, and of three those up to that of level 5. */
    say(12, cangrieb_set_mark(CANGRIEB_PARTS(unit), memory, words, 0, 1));
    say(13, cangrieb_set_mark(CANGRIEB_PARTS(unit), memory, words, 0x200000, 1));
    say_lookup(14, cangrieb_depth(&unit.head, unit.place, 0));
    say(15, cangrieb_set_mark(CANGRIEB_PARTS(unit), memory, words, 0, 5));
    say_lookup(16, cangrieb_depth(&unit.head, unit.place, 0));
    /* No memory at all is refused too. */
    say(17, cangrieb_load(CANGRIEB_PARTS(unit), NULL, 0, 0, 8));
    say(18, cangrieb_open(CANGRIEB_PARTS(unit), NULL, 0, 4, 4, false, false));
    /* Opened again, with accessed and dirty bits. The entry at 0 still names its own frame at each level: the load sets its
       bit 5, a store beside it its bit 6, and the load after that finds both. There is no forecast then. */
    say(19, cangrieb_open(CANGRIEB_PARTS(unit), memory, words, 4, 4, true, false));
    say(20, cangrieb_map(CANGRIEB_PARTS(unit), memory, words, 0, 8, true));
    say(21, cangrieb_load(CANGRIEB_PARTS(unit), memory, words, 0, 8));
    say(22, cangrieb_store(CANGRIEB_PARTS(unit), memory, words, 8, 8, 1));
    say(23, cangrieb_load(CANGRIEB_PARTS(unit), memory, words, 0, 8));
    say(24, cangrieb_forecast(CANGRIEB_PARTS(unit), memory, words, addresses, 2));
    /* And with the automatic choice. Each store of that entry drops its own path; by the third its table has a mark, which the
       operator then takes over, and only then may clear. */
    say(25, cangrieb_open(CANGRIEB_PARTS(unit), memory, words, 4, 4, false, true));
    say(26, cangrieb_map(CANGRIEB_PARTS(unit), memory, words, 0, 8, true));
    for (int line = 27; line < 30; line++)
        say(line, cangrieb_store(CANGRIEB_PARTS(unit), memory, words, 0, 8, 3));
    say_marks(30, &unit);
    say(31, cangrieb_clear_mark(CANGRIEB_PARTS(unit), memory, words, 0, 1));
    say(32, cangrieb_set_mark(CANGRIEB_PARTS(unit), memory, words, 0, 1));
    say_marks(33, &unit);
    say(34, cangrieb_clear_mark(CANGRIEB_PARTS(unit), memory, words, 0, 1));
    return 0;
}
