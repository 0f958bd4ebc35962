/* The proved memory unit, for a monitor to link: libcangrieb.a, as `rt lib --cpu=x86-64` in crates/cangrieb writes it (x86-64).

   The monitor owns a memory of 64-bit words in frames of 512: first the host frames, then the shadow frames, then the
   guest area. It also keeps the unit's record, a head and three rows of 64 words, and lends memory and record to each call.
   cangrieb_open lays the memory out and writes the record; each later call takes that record and the same memory.

   A guest's pages are of 4 KiB, and by bit 7 of an entry of level 2 or 3 of 2 MiB or 1 GiB; host frames are mapped one by one in
   all of them.

   The pointers must be to a head, to rows of 64 words and to that many words of memory, those of a forecast also to that many
   addresses, which do not overlap and which nothing else uses during the call. The number of words or addresses may be 0,
   and their pointer then null. Nothing else is asked: a memory of another length or a record that breaks a rule is refused
   with 3, a damaged table with 11, and no call reads or writes a word outside what it is lent.

   A refused opening sets head and rows to 0, and every later call with such a record is refused with 3. A granted one sets the
   host and shadow frames to 0, but that word 1 of frame 0, the top host table, has bits of the table's header.

   For who links this into a kernel: a call takes at most 8 KiB of stack (a test measures it: 5.8 KiB for a store, 6.9 KiB for an
   opening, 5.2 KiB for marks, 3.1 KiB for a forecast and for all others), allocates nothing and calls nothing but memcpy and
   memset. By the System V x86-64 convention it may use the SSE registers and the 128 bytes below the stack pointer: a kernel
   saves the registers, and takes interrupts on another stack. */
#ifndef CANGRIEB_H
#define CANGRIEB_H

#include <stdbool.h>
#include <stddef.h>
#include <stdint.h>

#ifdef __cplusplus
extern "C" {
#endif

/* What the unit keeps of an area of tables. */
struct cangrieb_pool {
    uint64_t fresh; /* frames handed out so far */
    uint64_t free;  /* the first frame given back, as an entry, or 0 */
    uint64_t used;  /* tables in use */
    uint64_t top;   /* the entry of the area's top table, or 0 */
};

/* What the automatic choice keeps in numbers. */
struct cangrieb_tally {
    uint64_t on;      /* 1 if it is chosen, as opened, else 0 */
    uint64_t charged; /* the window, one bit for each of the last 64 loads and stores, that of the last lowest: was it charged? */
    uint64_t at;      /* where the ring is written next, by its low six bits */
    uint64_t count;   /* automatic marks */
};

/* The record without its rows of 64 words. */
struct cangrieb_head {
    uint64_t levels;         /* levels of tables, 4 as opened */
    uint64_t hosts, shadows; /* frames of host tables and of shadow tables, as opened */
    uint64_t frames;         /* frames of the memory */
    uint64_t bits;           /* accessed and dirty bits: 1 if they are set, as opened, else 0 */
    struct cangrieb_pool host, shadow; /* their areas */
    uint64_t root;           /* the guest frame of the guest's top table */
    uint64_t held;           /* the host frame of the path held at the depth of all levels, or 0 */
    uint64_t set;            /* the places of marks that are set, one bit each */
    struct cangrieb_tally choice; /* the automatic choice */
};

/* The unit's record: plain data, which may be copied and kept. The four parts may also be kept apart. A place that set names
   holds a mark, its level in bits 0 to 2 and above them the indexes that it keeps; those marks ascend. The ring has what stores
   were charged to, written round and round, and the order the places of the automatic marks, the one set first first. */
struct cangrieb_record {
    struct cangrieb_head head;
    uint64_t place[64];
    uint64_t ring[64];
    uint64_t order[64];
};

/* The four parts of a record, as the calls take them: cangrieb_load(CANGRIEB_PARTS(unit), memory, words, 0, 8). */
#define CANGRIEB_PARTS(record) &(record).head, (record).place, (record).ring, (record).order

/* What a call answers, and which numbers of the answer it has. */
enum cangrieb_kind {
    CANGRIEB_OK = 0,      /* none */
    CANGRIEB_VALUE = 1,   /* number, references, exits */
    CANGRIEB_DONE = 2,    /* references, exits */
    CANGRIEB_FAULT = 3,   /* letter, level or frame, references, exits */
    CANGRIEB_REFUSED = 4, /* number */
    CANGRIEB_FIGURES = 5, /* number, references, exits */
};

/* The answer of a call. What its kind does not have is 0. */
struct cangrieb_answer {
    uint64_t kind;
    uint64_t number;     /* what was loaded, the number of the refusal, or a forecast's shadow tables */
    uint64_t letter;     /* in ASCII: A absent, M malformed, P protected, H host absent, W host read-only */
    uint64_t level;      /* the guest level of A, M, P */
    uint64_t frame;      /* the guest frame of H, W */
    uint64_t references; /* words of tables read */
    uint64_t exits;      /* calls of the guest's processor to the monitor */
};

/* What the search among the marks finds for an address. */
struct cangrieb_lookup {
    uint64_t depth; /* the greatest level among the marks that hold for it, or 0 */
    uint64_t read;  /* how many marks were read to find it */
};

/* What stands at a place of the marks. */
enum cangrieb_mark_kind {
    CANGRIEB_NO_MARK = 0,        /* nothing */
    CANGRIEB_OPERATORS_MARK = 1, /* a mark that cangrieb_set_mark set, or took over */
    CANGRIEB_AUTOMATIC_MARK = 2, /* one that the automatic choice set */
};

/* The mark at a place. If there is none, all is 0. */
struct cangrieb_mark {
    uint64_t kind;
    uint64_t level;   /* 1 to 5 */
    uint64_t address; /* the lowest that it holds for; with the level it names the mark to cangrieb_set_mark and _clear_mark */
    uint64_t charges; /* charges to it in the window; only level 1 has some, and none without the automatic choice */
};

/* The library has these as rows of 20, 64, 7, 2 and 4 words. */
#if defined __STDC_VERSION__ && __STDC_VERSION__ >= 201112L
_Static_assert(sizeof(struct cangrieb_head) == 20 * sizeof(uint64_t), "a head has 20 words");
_Static_assert(sizeof(struct cangrieb_record) == 212 * sizeof(uint64_t), "a record has 20 words and three rows of 64");
_Static_assert(sizeof(struct cangrieb_answer) == 7 * sizeof(uint64_t), "an answer has 7 words");
_Static_assert(sizeof(struct cangrieb_lookup) == 2 * sizeof(uint64_t), "a lookup has 2 words");
_Static_assert(sizeof(struct cangrieb_mark) == 4 * sizeof(uint64_t), "a mark has 4 words");
#endif

/* Refusals of each call in parentheses; of several that apply, the first named.
   1 the words are no multiple of 512, or the frames are 0 or more than 65,536; 2 fewer than 4 host or shadow frames, or no
   guest frame; 3 the memory's length or the record; 4 the address; 5 the mark's level; 6 the mark is set already, or is not
   set; 7 64 marks are set; 8 the guest frame; 9 the host frame; 10 no host table is free; 12 not mapped; 14 more than 256
   addresses; 15 the width is not 1, 2, 4 or 8; 16 no forecast with accessed and dirty bits; 11 a damaged host or shadow table.
   For 4: a guest-virtual address is legal when its bits 48 to 63 all equal bit 47; a device's address, which is
   guest-physical, is below 2^48. Loads and stores are at multiples of their width; a mark's address need not be.
   A refusal leaves the record as given; that of an opening sets it to 0. */

/* Opens a memory (1, 2): clears its host and shadow frames, keeps its guest words; nothing is mapped, the root is 0, no mark is
   set. The record may hold anything before.
   With bits the unit sets accessed and dirty bits in the guest's entries. A load or store that is granted sets bit 5 in each entry
   of its walk, and a store also bit 6 in the one where it ends, before its word is loaded or stored; a fault sets none. A bit that is
   needed and not set, in a table whose guest frame is mapped read-only, is fault W with that frame. A device store needs and sets
   none. Forecasts are refused with 16.
   With automatic a table of level 1 that the guest writes often gets a mark of level 1 by itself, so that it is read directly and
   a store to it costs no exit. A store that drops paths of depth 0 by their entries of level 1 is charged to the lowest prefix of
   three indexes among theirs; one that has three charges or more in the window then gets its mark. The window holds the last 64
   loads and stores that were not refused, and a root load empties it. If 64 marks are set, the automatic one with the fewest
   charges makes room, of several the one set longest ago, and one that is set again counts as new; if none is automatic, none is
   set. No value, fault or refusal is another by it; references, exits and the figures of forecasts may be. */
struct cangrieb_answer cangrieb_open(struct cangrieb_head *head, uint64_t place[64], uint64_t ring[64], uint64_t order[64],
                                     uint64_t *memory, size_t words, uint64_t hosts, uint64_t shadows, bool bits,
                                     bool automatic);

/* Loads width bytes, 1, 2, 4 or 8, at a guest-virtual address (3, 15, 4, 11). The first byte is the lowest of the number, and
   above the last are zeros. */
struct cangrieb_answer cangrieb_load(struct cangrieb_head *head, const uint64_t place[64], const uint64_t ring[64],
                                     const uint64_t order[64], uint64_t *memory, size_t words, uint64_t address,
                                     uint64_t width);

/* Stores the low width bytes of a value, 1, 2, 4 or 8, at a guest-virtual address (3, 15, 4, 11). No other byte is changed; the
   bits of the value above the width are not read. */
struct cangrieb_answer cangrieb_store(struct cangrieb_head *head, uint64_t place[64], uint64_t ring[64], uint64_t order[64],
                                      uint64_t *memory, size_t words, uint64_t address, uint64_t width, uint64_t value);

/* A device stores so at a guest-physical address (3, 15, 4, 11). */
struct cangrieb_answer cangrieb_device_store(struct cangrieb_head *head, const uint64_t place[64], const uint64_t ring[64],
                                             const uint64_t order[64], uint64_t *memory, size_t words, uint64_t address,
                                             uint64_t width, uint64_t value);

/* Loads a root (3, 8): the guest frame of the guest's top table. All held paths are dropped, and the window is emptied. */
struct cangrieb_answer cangrieb_root(struct cangrieb_head *head, const uint64_t place[64], const uint64_t ring[64],
                                     const uint64_t order[64], const uint64_t *memory, size_t words, uint64_t guest);

/* Maps a guest frame to a host frame of the guest area, or maps it anew (3, 8, 9, 10, 11). */
struct cangrieb_answer cangrieb_map(struct cangrieb_head *head, const uint64_t place[64], const uint64_t ring[64],
                                    const uint64_t order[64], uint64_t *memory, size_t words, uint64_t guest,
                                    uint64_t frame, bool writable);

/* Takes the mapping of a guest frame away (3, 8, 12, 11). */
struct cangrieb_answer cangrieb_unmap(struct cangrieb_head *head, const uint64_t place[64], const uint64_t ring[64],
                                      const uint64_t order[64], uint64_t *memory, size_t words, uint64_t guest);

/* Sets a mark of a level from 1 to 5 for the addresses that begin like this one (3, 4, 5, 6, 7, 11). One that is automatic
   becomes the operator's, without 6. If 64 marks are set, an automatic one makes room for any other: 7 is for 64 of the
   operator's. */
struct cangrieb_answer cangrieb_set_mark(struct cangrieb_head *head, uint64_t place[64], uint64_t ring[64],
                                         uint64_t order[64], uint64_t *memory, size_t words, uint64_t address,
                                         uint64_t level);

/* Clears that mark (3, 4, 5, 6, 11). An automatic one is not the operator's to clear: 6. */
struct cangrieb_answer cangrieb_clear_mark(struct cangrieb_head *head, uint64_t place[64], uint64_t ring[64],
                                           uint64_t order[64], uint64_t *memory, size_t words, uint64_t address,
                                           uint64_t level);

/* What loads of so many guest-virtual addresses, in this order, would cost (3, 16, 14, 11): the references and exits of all, and
   as number the greatest number of shadow tables in use before the first and after each. A load that would fault counts
   what its fault carries, one that would be refused with 4 counts nothing, and the list goes on. Nothing is changed, not by
   11 either: record, memory and addresses are only read. With a count of 0 the addresses' pointer may be null. */
struct cangrieb_answer cangrieb_forecast(const struct cangrieb_head *head, const uint64_t place[64], const uint64_t ring[64],
                                         const uint64_t order[64], const uint64_t *memory, size_t words,
                                         const uint64_t *addresses, size_t count);

/* The depth of a guest-virtual address by the marks that are set, and how many marks a load or store reads to find it: in the
   order of their places those up to one of level 5 and with it, or all that are set. This looks at the marks alone. It is no
   call to the unit, takes no memory and refuses nothing; the bits of the address above its indexes are not read. Of a record
   that a call would refuse with 3 the two numbers mean nothing, but that the depth is at most 7 and no more marks were read
   than are set. */
struct cangrieb_lookup cangrieb_depth(const struct cangrieb_head *head, const uint64_t place[64], uint64_t address);

/* What stands at a place of the marks, 0 to 63. It too is no call to the unit and refuses nothing; of a record that a call would
   refuse with 3 it means nothing. All marks in order:

       for (uint64_t at = 0; at < 64; at++) {
           struct cangrieb_mark mark = cangrieb_mark(CANGRIEB_PARTS(unit), at);
           if (mark.kind != CANGRIEB_NO_MARK)
               printf("%#" PRIx64 ", level %" PRIu64 "\n", mark.address, mark.level);
       } */
struct cangrieb_mark cangrieb_mark(const struct cangrieb_head *head, const uint64_t place[64], const uint64_t ring[64],
                                   const uint64_t order[64], uint64_t at);

#ifdef __cplusplus
}
#endif

#endif
