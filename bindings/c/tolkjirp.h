/*
 * Tolkjirp: from ARIES punch code to the list of hits and stops for the press.
 *
 * Link with libtolkjirp.a, which `bindings/archive.sh` writes to
 * target/staticlib at the repository's root. It is for Linux on x86-64. The
 * header is C99 and C++.
 */
#ifndef TOLKJIRP_H
#define TOLKJIRP_H

#include <stddef.h>
#include <stdint.h>

#ifdef __cplusplus
extern "C" {
#endif

/*
 * The version of this header and of the library that it comes with. A program is
 * to be compiled with the header of the library that it is linked with: the
 * function of one before 0.6.0 has the same name and other parameters. From 0.6.0
 * to 0.7.0 nothing of it has changed.
 */
#define TOLKJIRP_VERSION "0.7.0"

/* The most bytes that a text may have; a longer one is refused. */
#define TOLKJIRP_LONGEST_TEXT 60000

/*
 * The decimal point settings: what a length or an angle written without a point
 * counts. One with a point is the same at both.
 */
enum tolkjirp_setting {
    TOLKJIRP_MILLIMETRES = 0, /* whole millimetres or degrees: X100 is 100 mm */
    TOLKJIRP_HUNDREDTHS = 1   /* hundredths of them: X100 is 1 mm */
};

/*
 * How many numbers of the list an entry takes: X, Y, tool, mode. An entry is a
 * hit or a stop; of a stop, X, Y and tool are zero.
 */
#define TOLKJIRP_NUMBERS_PER_ENTRY 4

/* The modes of entries. */
enum tolkjirp_mode {
    TOLKJIRP_PUNCH = 0,        /* a hit */
    TOLKJIRP_NIBBLE = 1,       /* a hit between M12 and M13 */
    TOLKJIRP_STOP = 2,         /* no hit: the press stops, M00 */
    TOLKJIRP_OPTIONAL_STOP = 3 /* no hit: the press stops if its optional stop
                                  is switched on, M01 */
};

/* How many tools there are; they have the numbers 1 to 99. */
#define TOLKJIRP_TOOLS 99

/*
 * What a tally has of one tool; all three are zero if the tool makes no hit. A
 * tally is an array of TOLKJIRP_TOOLS of them, tool 1 first: tool t is
 * tally[t - 1]. The tool 0 of a stop has none.
 *
 * Indexes are those of entries in the list, from 1, and stops have indexes too:
 * the entry with index i begins at list[TOLKJIRP_NUMBERS_PER_ENTRY * (i - 1)].
 */
struct tolkjirp_tool {
    uint64_t hits;  /* how many hits it makes */
    uint64_t first; /* the index of its first hit */
    uint64_t last;  /* the index of its last hit */
};

/* The library has a tally as 297 numbers, without gaps between them. */
typedef char tolkjirp_tally_has_297_numbers
    [sizeof(struct tolkjirp_tool[TOLKJIRP_TOOLS]) == 297 * sizeof(uint64_t)
         ? 1
         : -1];

/* What the three numbers of an answer are. */
#define TOLKJIRP_REFUSAL 0 /* the refusal, 1 to 18; 0 if the text is accepted */
#define TOLKJIRP_COUNT 1   /* the count of entries; 0 if the text is refused */
#define TOLKJIRP_LINE 2    /* the line of the refusal, from 1; 0 if the text is
                              accepted or its length is refused */

/*
 * The refusals, in the order of checking, but that 18 is checked after 13.
 * docs/REFUSALS.md has what to do.
 */
enum tolkjirp_refusal {
    TOLKJIRP_ACCEPTED = 0,
    TOLKJIRP_TEXT_LENGTH = 1,
    TOLKJIRP_STRAY_BYTE = 2,
    TOLKJIRP_TOO_MANY_BLOCKS = 3,
    TOLKJIRP_WORD_FORM = 4,
    TOLKJIRP_UNKNOWN_BLOCK = 5, /* also a G73 without X or Y, where no G73
                                   before it gave that letter */
    TOLKJIRP_NUMBER_RANGE = 6,
    TOLKJIRP_WRONG_PLACE = 7,
    TOLKJIRP_UNKNOWN_MACHINE = 8,
    TOLKJIRP_UNMATCHED_MACRO = 9,
    TOLKJIRP_NOTHING_STORED = 10, /* by W, G73, G75, G76 or B */
    TOLKJIRP_TOO_MANY_CALLS = 11,
    TOLKJIRP_MACROS_FULL = 12,
    TOLKJIRP_NO_LAYOUT = 13,
    TOLKJIRP_NO_TOOL = 14,
    TOLKJIRP_TOO_FAR = 15,
    TOLKJIRP_OUT_OF_RANGE = 16,
    TOLKJIRP_LIST_FULL = 17,
    TOLKJIRP_SHEAR_UNFIT = 18
};

/* A refusal in words, by its number. */
static inline const char *tolkjirp_refusal_text(uint64_t refusal)
{
    switch (refusal) {
    case TOLKJIRP_ACCEPTED:
        return "the text is accepted";
    case TOLKJIRP_TEXT_LENGTH:
        return "the text is empty or has more than 60,000 bytes";
    case TOLKJIRP_STRAY_BYTE:
        return "a byte is not allowed in program texts";
    case TOLKJIRP_TOO_MANY_BLOCKS:
        return "more than 100,000 blocks would be carried out";
    case TOLKJIRP_WORD_FORM:
        return "a word is malformed";
    case TOLKJIRP_UNKNOWN_BLOCK:
        return "a code or a set of words is unknown";
    case TOLKJIRP_NUMBER_RANGE:
        return "a number is of the wrong kind or out of its range";
    case TOLKJIRP_WRONG_PLACE:
        return "a block stands in a wrong place or is missing";
    case TOLKJIRP_UNKNOWN_MACHINE:
        return "G92 names neither machine";
    case TOLKJIRP_UNMATCHED_MACRO:
        return "a U line and a V line don't match";
    case TOLKJIRP_NOTHING_STORED:
        return "nothing is stored under the number";
    case TOLKJIRP_TOO_MANY_CALLS:
        return "four calls are open already";
    case TOLKJIRP_MACROS_FULL:
        return "the macros would pass 3,100 characters";
    case TOLKJIRP_NO_LAYOUT:
        return "no G98 is in force";
    case TOLKJIRP_NO_TOOL:
        return "no tool is chosen";
    case TOLKJIRP_TOO_FAR:
        return "a place or a reach passes 9,999.99 mm";
    case TOLKJIRP_OUT_OF_RANGE:
        return "a place is outside the machine's range";
    case TOLKJIRP_LIST_FULL:
        return "the list has no place left for an entry";
    case TOLKJIRP_SHEAR_UNFIT:
        return "the numbers of a G66 don't fit together";
    default:
        return "there is no such refusal";
    }
}

/*
 * Expands a program text into a list of entries, with a tally of their hits.
 *
 * setting              The decimal point setting of the whole text, as named
 *                      above: 0; any other number counts as 1.
 *                      At 0 a length or an angle that passes 9,999.99 mm or
 *                      degrees is refused by TOLKJIRP_NUMBER_RANGE.
 * text, text_length    The program, in bytes. It needs no zero byte at its end,
 *                      and any bytes may stand in it.
 * list, list_length    The list, in numbers. Each entry takes four of them. Of
 *                      a hit they are X and Y in hundredths of a millimetre,
 *                      the tool (1 to 99), and the mode (0 punching, 1
 *                      nibbling); of a stop they are 0, 0, 0 and the mode (2,
 *                      or 3 for an optional stop). A hit in a macro that G73
 *                      mirrors has the place where it lies on the sheet. Fewer
 *                      than four numbers at the end are no place for an entry.
 *                      What the list holds before the call does not matter.
 * tally                The hits of each tool, and the first and the last index
 *                      where it stands. What it holds before the call does not
 *                      matter. It is always written, so it may not be null.
 * answer               Three numbers, as named above.
 *
 * After the call, the first 4 * answer[TOLKJIRP_COUNT] numbers of the list are
 * the entries in order and the others are zero, and the hits of all tools add
 * up to the entries that are not stops. After a refusal all of the list and of
 * the tally is zero.
 *
 * With a length of 0 the pointer is not used, and may be null, as that of an
 * empty std::vector: an empty text is refused by TOLKJIRP_TEXT_LENGTH, and an
 * empty list has no place for an entry.
 *
 * The caller ensures that
 * - text points to text_length readable bytes,
 * - list points to list_length writable numbers, tally to 99 writable records,
 *   and answer to three writable numbers,
 * - list, tally and answer are aligned for their types,
 * - text, list, tally and answer do not overlap,
 * - neither the text nor the list spans more than PTRDIFF_MAX bytes,
 * - no other thread uses the list, the tally or the answer, or changes the
 *   text, during the call.
 *
 * The function keeps no state: calls with lists, tallies and answers of their
 * own may run at the same time. It allocates nothing. It uses up to 84 kB of
 * the stack, whatever the text; that was measured with an older toolchain and is
 * not proved, so a thread of its own should have 128 kB or more.
 */
void tolkjirp_expand(int32_t setting,
                     const uint8_t *text, size_t text_length,
                     int32_t *list, size_t list_length,
                     struct tolkjirp_tool tally[TOLKJIRP_TOOLS],
                     uint64_t answer[3]);

#ifdef __cplusplus
}
#endif

#endif
