/* Taxolbin: bitmaps in lent memory, list text, the printed register and the change sheet.
 *
 * Link with libtaxolbin.a, or libtaxolbin.so, which needs memcpy, memmove and memset of the C library and nothing else. It allocates nothing and
 * keeps nothing between calls, so calls on different memory may run at the same time.
 *
 * A bitmap is a store of 64-bit words, its capacity in words, and a count of the words in use. Bit i is bit i % 64 of word i / 64, lowest first;
 * its length is 64 * count bits. A word that comes into use is zeroed first, one that falls out of use becomes zero, and no other word outside the
 * count is touched.
 *
 * Every call returns a number: 0 for done, or why it is refused; taxolbin_why says it in words. Each comment ends with the numbers that the call can
 * return, in the order in which they are looked for. Every argument may have every value, and is then done or refused: counts above their stores
 * and indexes up to SIZE_MAX too.
 *
 * - A call that changes a bitmap takes its count by a pointer, and leaves the new count there. A refused call changes no word, no byte and no count;
 *   only taxolbin_read differs, as it says, and a count that is handed out alone (a dup form's, a tail's, a sheet reading's) becomes 0.
 * - A call that answers a number hands it out through a pointer: 0 where the call is refused. A search hands out found, 1 or 0, and place, which is 0
 *   where nothing is found.
 * - A truth value comes in as a number: 0 is false, any other is true.
 * - A call whose number is dropped is a compiler's warning; one whose number is overwritten before it is looked at is not. To drop one on purpose:
 *   taxolbin_ignore(taxolbin_unset(words, capacity, &count, i));
 *
 * What the caller must see to, because no call can look: a pointer is aligned and not null, also with a length of 0; the memory of the whole length
 * is there; and what a call writes (a store, a buffer, a count, a value) overlaps nothing else that the call is given. What is only read may overlap.
 *
 * For C99 and C++11 on. FORMAT.md has the change sheet byte by byte, the list text and the printed register.
 */
#ifndef TAXOLBIN_H
#define TAXOLBIN_H

#include <stddef.h>
#include <stdint.h>

#if !defined(__x86_64__) || defined(__ILP32__)
#error "the archive is for x86-64 with 64-bit pointers"
#endif

#if defined(__cplusplus) && __cplusplus >= 201703L
#define TAXOLBIN_MUST_USE [[nodiscard]]
#elif defined(__STDC_VERSION__) && __STDC_VERSION__ >= 202311L
#define TAXOLBIN_MUST_USE [[nodiscard]]
#elif defined(__GNUC__)
#define TAXOLBIN_MUST_USE __attribute__((warn_unused_result))
#else
#define TAXOLBIN_MUST_USE
#endif

#ifdef __cplusplus
extern "C" {
#endif

/* This version. Before 1.0 a call may change with the second number. */
#define TAXOLBIN_VERSION "0.4.0"

/* The most words of a store, the newest edition, the most records of a sheet and bytes of a payload, and the most bits of a resize in a sheet. */
#define TAXOLBIN_CAPACITY_MAX UINT64_C(67108864)
#define TAXOLBIN_EDITION_MAX UINT64_C(2)
#define TAXOLBIN_RECORDS_MAX UINT64_C(65535)
#define TAXOLBIN_PAYLOAD_MAX UINT64_C(65535)
#define TAXOLBIN_RESIZE_MAX UINT64_C(4294967296)

/* The numbers. */
/* numbers.py: from here */
enum taxolbin_number {
    TAXOLBIN_DONE = 0,
    TAXOLBIN_STORE_TOO_LONG = 1,
    TAXOLBIN_COUNT_OVER_STORE = 2,
    TAXOLBIN_WIDTH_OVER = 3,
    TAXOLBIN_INDEX_OVER = 4,
    TAXOLBIN_PAST_LENGTH = 5,
    TAXOLBIN_NO_SPACE = 6,
    TAXOLBIN_NOT_LIST = 7,
    TAXOLBIN_NOT_ASCII = 8,
    TAXOLBIN_NOT_SHEET = 9,
    TAXOLBIN_CUT_RECORD = 10,
    TAXOLBIN_BYTES_REMAIN = 11,
    TAXOLBIN_BAD_PAYLOAD = 12,
    TAXOLBIN_NEWER_KIND = 13,
    TAXOLBIN_NO_EDITION = 14,
    TAXOLBIN_BAD_STYLE = 15,
    TAXOLBIN_NUMBER_OVER = 16
};

/* A number in words. */
static inline const char *taxolbin_why(uint32_t number)
{
    switch (number) {
    case TAXOLBIN_DONE:
        return "done";
    case TAXOLBIN_STORE_TOO_LONG:
        return "a store has more than 67,108,864 words";
    case TAXOLBIN_COUNT_OVER_STORE:
        return "a word count is above its store, or a sheet's length above its buffer";
    case TAXOLBIN_WIDTH_OVER:
        return "a field is wider than 64 bits";
    case TAXOLBIN_INDEX_OVER:
        return "the last index passes 2^64 - 1, or a resize in a sheet is over 4,294,967,296 bits";
    case TAXOLBIN_PAST_LENGTH:
        return "a bit is past the bitmap's length";
    case TAXOLBIN_NO_SPACE:
        return "the result needs more words or bytes than were lent, or the sheet already has 65,535 records";
    case TAXOLBIN_NOT_LIST:
        return "the text is not a list in its style";
    case TAXOLBIN_NOT_ASCII:
        return "the text has a byte of 128 or more";
    case TAXOLBIN_NOT_SHEET:
        return "the bytes are not a sheet: fewer than 4, or the first two are not N and S";
    case TAXOLBIN_CUT_RECORD:
        return "a record runs past the end of the sheet";
    case TAXOLBIN_BYTES_REMAIN:
        return "bytes remain after the sheet's last record";
    case TAXOLBIN_BAD_PAYLOAD:
        return "a record's payload is wrong for its kind (length, unused bits, width or resize), or a remark is over 65,535 bytes";
    case TAXOLBIN_NEWER_KIND:
        return "a record's kind is newer than the edition, or there is no such kind";
    case TAXOLBIN_NO_EDITION:
        return "the edition is neither 1 nor 2";
    case TAXOLBIN_BAD_STYLE:
        return "a style of list text is outside its limits: a first number over 1,000, a joiner that is not printable or is a digit, a comma or a blank, or a shortest range that is not 2 to 9";
    case TAXOLBIN_NUMBER_OVER:
        return "a number of the list is above the limit, which is 4,294,967,295 plus the style's first number";
    default:
        return "not a number of this library";
    }
}
/* numbers.py: to here */

/* Takes a number and does nothing with it, for a refusal that does not matter. */
static inline void taxolbin_ignore(uint32_t number)
{
    (void)number;
}

/* The kinds of duty records, with the fields that each has; taxolbin_add_set and its kin, below, take just these. */
enum taxolbin_kind {
    TAXOLBIN_SET = 1,           /* p */
    TAXOLBIN_UNSET = 2,         /* p */
    TAXOLBIN_SET_REGION = 3,    /* p, k, flag (the value) */
    TAXOLBIN_SET_FIELD = 4,     /* p, value, width */
    TAXOLBIN_SHIFT = 5,         /* k, flag (0 left, else right) */
    TAXOLBIN_ROTATE = 6,        /* k, flag (0 left, else right) */
    TAXOLBIN_RESIZE_BITS = 7,   /* bits */
    TAXOLBIN_REVERSE = 8,       /* none */
    TAXOLBIN_TOGGLE_REGION = 9, /* p, k; edition 2 */
    TAXOLBIN_OPEN = 10,         /* p, k; edition 2 */
    TAXOLBIN_CLOSE = 11         /* p, k; edition 2 */
};

/* ---- Reading one bitmap ---- */

/* Whether bit i is set, 1 or 0; past the length it is 0. [1, 2] */
TAXOLBIN_MUST_USE uint32_t taxolbin_get(const uint64_t *words, size_t capacity, size_t count, size_t i, size_t *value);
/* The width bits from bit i on, the first one lowest; zeros past the length. [1, 2, 3] */
TAXOLBIN_MUST_USE uint32_t taxolbin_get_field(const uint64_t *words, size_t capacity, size_t count, size_t i, size_t width, uint64_t *value);
/* The least set bit. [1, 2] */
TAXOLBIN_MUST_USE uint32_t taxolbin_first_set(const uint64_t *words, size_t capacity, size_t count, size_t *found, size_t *place);
/* The greatest set bit. [1, 2] */
TAXOLBIN_MUST_USE uint32_t taxolbin_last_set(const uint64_t *words, size_t capacity, size_t count, size_t *found, size_t *place);
/* The least set bit from i on. [1, 2] */
TAXOLBIN_MUST_USE uint32_t taxolbin_next_set(const uint64_t *words, size_t capacity, size_t count, size_t i, size_t *found, size_t *place);
/* The set bit that has exactly rank set bits below it. [1, 2] */
TAXOLBIN_MUST_USE uint32_t taxolbin_select(const uint64_t *words, size_t capacity, size_t count, size_t rank, size_t *found, size_t *place);
/* The least clear bit; the length where all are set. [1, 2] */
TAXOLBIN_MUST_USE uint32_t taxolbin_first_clear(const uint64_t *words, size_t capacity, size_t count, size_t *value);
/* The least clear bit from i on; i itself past the length. [1, 2] */
TAXOLBIN_MUST_USE uint32_t taxolbin_next_clear(const uint64_t *words, size_t capacity, size_t count, size_t i, size_t *value);
/* How many bits are set. [1, 2] */
TAXOLBIN_MUST_USE uint32_t taxolbin_count_set_bits(const uint64_t *words, size_t capacity, size_t count, size_t *value);
/* How many bits within the length are clear. [1, 2] */
TAXOLBIN_MUST_USE uint32_t taxolbin_count_clear_bits(const uint64_t *words, size_t capacity, size_t count, size_t *value);
/* How many of the k bits from i on are set; it stops at the length. [1, 2] */
TAXOLBIN_MUST_USE uint32_t taxolbin_count_region(const uint64_t *words, size_t capacity, size_t count, size_t i, size_t k, size_t *value);
/* How many bits below i are set. [1, 2] */
TAXOLBIN_MUST_USE uint32_t taxolbin_rank(const uint64_t *words, size_t capacity, size_t count, size_t i, size_t *value);

/* ---- Reading two bitmaps: the other one is looked at after the first ---- */

/* Whether the words agree after trailing zero words are dropped, 1 or 0. Equal bitmaps may have different counts, and are then reversed and rotated
 * to different sets: see "The change sheet". [1, 2] */
TAXOLBIN_MUST_USE uint32_t taxolbin_eq(
    const uint64_t *words, size_t capacity, size_t count, const uint64_t *other, size_t ocapacity, size_t ocount, size_t *value);
/* Whether every set bit of the first is set in the other, 1 or 0. [1, 2] */
TAXOLBIN_MUST_USE uint32_t taxolbin_is_subset(
    const uint64_t *words, size_t capacity, size_t count, const uint64_t *other, size_t ocapacity, size_t ocount, size_t *value);
/* Whether no bit is set in both, 1 or 0. [1, 2] */
TAXOLBIN_MUST_USE uint32_t taxolbin_is_disjoint(
    const uint64_t *words, size_t capacity, size_t count, const uint64_t *other, size_t ocapacity, size_t ocount, size_t *value);
/* How many bits are set in both. [1, 2] */
TAXOLBIN_MUST_USE uint32_t taxolbin_and_count(
    const uint64_t *words, size_t capacity, size_t count, const uint64_t *other, size_t ocapacity, size_t ocount, size_t *value);
/* How many bits are set in either. [1, 2] */
TAXOLBIN_MUST_USE uint32_t taxolbin_or_count(
    const uint64_t *words, size_t capacity, size_t count, const uint64_t *other, size_t ocapacity, size_t ocount, size_t *value);
/* How many bits are set in one only. [1, 2] */
TAXOLBIN_MUST_USE uint32_t taxolbin_xor_count(
    const uint64_t *words, size_t capacity, size_t count, const uint64_t *other, size_t ocapacity, size_t ocount, size_t *value);
/* How many bits are set in the first only. [1, 2] */
TAXOLBIN_MUST_USE uint32_t taxolbin_andnot_count(
    const uint64_t *words, size_t capacity, size_t count, const uint64_t *other, size_t ocapacity, size_t ocount, size_t *value);
/* The least bit from i on that is set in both. [1, 2] */
TAXOLBIN_MUST_USE uint32_t taxolbin_iter_and(
    const uint64_t *words, size_t capacity, size_t count, const uint64_t *other, size_t ocapacity, size_t ocount, size_t i, size_t *found,
    size_t *place);
/* The least bit from i on that is set in either. [1, 2] */
TAXOLBIN_MUST_USE uint32_t taxolbin_iter_or(
    const uint64_t *words, size_t capacity, size_t count, const uint64_t *other, size_t ocapacity, size_t ocount, size_t i, size_t *found,
    size_t *place);
/* The least bit from i on that is set in one only. [1, 2] */
TAXOLBIN_MUST_USE uint32_t taxolbin_iter_xor(
    const uint64_t *words, size_t capacity, size_t count, const uint64_t *other, size_t ocapacity, size_t ocount, size_t i, size_t *found,
    size_t *place);
/* The least bit from i on that is set in the first only. [1, 2] */
TAXOLBIN_MUST_USE uint32_t taxolbin_iter_andnot(
    const uint64_t *words, size_t capacity, size_t count, const uint64_t *other, size_t ocapacity, size_t ocount, size_t i, size_t *found,
    size_t *place);

/* ---- Changes within the length: the count stays ---- */

/* Writes the low width bits of the value from bit i on; 5 where one of them is past the length. Width 0 does nothing. [1, 2, 3, 5] */
TAXOLBIN_MUST_USE uint32_t taxolbin_set_field_strict(uint64_t *words, size_t capacity, size_t *count, size_t i, uint64_t value, size_t width);
/* Flips bit i; 5 past the length. [1, 2, 5] */
TAXOLBIN_MUST_USE uint32_t taxolbin_slice_toggle(uint64_t *words, size_t capacity, size_t *count, size_t i);
/* Flips every bit within the length. [1, 2] */
TAXOLBIN_MUST_USE uint32_t taxolbin_invert(uint64_t *words, size_t capacity, size_t *count);
/* Mirrors the bits within the length. [1, 2] */
TAXOLBIN_MUST_USE uint32_t taxolbin_reverse(uint64_t *words, size_t capacity, size_t *count);
/* Moves every bit k up; bits pushed out are lost. [1, 2] */
TAXOLBIN_MUST_USE uint32_t taxolbin_slice_shift_left(uint64_t *words, size_t capacity, size_t *count, size_t k);
/* Moves every bit k down; bits pushed out are lost. [1, 2] */
TAXOLBIN_MUST_USE uint32_t taxolbin_slice_shift_right(uint64_t *words, size_t capacity, size_t *count, size_t k);
/* Turns all bits of the length k up. [1, 2] */
TAXOLBIN_MUST_USE uint32_t taxolbin_rotate_left(uint64_t *words, size_t capacity, size_t *count, size_t k);
/* Turns all bits of the length k down. [1, 2] */
TAXOLBIN_MUST_USE uint32_t taxolbin_rotate_right(uint64_t *words, size_t capacity, size_t *count, size_t k);

/* ---- Changes that may grow or trim the bitmap ---- */

/* Drops trailing zero words. [1, 2] */
TAXOLBIN_MUST_USE uint32_t taxolbin_trim(const uint64_t *words, size_t capacity, size_t *count);
/* Sets bit i. [1, 2, 6] */
TAXOLBIN_MUST_USE uint32_t taxolbin_set(uint64_t *words, size_t capacity, size_t *count, size_t i);
/* Clears bit i; never grows. [1, 2] */
TAXOLBIN_MUST_USE uint32_t taxolbin_unset(uint64_t *words, size_t capacity, size_t *count, size_t i);
/* Sets every listed bit, or none where one has no space. [1, 2, 6] */
TAXOLBIN_MUST_USE uint32_t taxolbin_set_many(uint64_t *words, size_t capacity, size_t *count, const size_t *bits, size_t length);
/* Sets the k bits from i on; clears them, and never grows, where the value is 0. k 0 does nothing. [1, 2, 4, 6] */
TAXOLBIN_MUST_USE uint32_t taxolbin_set_region(uint64_t *words, size_t capacity, size_t *count, size_t i, uint32_t value, size_t k);
/* Writes the low width bits of the value from bit i on; zeros never grow. Width 0 does nothing. [1, 2, 3, 4, 6] */
TAXOLBIN_MUST_USE uint32_t taxolbin_set_field(uint64_t *words, size_t capacity, size_t *count, size_t i, uint64_t value, size_t width);
/* Clears the other 63 bits of the word of bit i; never grows. Trims where that word is the last and is then zero. [1, 2] */
TAXOLBIN_MUST_USE uint32_t taxolbin_andi(uint64_t *words, size_t capacity, size_t *count, size_t i);
/* Clears bit i; never grows. Trims likewise. [1, 2] */
TAXOLBIN_MUST_USE uint32_t taxolbin_andnoti(uint64_t *words, size_t capacity, size_t *count, size_t i);
/* Flips bit i. Trims likewise. [1, 2, 6] */
TAXOLBIN_MUST_USE uint32_t taxolbin_xori(uint64_t *words, size_t capacity, size_t *count, size_t i);
/* Flips bit i. [1, 2, 6] */
TAXOLBIN_MUST_USE uint32_t taxolbin_toggle(uint64_t *words, size_t capacity, size_t *count, size_t i);
/* Flips the k bits from i on. k 0 does nothing. [1, 2, 4, 6] */
TAXOLBIN_MUST_USE uint32_t taxolbin_toggle_region(uint64_t *words, size_t capacity, size_t *count, size_t i, size_t k);
/* Moves every bit k up. With no bit set it does nothing. [1, 2, 4, 6] */
TAXOLBIN_MUST_USE uint32_t taxolbin_shift_left(uint64_t *words, size_t capacity, size_t *count, size_t k);
/* Moves every bit k down and trims. [1, 2] */
TAXOLBIN_MUST_USE uint32_t taxolbin_shift_right(uint64_t *words, size_t capacity, size_t *count, size_t k);
/* Clears the bits from k on and trims. [1, 2] */
TAXOLBIN_MUST_USE uint32_t taxolbin_truncate_bits(uint64_t *words, size_t capacity, size_t *count, size_t k);
/* Clears the bits from k on; the count becomes the words that k bits need. [1, 2, 6] */
TAXOLBIN_MUST_USE uint32_t taxolbin_resize_bits(uint64_t *words, size_t capacity, size_t *count, size_t k);
/* Puts the other bitmap behind the words in use. [1, 2, 6] */
TAXOLBIN_MUST_USE uint32_t taxolbin_append(uint64_t *words, size_t capacity, size_t *count, const uint64_t *other, size_t ocapacity, size_t ocount);
/* Moves the bits from at on into the tail, from its bit 0 on; both are trimmed. The tail has no earlier count, and a refusal makes *tcount 0. [1,
 * 2, 6] */
TAXOLBIN_MUST_USE uint32_t taxolbin_split_off(
    uint64_t *words, size_t capacity, size_t *count, size_t at, uint64_t *tail, size_t tcapacity, size_t *tcount);
/* Opens k clear places at bit p: the bits from p on move up; trims. [1, 2, 4, 6] */
TAXOLBIN_MUST_USE uint32_t taxolbin_open_gap(uint64_t *words, size_t capacity, size_t *count, size_t p, size_t k);
/* Closes the k places from bit p on: the bits behind them move down; trims. [1, 2] */
TAXOLBIN_MUST_USE uint32_t taxolbin_close_gap(uint64_t *words, size_t capacity, size_t *count, size_t p, size_t k);

/* ---- Set operations, in place with another bitmap ---- */

/* Keeps the bits that are set in both, and trims. [1, 2] */
TAXOLBIN_MUST_USE uint32_t taxolbin_and(uint64_t *words, size_t capacity, size_t *count, const uint64_t *other, size_t ocapacity, size_t ocount);
/* Clears the bits that are set in the other, and trims. [1, 2] */
TAXOLBIN_MUST_USE uint32_t taxolbin_andnot(uint64_t *words, size_t capacity, size_t *count, const uint64_t *other, size_t ocapacity, size_t ocount);
/* Sets the bits that are set in the other; as many words as the longer. [1, 2, 6] */
TAXOLBIN_MUST_USE uint32_t taxolbin_or(uint64_t *words, size_t capacity, size_t *count, const uint64_t *other, size_t ocapacity, size_t ocount);
/* Keeps the bits that are set in one only, and trims. [1, 2, 6] */
TAXOLBIN_MUST_USE uint32_t taxolbin_xor(uint64_t *words, size_t capacity, size_t *count, const uint64_t *other, size_t ocapacity, size_t ocount);

/* ---- Set operations of two bitmaps into a third store, whose earlier set is discarded ---- */

/* The bits that are set in both, trimmed. [1, 2, 6] */
TAXOLBIN_MUST_USE uint32_t taxolbin_and_from(
    uint64_t *words, size_t capacity, size_t *count, const uint64_t *left, size_t lcapacity, size_t lcount, const uint64_t *right, size_t rcapacity,
    size_t rcount);
/* The bits that are set in the left only, trimmed. [1, 2, 6] */
TAXOLBIN_MUST_USE uint32_t taxolbin_andnot_from(
    uint64_t *words, size_t capacity, size_t *count, const uint64_t *left, size_t lcapacity, size_t lcount, const uint64_t *right, size_t rcapacity,
    size_t rcount);
/* The bits that are set in either; as many words as the longer. [1, 2, 6] */
TAXOLBIN_MUST_USE uint32_t taxolbin_or_from(
    uint64_t *words, size_t capacity, size_t *count, const uint64_t *left, size_t lcapacity, size_t lcount, const uint64_t *right, size_t rcapacity,
    size_t rcount);
/* The bits that are set in one only, trimmed. [1, 2, 6] */
TAXOLBIN_MUST_USE uint32_t taxolbin_xor_from(
    uint64_t *words, size_t capacity, size_t *count, const uint64_t *left, size_t lcapacity, size_t lcount, const uint64_t *right, size_t rcapacity,
    size_t rcount);

/* ---- The same into a store with no earlier count: what *count holds is not read, and a refusal makes it 0 ---- */

/* The bits that are set in both, trimmed. [1, 2, 6] */
TAXOLBIN_MUST_USE uint32_t taxolbin_dup_and(
    uint64_t *words, size_t capacity, size_t *count, const uint64_t *left, size_t lcapacity, size_t lcount, const uint64_t *right, size_t rcapacity,
    size_t rcount);
/* The bits that are set in the left only, trimmed. [1, 2, 6] */
TAXOLBIN_MUST_USE uint32_t taxolbin_dup_andnot(
    uint64_t *words, size_t capacity, size_t *count, const uint64_t *left, size_t lcapacity, size_t lcount, const uint64_t *right, size_t rcapacity,
    size_t rcount);
/* The bits that are set in either; as many words as the longer. [1, 2, 6] */
TAXOLBIN_MUST_USE uint32_t taxolbin_dup_or(
    uint64_t *words, size_t capacity, size_t *count, const uint64_t *left, size_t lcapacity, size_t lcount, const uint64_t *right, size_t rcapacity,
    size_t rcount);
/* The bits that are set in one only, trimmed. [1, 2, 6] */
TAXOLBIN_MUST_USE uint32_t taxolbin_dup_xor(
    uint64_t *words, size_t capacity, size_t *count, const uint64_t *left, size_t lcapacity, size_t lcount, const uint64_t *right, size_t rcapacity,
    size_t rcount);

/* ---- List text, such as 0-3, 5-7, 11 ----
 *
 * An empty bitmap prints no text (length 0), and a text of no bytes, or of blanks alone, is no list (7). A book that is kept as its list is loaded by
 * taxolbin_load_list, which takes that too. A list does not carry the count: what is read has the words up to its last member, and no more.
 * Nor does it carry its style: read with another first number it gives other bits, mostly without a refusal.
 *
 * The last four arguments are the style, which says how a publisher writes a list:
 *
 * - first, 0 to 1,000: a number of the text is a bit plus first. A number below first is no list.
 * - joiner, the byte between the two numbers of a range: 33 to 126, but no comma (44) and no digit (48 to 57). A value
 *   over 255 is refused too, and not cut to a byte.
 * - blank, a truth value: whether a blank (byte 32) is printed after a comma. In reading, blanks (bytes 9 to 13 and 32)
 *   may stand around numbers in every style.
 * - shortest, 2 to 9: a run of at least so many numbers is printed as a range, a shorter one number by number. In reading, any range may stand.
 *
 * Any other style is refused with 15, whatever the text, the bitmap or the buffer is. To look at a style alone: taxolbin_write_list of a count of 0
 * into 0 bytes is 0 or 15. */

/* The plain style, in which 0-3, 5-7, 11 is written, as the last four arguments of a call. */
#define TAXOLBIN_PLAIN 0, '-', 1, 2

/* The bitmap becomes the set of the list; the earlier set is discarded. A text of no bytes is 7. A number is at most 4,294,967,295 plus first: a
 * larger one of digits only is 16, and what else is no list is 7, a range of two good numbers that falls too. The first token (a number or a range
 * between commas) that is wrong decides, its left number before its right, so a text gets one of the two. [1, 2, 15, 8, 7 or 16, 6] */
TAXOLBIN_MUST_USE uint32_t taxolbin_from_list(
    uint64_t *words, size_t capacity, size_t *count, const uint8_t *list, size_t length, size_t first, size_t joiner, uint32_t blank,
    size_t shortest);
/* Prints the list to the front of the buffer and hands out its length, 0 for an empty bitmap; no zero byte follows. 12 bytes for each set bit are
 * always enough, in every style. [1, 2, 15, 6] */
TAXOLBIN_MUST_USE uint32_t taxolbin_write_list(
    const uint64_t *words, size_t capacity, size_t count, uint8_t *out, size_t size, size_t *length, size_t first, size_t joiner, uint32_t blank,
    size_t shortest);

/* As taxolbin_from_list, but a text of no bytes, or of blanks alone (bytes 9 to 13 and 32), is the empty bitmap: it takes whatever
 * taxolbin_write_list has printed in the same style, given space, also with a line end behind it. [1, 2, 15, 8, 7 or 16, 6] */
TAXOLBIN_MUST_USE static inline uint32_t taxolbin_load_list(
    uint64_t *words, size_t capacity, size_t *count, const uint8_t *list, size_t length, size_t first, size_t joiner, uint32_t blank,
    size_t shortest)
{
    const uint32_t number = taxolbin_from_list(words, capacity, count, list, length, first, joiner, blank, shortest);
    size_t i = 0;
    while (i < length && (list[i] == 32 || (list[i] >= 9 && list[i] <= 13))) {
        i++;
    }
    return i == length && number == TAXOLBIN_NOT_LIST ? taxolbin_resize_bits(words, capacity, count, 0) : number;
}

/* ---- The printed register ----
 *
 * For marking up paper: pages of 50 lines, each line 72 bytes and a line end (byte 10). A line holds one maximal run of set bits, upward: its first
 * bit, its last and its size, each right-aligned in 12 bytes; the other 36 are blanks (byte 32). Line 50 holds in the same columns the number of the
 * page, from 1, the number of pages, and the count of all set bits. A page begins only where the last has 49 runs and one more is left, lines without
 * a run are blank, and an empty bitmap has one page. A bit is printed as it is: no style and no first number play a part. */

/* The bytes of a page. */
#define TAXOLBIN_REGISTER_PAGE UINT64_C(3650)

/* Prints the register to the front of the buffer and hands out its length; no zero byte follows. One page, and one more for each 49 set bits, are
 * always enough. {7} is 7, 7, 1 on line 1 and 1, 1, 1 on line 50. [1, 2, 6] */
TAXOLBIN_MUST_USE uint32_t taxolbin_write_register(const uint64_t *words, size_t capacity, size_t count, uint8_t *out, size_t size, size_t *length);

/* ---- The change sheet ----
 *
 * A reversal and a rotation turn all 64 * count bits, so of equal bitmaps with different counts they make different sets: the notes {4} reversed are
 * {59} with one word and {123} with two. Before such a record, bring the bitmap to the book's length in bits on both sides, the writer's and the
 * reader's: by taxolbin_resize_bits, or by a record of taxolbin_add_resize_bits in the sheet, which does it wherever the sheet is read. */

/* Reads a sheet in edition 1 or 2: the old bitmap, changed by the sheet, into the result, which is another store. Hands out the record (the refused
 * one, 0 where it is none's fault, or how many there are) and the result's count, 0 after every refusal. A refusal with 14, 1 or 2 leaves the
 * result's words as they were, any other leaves all of them zero. [14, 1, 2, 9, 6, 10, 13, 12, 11] */
TAXOLBIN_MUST_USE uint32_t taxolbin_read(
    size_t edition, const uint8_t *sheet, size_t length, const uint64_t *words, size_t capacity, size_t count, uint64_t *result, size_t rcapacity,
    size_t *record, size_t *rcount);
/* Starts a sheet of no records in the buffer; *length becomes 4, and stays where this is refused. [6] */
TAXOLBIN_MUST_USE uint32_t taxolbin_start(uint8_t *buffer, size_t size, size_t *length);
/* Adds a record of any kind at the end of the sheet, the first *length bytes of the buffer: a duty record of a kind 1 to 11, or, where duty is 0, a
 * remark of a kind 0 to 127 with this payload. Arguments that the kind lacks are not looked at, so one in the wrong place makes another record: the
 * calls below take what their kind has and nothing else. Of the sheet that is there the frames are looked at, not kinds and payloads. [2, 9, 10, 11,
 * 13, 3, 4, 12, 6] */
TAXOLBIN_MUST_USE uint32_t taxolbin_add(
    uint8_t *buffer, size_t size, size_t *length, uint32_t duty, size_t kind, uint32_t p, uint32_t k, uint32_t flag, size_t width, uint64_t value,
    size_t bits, const uint8_t *payload, size_t plength);

/* ---- One record at the end of the sheet, a call for each kind ----
 *
 * p is a bit and k an amount, both of 32 bits; -Wconversion shows where a longer number is cut to one. A kind with a direction or a truth value has a
 * call for either. */

/* Sets bit p. [2, 9, 10, 11, 6] */
TAXOLBIN_MUST_USE static inline uint32_t taxolbin_add_set(uint8_t *buffer, size_t size, size_t *length, uint32_t p)
{
    const uint8_t none = 0;
    return taxolbin_add(buffer, size, length, 1, TAXOLBIN_SET, p, 0, 0, 0, 0, 0, &none, 0);
}

/* Clears bit p. [2, 9, 10, 11, 6] */
TAXOLBIN_MUST_USE static inline uint32_t taxolbin_add_unset(uint8_t *buffer, size_t size, size_t *length, uint32_t p)
{
    const uint8_t none = 0;
    return taxolbin_add(buffer, size, length, 1, TAXOLBIN_UNSET, p, 0, 0, 0, 0, 0, &none, 0);
}

/* Sets the k bits from p on. [2, 9, 10, 11, 6] */
TAXOLBIN_MUST_USE static inline uint32_t taxolbin_add_set_region(uint8_t *buffer, size_t size, size_t *length, uint32_t p, uint32_t k)
{
    const uint8_t none = 0;
    return taxolbin_add(buffer, size, length, 1, TAXOLBIN_SET_REGION, p, k, 1, 0, 0, 0, &none, 0);
}

/* Clears the k bits from p on. [2, 9, 10, 11, 6] */
TAXOLBIN_MUST_USE static inline uint32_t taxolbin_add_unset_region(uint8_t *buffer, size_t size, size_t *length, uint32_t p, uint32_t k)
{
    const uint8_t none = 0;
    return taxolbin_add(buffer, size, length, 1, TAXOLBIN_SET_REGION, p, k, 0, 0, 0, 0, &none, 0);
}

/* Writes the low width bits of the value from bit p on, as taxolbin_set_field does. [2, 9, 10, 11, 3, 6] */
TAXOLBIN_MUST_USE static inline uint32_t taxolbin_add_set_field(
    uint8_t *buffer, size_t size, size_t *length, uint32_t p, uint64_t value, size_t width)
{
    const uint8_t none = 0;
    return taxolbin_add(buffer, size, length, 1, TAXOLBIN_SET_FIELD, p, 0, 0, width, value, 0, &none, 0);
}

/* Moves every bit k up. [2, 9, 10, 11, 6] */
TAXOLBIN_MUST_USE static inline uint32_t taxolbin_add_shift_left(uint8_t *buffer, size_t size, size_t *length, uint32_t k)
{
    const uint8_t none = 0;
    return taxolbin_add(buffer, size, length, 1, TAXOLBIN_SHIFT, 0, k, 0, 0, 0, 0, &none, 0);
}

/* Moves every bit k down. [2, 9, 10, 11, 6] */
TAXOLBIN_MUST_USE static inline uint32_t taxolbin_add_shift_right(uint8_t *buffer, size_t size, size_t *length, uint32_t k)
{
    const uint8_t none = 0;
    return taxolbin_add(buffer, size, length, 1, TAXOLBIN_SHIFT, 0, k, 1, 0, 0, 0, &none, 0);
}

/* Turns all 64 * count bits k up. [2, 9, 10, 11, 6] */
TAXOLBIN_MUST_USE static inline uint32_t taxolbin_add_rotate_left(uint8_t *buffer, size_t size, size_t *length, uint32_t k)
{
    const uint8_t none = 0;
    return taxolbin_add(buffer, size, length, 1, TAXOLBIN_ROTATE, 0, k, 0, 0, 0, 0, &none, 0);
}

/* Turns all 64 * count bits k down. [2, 9, 10, 11, 6] */
TAXOLBIN_MUST_USE static inline uint32_t taxolbin_add_rotate_right(uint8_t *buffer, size_t size, size_t *length, uint32_t k)
{
    const uint8_t none = 0;
    return taxolbin_add(buffer, size, length, 1, TAXOLBIN_ROTATE, 0, k, 1, 0, 0, 0, &none, 0);
}

/* Clears the bits from the given one on; the count becomes the words that so many bits need. At most TAXOLBIN_RESIZE_MAX.
 * [2, 9, 10, 11, 4, 6] */
TAXOLBIN_MUST_USE static inline uint32_t taxolbin_add_resize_bits(uint8_t *buffer, size_t size, size_t *length, size_t bits)
{
    const uint8_t none = 0;
    return taxolbin_add(buffer, size, length, 1, TAXOLBIN_RESIZE_BITS, 0, 0, 0, 0, 0, bits, &none, 0);
}

/* Mirrors all 64 * count bits. [2, 9, 10, 11, 6] */
TAXOLBIN_MUST_USE static inline uint32_t taxolbin_add_reverse(uint8_t *buffer, size_t size, size_t *length)
{
    const uint8_t none = 0;
    return taxolbin_add(buffer, size, length, 1, TAXOLBIN_REVERSE, 0, 0, 0, 0, 0, 0, &none, 0);
}

/* Flips the k bits from p on; edition 2. [2, 9, 10, 11, 6] */
TAXOLBIN_MUST_USE static inline uint32_t taxolbin_add_toggle_region(uint8_t *buffer, size_t size, size_t *length, uint32_t p, uint32_t k)
{
    const uint8_t none = 0;
    return taxolbin_add(buffer, size, length, 1, TAXOLBIN_TOGGLE_REGION, p, k, 0, 0, 0, 0, &none, 0);
}

/* Opens k clear places at bit p; edition 2. [2, 9, 10, 11, 6] */
TAXOLBIN_MUST_USE static inline uint32_t taxolbin_add_open(uint8_t *buffer, size_t size, size_t *length, uint32_t p, uint32_t k)
{
    const uint8_t none = 0;
    return taxolbin_add(buffer, size, length, 1, TAXOLBIN_OPEN, p, k, 0, 0, 0, 0, &none, 0);
}

/* Closes the k places from bit p on; edition 2. [2, 9, 10, 11, 6] */
TAXOLBIN_MUST_USE static inline uint32_t taxolbin_add_close(uint8_t *buffer, size_t size, size_t *length, uint32_t p, uint32_t k)
{
    const uint8_t none = 0;
    return taxolbin_add(buffer, size, length, 1, TAXOLBIN_CLOSE, p, k, 0, 0, 0, 0, &none, 0);
}

/* A remark of a kind 0 to 127, which changes nothing; its payload has n bytes, at most TAXOLBIN_PAYLOAD_MAX. [2, 9, 10, 11, 13, 12, 6] */
TAXOLBIN_MUST_USE static inline uint32_t taxolbin_add_remark(
    uint8_t *buffer, size_t size, size_t *length, size_t kind, const uint8_t *payload, size_t n)
{
    return taxolbin_add(buffer, size, length, 0, kind, 0, 0, 0, 0, 0, 0, payload, n);
}

#ifdef __cplusplus
}
#endif

#endif
