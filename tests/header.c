/* The header's own functions, in what C and C++ have in common: the bytes of each kind's record, typed from the table of document 01, refusals, the
 * numbers in words, an empty book, styles of list text, huge numbers in a list, registers, and equal bitmaps of different counts. With an argument it
 * prints the numbers in words and nothing else. */
#include <stdio.h>
#include <stdlib.h>
#include <string.h>
#include <taxolbin.h>

enum { SIZE = 64, LINE = 73, PAGE = TAXOLBIN_REGISTER_PAGE };

static int wrong = 0;

static void is(const char *what, size_t got, size_t expected)
{
    if (got != expected) {
        wrong = 1;
        printf("%s: %zu, not %zu\n", what, got, expected);
    }
}

static uint8_t buffer[SIZE];
static size_t length;

static uint8_t *fresh(void)
{
    memset(buffer, 0xEE, SIZE);
    is("start", taxolbin_start(buffer, SIZE, &length), 0);
    return buffer;
}

/* The sheet of one record, in hexadecimal. */
static void record(const char *what, uint32_t number, const char *expected)
{
    char hex[2 * SIZE + 1] = "";
    size_t i;
    is(what, number, 0);
    for (i = 0; i < length; i++) {
        sprintf(hex + 2 * i, "%02X", (unsigned)buffer[i]);
    }
    if (strncmp(hex, "4E530001", 8) != 0 || strcmp(hex + 8, expected) != 0) {
        wrong = 1;
        printf("%s: %s, not 4E530001%s\n", what, hex, expected);
    }
}

static void records(void)
{
    static const uint8_t hi[] = {'h', 'i'};
    record("set", taxolbin_add_set(fresh(), SIZE, &length, 7), "81000400000007");
    record("unset", taxolbin_add_unset(fresh(), SIZE, &length, 0x01020304), "82000401020304");
    record("set_region", taxolbin_add_set_region(fresh(), SIZE, &length, 1, 2), "830009800000008000000100");
    record("unset_region", taxolbin_add_unset_region(fresh(), SIZE, &length, 1, 2), "830009000000008000000100");
    record("set_field", taxolbin_add_set_field(fresh(), SIZE, &length, 3, 0x8000000000000005, 64), "84000D0000000381000000000000000A");
    record("set_field", taxolbin_add_set_field(fresh(), SIZE, &length, 3, 6, 2), "84000D0000000304000000000000000C");
    record("shift_left", taxolbin_add_shift_left(fresh(), SIZE, &length, 3), "8500050000000180");
    record("shift_right", taxolbin_add_shift_right(fresh(), SIZE, &length, 3), "8500058000000180");
    record("rotate_left", taxolbin_add_rotate_left(fresh(), SIZE, &length, 3), "8600050000000180");
    record("rotate_right", taxolbin_add_rotate_right(fresh(), SIZE, &length, 3), "8600058000000180");
    record("resize_bits", taxolbin_add_resize_bits(fresh(), SIZE, &length, 100), "8700050000003200");
    record("resize_bits", taxolbin_add_resize_bits(fresh(), SIZE, &length, TAXOLBIN_RESIZE_MAX), "8700058000000000");
    record("reverse", taxolbin_add_reverse(fresh(), SIZE, &length), "880000");
    record("toggle_region", taxolbin_add_toggle_region(fresh(), SIZE, &length, 5, 2), "8900080000000500000002");
    record("open", taxolbin_add_open(fresh(), SIZE, &length, 5, 2), "8A00080000000500000002");
    record("close", taxolbin_add_close(fresh(), SIZE, &length, 5, 2), "8B00080000000500000002");
    record("remark", taxolbin_add_remark(fresh(), SIZE, &length, 1, hi, 2), "0100026869");
    record("remark", taxolbin_add_remark(fresh(), SIZE, &length, 127, hi, 0), "7F0000");
}

static void refusals(void)
{
    static const uint8_t payload[TAXOLBIN_PAYLOAD_MAX + 1] = {0};
    is("a width of 65", taxolbin_add_set_field(fresh(), SIZE, &length, 3, 1, 65), TAXOLBIN_WIDTH_OVER);
    is("a long resize", taxolbin_add_resize_bits(fresh(), SIZE, &length, TAXOLBIN_RESIZE_MAX + 1), TAXOLBIN_INDEX_OVER);
    is("remark 128", taxolbin_add_remark(fresh(), SIZE, &length, 128, payload, 0), TAXOLBIN_NEWER_KIND);
    is("a long remark", taxolbin_add_remark(fresh(), SIZE, &length, 1, payload, sizeof payload), TAXOLBIN_BAD_PAYLOAD);
    is("no space", taxolbin_add_set(fresh(), 10, &length, 7), TAXOLBIN_NO_SPACE);
    is("the length after refusals", length, 4);
    memset(buffer, 0, SIZE);
    is("no sheet", taxolbin_add_reverse(buffer, SIZE, &length), TAXOLBIN_NOT_SHEET);
}

static void empty_book(void)
{
    static const uint8_t list[] = {'4', ',', ' ', '7', '-', '8'};
    static const uint8_t line[] = {'4', 10}, blanks[] = {9, 10, 11, 12, 13, 32}, none[] = {8, 14};
    uint64_t words[2] = {0, 0};
    uint8_t text[1] = {'x'};
    size_t count = 0, n = 9;
    is("an empty book is printed", taxolbin_write_list(words, 2, count, text, 0, &n, TAXOLBIN_PLAIN), 0);
    is("its length", n, 0);
    is("its text read", taxolbin_from_list(words, 2, &count, text, n, TAXOLBIN_PLAIN), TAXOLBIN_NOT_LIST);
    is("a list loaded", taxolbin_load_list(words, 2, &count, list, sizeof list, TAXOLBIN_PLAIN), 0);
    is("its words", words[0], 0x190);
    is("its count", count, 1);
    is("an empty book loaded", taxolbin_load_list(words, 2, &count, text, n, TAXOLBIN_PLAIN), 0);
    is("its words", words[0], 0);
    is("its count", count, 0);
    is("a list with a line end", taxolbin_load_list(words, 2, &count, line, sizeof line, TAXOLBIN_PLAIN), 0);
    is("its words", words[0], 0x10);
    is("an empty book with a line end", taxolbin_load_list(words, 2, &count, line + 1, 1, TAXOLBIN_PLAIN), 0);
    is("its count", count, 0);
    is("all blanks", taxolbin_load_list(words, 2, &count, blanks, sizeof blanks, TAXOLBIN_PLAIN), 0);
    is("no blank", taxolbin_load_list(words, 2, &count, none, 1, TAXOLBIN_PLAIN), TAXOLBIN_NOT_LIST);
    is("no blank", taxolbin_load_list(words, 2, &count, none + 1, 1, TAXOLBIN_PLAIN), TAXOLBIN_NOT_LIST);
    is("a text that is no list", taxolbin_load_list(words, 2, &count, text, 1, TAXOLBIN_PLAIN), TAXOLBIN_NOT_LIST);
    count = 3;
    is("a count over the store", taxolbin_load_list(words, 2, &count, text, 0, TAXOLBIN_PLAIN), TAXOLBIN_COUNT_OVER_STORE);
}

/* What a style makes of the notes {4, 5, 7, 8, 9}, and that it is read back. */
static void printed(const char *expected, size_t first, size_t joiner, uint32_t blank, size_t shortest)
{
    static const uint64_t notes[2] = {0x3B0, 0};
    uint64_t words[2] = {0, 7};
    uint8_t text[SIZE];
    size_t n = 9, count = 0;
    memset(text, 'x', SIZE);
    is(expected, taxolbin_write_list(notes, 2, 2, text, strlen(expected), &n, first, joiner, blank, shortest), 0);
    is("its length", n, strlen(expected));
    if (memcmp(text, expected, strlen(expected)) != 0 || text[strlen(expected)] != 'x') {
        wrong = 1;
        printf("%.*s, not %s\n", SIZE, (const char *)text, expected);
    }
    is("read back", taxolbin_from_list(words, 2, &count, text, n, first, joiner, blank, shortest), 0);
    is("its words", words[0], notes[0]);
    is("the word behind", words[1], 7);
    is("its count", count, 1);
    is("a byte short", taxolbin_write_list(notes, 2, 2, text, strlen(expected) - 1, &n, first, joiner, blank, shortest), TAXOLBIN_NO_SPACE);
    is("its length", n, 0);
}

/* Every call refuses the style, whatever else is wrong but 2. */
static void refused(const char *what, size_t first, size_t joiner, uint32_t blank, size_t shortest)
{
    static const uint8_t texts[] = {'1', 'x', 0xFF, 32};
    uint64_t words[2] = {0x3B0, 7};
    uint8_t text[SIZE];
    size_t i, n, count = 1, over = 3;
    memset(text, 'x', SIZE);
    for (i = 0; i < sizeof texts; i++) {
        is(what, taxolbin_from_list(words, 2, &count, texts + i, 1, first, joiner, blank, shortest), TAXOLBIN_BAD_STYLE);
        is(what, taxolbin_load_list(words, 2, &count, texts + i, 1, first, joiner, blank, shortest), TAXOLBIN_BAD_STYLE);
    }
    is(what, taxolbin_from_list(words, 2, &count, texts, 0, first, joiner, blank, shortest), TAXOLBIN_BAD_STYLE);
    is(what, taxolbin_load_list(words, 2, &count, texts, 0, first, joiner, blank, shortest), TAXOLBIN_BAD_STYLE);
    is(what, taxolbin_load_list(words, 2, &over, texts, 0, first, joiner, blank, shortest), TAXOLBIN_COUNT_OVER_STORE);
    for (i = 0; i < 2; i++) {
        n = 9;
        is(what, taxolbin_write_list(words, 2, i, text, SIZE, &n, first, joiner, blank, shortest), TAXOLBIN_BAD_STYLE);
        is("its length", n, 0);
        is(what, taxolbin_write_list(words, 2, i, text, 0, &n, first, joiner, blank, shortest), TAXOLBIN_BAD_STYLE);
    }
    is("the words", words[0] == 0x3B0 && words[1] == 7, 1);
    is("the count", count, 1);
    is("the text", text[0], 'x');
}

static void styles(void)
{
    printed("4-5, 7-9", TAXOLBIN_PLAIN);
    printed("4-5, 7-9", 0, 45, 1, 2);
    printed("5, 6, 8:10", 1, ':', 1, 3);
    printed("4-5, 7-9", 0, '-', 2, 2);
    printed("4-5, 7-9", 0, '-', UINT32_C(1) << 31, 2);
    printed("4-5,7-9", 0, '-', 0, 2);
    printed("1004,1005,1007,1008,1009", 1000, '~', 0, 9);
    refused("joiner 256 + 45", 0, 256 + 45, 1, 2);
    refused("joiner SIZE_MAX", 0, SIZE_MAX, 1, 2);
    refused("a comma", 0, ',', 1, 2);
    refused("a digit", 0, '0', 1, 2);
    refused("a blank", 0, ' ', 1, 2);
    refused("first 1001", 1001, '-', 1, 2);
    refused("first SIZE_MAX", SIZE_MAX, '-', 1, 2);
    refused("shortest 1", 0, '-', 1, 1);
    refused("shortest 10", 0, '-', 0, 10);
    refused("shortest SIZE_MAX", 0, '-', 0, SIZE_MAX);
}

/* An empty book of a house is loaded in its style. */
static void empty_house(void)
{
    static const uint8_t line[] = {'1', ':', '3', 10}, plain[] = {'1', '-', '3'};
    uint64_t words[2] = {0, 0};
    size_t count = 0;
    is("a house's list", taxolbin_load_list(words, 2, &count, line, sizeof line, 1, ':', 0, 3), 0);
    is("its words", words[0], 7);
    is("another's list", taxolbin_load_list(words, 2, &count, plain, sizeof plain, 1, ':', 0, 3), TAXOLBIN_NOT_LIST);
    is("its count", count, 1);
    is("a house's empty book", taxolbin_load_list(words, 2, &count, line + 3, 1, 1, ':', 0, 3), 0);
    is("its words", words[0], 0);
    is("its count", count, 0);
}

/* A text that is refused with this number by both calls, and changes nothing. */
static void list_refused(const char *text, uint32_t number, size_t first, size_t joiner, uint32_t blank, size_t shortest)
{
    const uint8_t *bytes = (const uint8_t *)text;
    uint64_t words[2] = {0x3B0, 7};
    size_t count = 1;
    is(text, taxolbin_from_list(words, 2, &count, bytes, strlen(text), first, joiner, blank, shortest), number);
    is(text, taxolbin_load_list(words, 2, &count, bytes, strlen(text), first, joiner, blank, shortest), number);
    is("the words", words[0] == 0x3B0 && words[1] == 7, 1);
    is("the count", count, 1);
}

/* A huge number is told from a slip of the finger: the first token that is wrong decides, its left number before its right. */
static void huge_numbers(void)
{
    list_refused("4294967295", TAXOLBIN_NO_SPACE, TAXOLBIN_PLAIN);
    list_refused("4294967296", TAXOLBIN_NUMBER_OVER, TAXOLBIN_PLAIN);
    list_refused("4294967296\n", TAXOLBIN_NUMBER_OVER, TAXOLBIN_PLAIN);
    list_refused("4294967296x", TAXOLBIN_NOT_LIST, TAXOLBIN_PLAIN);
    list_refused("4294967296 5", TAXOLBIN_NOT_LIST, TAXOLBIN_PLAIN);
    list_refused("4294967296-x", TAXOLBIN_NUMBER_OVER, TAXOLBIN_PLAIN);
    list_refused("x-4294967296", TAXOLBIN_NOT_LIST, TAXOLBIN_PLAIN);
    list_refused("4294967297-4294967296", TAXOLBIN_NUMBER_OVER, TAXOLBIN_PLAIN);
    list_refused("4294967295-4294967294", TAXOLBIN_NOT_LIST, TAXOLBIN_PLAIN);
    list_refused("4294967296,x", TAXOLBIN_NUMBER_OVER, TAXOLBIN_PLAIN);
    list_refused("x,4294967296", TAXOLBIN_NOT_LIST, TAXOLBIN_PLAIN);
    list_refused("18446744073709551621", TAXOLBIN_NUMBER_OVER, TAXOLBIN_PLAIN);
    list_refused("4294967296,\xC2\xA0", TAXOLBIN_NOT_ASCII, TAXOLBIN_PLAIN);
    list_refused("4294968295", TAXOLBIN_NO_SPACE, 1000, '-', 1, 2);
    list_refused("4294968296", TAXOLBIN_NUMBER_OVER, 1000, '-', 1, 2);
    list_refused("5:5000000000", TAXOLBIN_NOT_LIST, 10, ':', 1, 2);
    list_refused("4294968296", TAXOLBIN_BAD_STYLE, 1001, '-', 1, 2);
}

/* A line of a register, from 0, has these numbers. */
static void row(const uint8_t *text, size_t line, size_t first, size_t last, size_t size)
{
    char expected[2 * LINE];
    sprintf(expected, "%12zu%12zu%12zu%36s\n", first, last, size, "");
    if (memcmp(text + line * LINE, expected, LINE) != 0) {
        wrong = 1;
        printf("line %zu: %.*s, not %s", line, LINE, (const char *)text + line * LINE, expected);
    }
}

/* The lines of a register from one to another, which is left out, are blank. */
static void blank(const uint8_t *text, size_t from, size_t to)
{
    size_t i;
    for (i = from * LINE; i < to * LINE; i++) {
        is("a blank line", text[i], i % LINE == LINE - 1 ? 10 : ' ');
    }
}

/* The register of two words, of so many pages: into as many bytes, and into one less, which is refused. */
static const uint8_t *registered(const char *what, uint64_t low, uint64_t high, size_t pages)
{
    static uint8_t text[2 * PAGE + 1];
    const uint64_t words[2] = {low, high};
    size_t i, n = 9;
    memset(text, 'x', sizeof text);
    is(what, taxolbin_write_register(words, 2, 2, text, pages * PAGE - 1, &n), TAXOLBIN_NO_SPACE);
    is("its length", n, 0);
    for (i = 0; i < sizeof text; i++) {
        is("a byte of a refused call", text[i], 'x');
    }
    is(what, taxolbin_write_register(words, 2, 2, text, pages * PAGE, &n), 0);
    is("its length", n, pages * PAGE);
    is("the byte behind", text[n], 'x');
    return text;
}

static void registers(void)
{
    static const uint64_t notes[2] = {0x3B0, 0};
    uint8_t none[1] = {'x'};
    size_t n = 9;
    const uint8_t *text = registered("{4, 5, 7, 8, 9, 63, 64}", UINT64_C(0x80000000000003B0), 1, 1);
    row(text, 0, 4, 5, 2);
    row(text, 1, 7, 9, 3);
    row(text, 2, 63, 64, 2);
    blank(text, 3, 49);
    row(text, 49, 1, 1, 7);
    text = registered("{7}", 0x80, 0, 1);
    row(text, 0, 7, 7, 1);
    blank(text, 1, 49);
    row(text, 49, 1, 1, 1);
    text = registered("no bit", 0, 0, 1);
    blank(text, 0, 49);
    row(text, 49, 1, 1, 0);
    text = registered("49 runs", UINT64_C(0x5555555555555555), UINT64_C(0x155555555), 1);
    row(text, 48, 96, 96, 1);
    row(text, 49, 1, 1, 49);
    text = registered("50 runs", UINT64_C(0x5555555555555555), UINT64_C(0x555555555), 2);
    row(text, 48, 96, 96, 1);
    row(text, 49, 1, 2, 50);
    row(text, 50, 98, 98, 1);
    blank(text, 51, 99);
    row(text, 99, 2, 2, 50);
    is("a count over the store", taxolbin_write_register(notes, 2, 3, none, 1, &n), TAXOLBIN_COUNT_OVER_STORE);
    is("its length", n, 0);
    is("no byte", taxolbin_write_register(notes, 2, 2, none, 0, &n), TAXOLBIN_NO_SPACE);
    is("the byte", none[0], 'x');
}

/* The least bit of what a sheet makes of the notes {4} in so many words. */
static size_t read_back(size_t words_in_use)
{
    static const uint64_t notes[2] = {16, 0};
    uint64_t result[2];
    size_t at, count, found, place;
    is("read", taxolbin_read(1, buffer, length, notes, 2, words_in_use, result, 2, &at, &count), 0);
    is("first_set", taxolbin_first_set(result, 2, count, &found, &place), 0);
    return found ? place : 999;
}

static void counts(void)
{
    is("reverse", taxolbin_add_reverse(fresh(), SIZE, &length), 0);
    is("{4} reversed, one word", read_back(1), 59);
    is("{4} reversed, two words", read_back(2), 123);
    is("rotate", taxolbin_add_rotate_right(fresh(), SIZE, &length, 5), 0);
    is("{4} turned, one word", read_back(1), 63);
    is("{4} turned, two words", read_back(2), 127);
    is("resize", taxolbin_add_resize_bits(fresh(), SIZE, &length, 100), 0);
    is("reverse", taxolbin_add_reverse(buffer, SIZE, &length), 0);
    is("{4} resized and reversed, one word", read_back(1), 123);
    is("{4} resized and reversed, two words", read_back(2), 123);
}

/* 12 bytes for each set bit are enough for a list, also of the longest numbers, in the plain style and in the one that takes most. */
static void list_space(void)
{
    static const uint64_t last[3] = {UINT64_C(1) << 63, UINT64_C(3) << 62, UINT64_C(5) << 61};
    uint64_t *words = (uint64_t *)calloc(TAXOLBIN_CAPACITY_MAX, sizeof(uint64_t));
    uint8_t text[24];
    size_t i, n;
    if (words == NULL) {
        wrong = 1;
        printf("no memory for the longest store\n");
        return;
    }
    for (i = 0; i < 3; i++) {
        const size_t size = i == 0 ? 12 : 24;
        words[TAXOLBIN_CAPACITY_MAX - 1] = last[i];
        is("the longest numbers", taxolbin_write_list(words, TAXOLBIN_CAPACITY_MAX, TAXOLBIN_CAPACITY_MAX, text, size, &n, TAXOLBIN_PLAIN), 0);
        is("from 1,000 on", taxolbin_write_list(words, TAXOLBIN_CAPACITY_MAX, TAXOLBIN_CAPACITY_MAX, text, size, &n, 1000, '-', 1, 9), 0);
    }
    is("the last one's text", memcmp(text, "4294968293, 4294968295", 22) == 0, 1);
    is("its length", n, 22);
    free(words);
}

/* The longest store with every bit set: the longest numbers of a register. */
static void longest_run(void)
{
    uint8_t text[PAGE];
    uint64_t *words = (uint64_t *)malloc(TAXOLBIN_CAPACITY_MAX * sizeof(uint64_t));
    size_t n = 9;
    if (words == NULL) {
        wrong = 1;
        printf("no memory for the longest store\n");
        return;
    }
    memset(words, 0xFF, TAXOLBIN_CAPACITY_MAX * sizeof(uint64_t));
    is("the longest run", taxolbin_write_register(words, TAXOLBIN_CAPACITY_MAX, TAXOLBIN_CAPACITY_MAX, text, PAGE, &n), 0);
    is("its length", n, PAGE);
    row(text, 0, 0, 4294967295, 4294967296);
    blank(text, 1, 49);
    row(text, 49, 1, 1, 4294967296);
    free(words);
}

int main(int argc, char **argv)
{
    uint32_t i;
    (void)argv;
    if (argc > 1) {
        for (i = 0; strcmp(taxolbin_why(i), taxolbin_why(UINT32_MAX)) != 0; i++) {
            printf("%u\t%s\n", (unsigned)i, taxolbin_why(i));
        }
        return 0;
    }
    records();
    refusals();
    empty_book();
    styles();
    empty_house();
    huge_numbers();
    registers();
    counts();
    list_space();
    longest_run();
    return wrong;
}
