/* Makes a change sheet, reads it in both editions and in one that there is not, and prints what each made of it; then saves and loads an empty book. */
#include <stdio.h>
#include <stdlib.h>
#include <taxolbin.h>

enum { OLD = 4, WORDS = 128, BYTES = 256, TEXT = 65536 };

/* The sheet as it is written: its buffer, and how many bytes of it are the sheet. */
struct sheet {
    uint8_t bytes[BYTES];
    size_t length;
};

/* A bitmap in its store. */
struct bitmap {
    uint64_t words[OLD];
    size_t count;
};

static void must(uint32_t number, const char *what)
{
    if (number != TAXOLBIN_DONE) {
        fprintf(stderr, "%s: %s (%u)\n", what, taxolbin_why(number), (unsigned)number);
        exit(1);
    }
}

static void make(struct sheet *s)
{
    static const uint8_t hello[] = {'h', 'i'};
    must(taxolbin_start(s->bytes, BYTES, &s->length), "start");
    must(taxolbin_add_set_region(s->bytes, BYTES, &s->length, 2, 4), "set_region");
    must(taxolbin_add_unset(s->bytes, BYTES, &s->length, 3), "unset");
    must(taxolbin_add_remark(s->bytes, BYTES, &s->length, 1, hello, sizeof hello), "remark");
    must(taxolbin_add_shift_left(s->bytes, BYTES, &s->length, 64), "shift_left");
    must(taxolbin_add_open(s->bytes, BYTES, &s->length, 68, 10), "open");
}

/* Edition, number, record and count; then the list, or why there is none. */
static void line(const struct bitmap *old, const struct sheet *s, size_t edition)
{
    static uint64_t result[WORDS];
    static uint8_t text[TEXT];
    size_t record, count, length;
    uint32_t number = taxolbin_read(edition, s->bytes, s->length, old->words, OLD, old->count, result, WORDS, &record, &count);
    printf("%zu %u %zu %zu", edition, (unsigned)number, record, count);
    if (number != TAXOLBIN_DONE) {
        printf(" %s\n", taxolbin_why(number));
        return;
    }
    must(taxolbin_write_list(result, WORDS, count, text, TEXT, &length, TAXOLBIN_PLAIN), "write_list");
    printf(" %.*s\n", (int)length, (const char *)text);
}

/* A book without notes is kept as a text of no bytes. */
static void save_and_load(struct bitmap *book)
{
    uint8_t text[TEXT];
    size_t length, notes;
    must(taxolbin_resize_bits(book->words, OLD, &book->count, 0), "resize_bits");
    must(taxolbin_write_list(book->words, OLD, book->count, text, TEXT, &length, TAXOLBIN_PLAIN), "write_list");
    must(taxolbin_load_list(book->words, OLD, &book->count, text, length, TAXOLBIN_PLAIN), "load_list");
    must(taxolbin_count_set_bits(book->words, OLD, book->count, &notes), "count_set_bits");
    printf("an empty book: %zu bytes, %zu notes\n", length, notes);
}

int main(void)
{
    static const uint8_t list[] = {'0', ',', ' ', '4', '-', '5'};
    static struct bitmap old;
    static struct sheet s;
    size_t i;
    make(&s);
    for (i = 0; i < s.length; i++) {
        printf("%02X%s", (unsigned)s.bytes[i], i + 1 < s.length ? " " : "\n");
    }
    must(taxolbin_load_list(old.words, OLD, &old.count, list, sizeof list, TAXOLBIN_PLAIN), "load_list");
    line(&old, &s, 1);
    line(&old, &s, 2);
    line(&old, &s, 3);
    save_and_load(&old);
    return 0;
}
