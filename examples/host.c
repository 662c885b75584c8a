/*
 * A host program over the library: runs the script on standard input and writes its output; then reads each list of a compartment
 * by pages of so many groups until one is not full, the mapping stream first; then asks `overlaps` of one guest address.
 *
 *     cc -Iinclude examples/host.c target/staticlib/libexports.a -o host
 *     ./host 0 2 100 < examples/worked.txt
 */
#include <inttypes.h>
#include <stdio.h>
#include <stdlib.h>

#include "marking_key.h"

/* A buffer of at least so many bytes, or the end of the program. */
static void *grown(void *old, size_t bytes)
{
    void *buffer = realloc(old, bytes);
    if (buffer == NULL) {
        fputs("host: no memory\n", stderr);
        exit(1);
    }
    return buffer;
}

static uint8_t *read_all(FILE *from, size_t *len)
{
    size_t room = 4096, got;
    uint8_t *bytes = grown(NULL, room);
    *len = 0;
    while ((got = fread(bytes + *len, 1, room - *len, from)) > 0) {
        *len += got;
        if (*len == room)
            bytes = grown(bytes, room *= 2);
    }
    return bytes;
}

/* How many bytes so many lines have. */
static size_t bytes_of(const uint8_t *text, size_t lines)
{
    size_t at = 0;
    while (lines > 0)
        if (text[at++] == '\n')
            lines--;
    return at;
}

/* The whole output of a script: the buffer grows until no line can have been left out. */
static void print_output(const uint8_t *script, size_t script_len)
{
    size_t room = 4096, used;
    uint8_t *out = NULL;
    for (;;) {
        out = grown(out, room);
        used = bytes_of(out, run_script(script, script_len, out, room));
        if (room - used >= MARKING_KEY_LONGEST_LINE)
            break;
        room *= 2;
    }
    fwrite(out, 1, used, stdout);
    free(out);
}

typedef uint64_t page_read(const uint8_t *script, size_t script_len, uint64_t compartment, size_t from, uint64_t *out,
                           size_t out_len);

static const struct list {
    const char *name;
    page_read *read;
    size_t width;
} LISTS[] = {
    {"mappings", stream_page, MARKING_KEY_MAPPING},
    {"permissions", permissions_page, MARKING_KEY_PERMISSION},
    {"regions", regions_page, MARKING_KEY_REGION},
    {"segments", segments_page, MARKING_KEY_SEGMENT},
};

/* An answer behind what was asked; is it a refusal? */
static int print_answer(uint64_t answer)
{
    unsigned refusal = marking_key_refusal(answer);
    if (refusal != 0)
        printf("refused with %u\n", refusal);
    else
        printf("%" PRIu64 "\n", answer);
    return refusal != 0;
}

/* A list of a compartment by pages of so many groups; was it refused? */
static int print_pages(const uint8_t *script, size_t script_len, uint64_t compartment, struct list list, size_t groups)
{
    uint64_t *page = grown(NULL, groups * list.width * sizeof *page);
    size_t from = 0;
    uint64_t many;
    int refused;
    do {
        many = list.read(script, script_len, compartment, from, page, groups * list.width);
        printf("%s from %zu: ", list.name, from);
        refused = print_answer(many);
        for (size_t i = 0; !refused && i < many * list.width; i++)
            printf("%21" PRIu64 "%s", page[i], i % list.width == list.width - 1 ? "\n" : "");
        from += many;
    } while (many == groups);
    free(page);
    return refused;
}

static uint64_t number(int argc, char **argv, int place, uint64_t otherwise)
{
    return place < argc ? strtoull(argv[place], NULL, 10) : otherwise;
}

int main(int argc, char **argv)
{
    uint64_t compartment = number(argc, argv, 1, 0);
    uint64_t groups = number(argc, argv, 2, 16);
    uint64_t guest = number(argc, argv, 3, 0);
    if (groups < 1 || groups > 65536) {
        fputs("host: a page has 1 to 65536 groups\n", stderr);
        return 2;
    }
    size_t script_len;
    uint8_t *script = read_all(stdin, &script_len);
    print_output(script, script_len);
    int refused = 0;
    for (size_t i = 0; i < sizeof LISTS / sizeof *LISTS; i++)
        refused |= print_pages(script, script_len, compartment, LISTS[i], groups);
    printf("overlaps at %" PRIu64 ": ", guest);
    refused |= print_answer(overlaps_after(script, script_len, compartment, guest, 1));
    free(script);
    return refused;
}
