/*
 * A host program that deploys: runs the script on standard input, and then a bundle for a compartment, handed over as words: a letter (A or
 * D), start, end and rights for each call. It writes the bundle's answer and value, and the compartment's mappings after it, read by pages of two.
 *
 *     cc -Iinclude examples/bundle.c target/staticlib/libbundles.a -o bundle
 *     ./bundle 0 A 40 50 3 D 0 10 3 < examples/worked.txt
 */
#include <inttypes.h>
#include <stdio.h>
#include <stdlib.h>

#include "marking_key.h"

#define PAGE 2

/* Any other letter is a kind that there is not, and refused with 17 at its turn. */
static uint64_t kind_of(const char *word)
{
    return word[0] == 'A' ? 0 : word[0] == 'D' ? 1 : 2;
}

/* The words as numbers of groups; a last group may lack some. */
static uint64_t *groups_of(char **words, size_t many)
{
    uint64_t *groups = malloc((many + 1) * sizeof *groups);
    for (size_t i = 0; groups != NULL && i < many; i++)
        groups[i] = i % MARKING_KEY_BUNDLED == 0 ? kind_of(words[i]) : strtoull(words[i], NULL, 10);
    return groups;
}

int main(int argc, char **argv)
{
    static uint8_t script[1 << 16];
    uint64_t page[PAGE * MARKING_KEY_MAPPING], compartment, answer;
    size_t len, many, from = 0;
    if (argc < 2) {
        fputs("usage: bundle COMPARTMENT [A|D START END RIGHTS ..] < SCRIPT\n", stderr);
        return 2;
    }
    len = fread(script, 1, sizeof script, stdin);
    compartment = strtoull(argv[1], NULL, 10);
    many = (size_t)argc - 2;
    uint64_t *groups = groups_of(argv + 2, many);
    if (groups == NULL)
        return 1;
    answer = bundle_after(script, len, compartment, groups, many);
    unsigned refusal = marking_key_refusal(answer);
    printf("%3u%21" PRIu64 "\n", refusal, refusal ? 0 : answer);
    do {
        answer = stream_after_bundle(script, len, compartment, groups, many, from, page, PAGE * MARKING_KEY_MAPPING);
        if (marking_key_refusal(answer))
            break;
        for (size_t i = 0; i < answer * MARKING_KEY_MAPPING; i++)
            printf("%21" PRIu64 "%s", page[i], i % MARKING_KEY_MAPPING == MARKING_KEY_MAPPING - 1 ? "\n" : "");
        from += answer;
    } while (answer == PAGE);
    free(groups);
    return refusal ? 1 : 0;
}
