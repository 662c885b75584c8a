/*
 * A host program that plans. With words, a compartment and then start, end and rights of each range that is wanted, it runs the script
 * on standard input and writes the adds that give these ranges under the allowance that the compartment then has, read by pages of two.
 * Without words it takes standard input for the text of a wish and writes the script for it.
 *
 *     cc -Iinclude examples/plan.c target/staticlib/libplanning.a -o plan
 *     ./plan 0 0 10 3 10 20 3 < examples/worked.txt
 *     ./plan < examples/plan/layout.txt
 */
#include <inttypes.h>
#include <stdio.h>
#include <stdlib.h>

#include "marking_key.h"

#define PAGE 2

static uint8_t input[1 << 16], output[MARKING_KEY_LONGEST_SCRIPT];

/* The words as numbers; a last range may lack some. */
static uint64_t *numbers_of(char **words, size_t many)
{
    uint64_t *numbers = malloc((many + 1) * sizeof *numbers);
    for (size_t i = 0; numbers != NULL && i < many; i++)
        numbers[i] = strtoull(words[i], NULL, 10);
    return numbers;
}

/* The adds by pages, until one has fewer than fit. */
static unsigned write_adds(size_t len, uint64_t compartment, const uint64_t *wanted, size_t many)
{
    uint64_t page[PAGE * MARKING_KEY_PERMISSION], answer;
    size_t from = 0;
    do {
        answer = plan_page(input, len, compartment, wanted, many, from, page, PAGE * MARKING_KEY_PERMISSION);
        if (marking_key_refusal(answer))
            return marking_key_refusal(answer);
        for (size_t i = 0; i < answer * MARKING_KEY_PERMISSION; i += MARKING_KEY_PERMISSION)
            printf("A%2" PRIu64 "%21" PRIu64 "%21" PRIu64 "%21" PRIu64 "\n", compartment, page[i], page[i + 1], page[i + 2]);
        from += answer;
    } while (answer == PAGE);
    return 0;
}

int main(int argc, char **argv)
{
    size_t len = fread(input, 1, sizeof input, stdin);
    if (argc == 1) {
        fwrite(output, 1, plan_script(0, 128, input, len, output, sizeof output), stdout);
        return 0;
    }
    uint64_t *wanted = numbers_of(argv + 2, (size_t)argc - 2);
    if (wanted == NULL)
        return 1;
    unsigned refusal = write_adds(len, strtoull(argv[1], NULL, 10), wanted, (size_t)argc - 2);
    free(wanted);
    if (refusal)
        printf("%3u%21u\n", refusal, 0U);
    return refusal ? 1 : 0;
}
