/*
 * Runs the script on standard input and writes a compartment's permission list, a line of three columns of 21 for each: the form of a
 * wish. For tests/wishes.
 */
#include <inttypes.h>
#include <stdio.h>
#include <stdlib.h>

#include "marking_key.h"

#define PAGE 64

int main(int argc, char **argv)
{
    static uint8_t script[1 << 18];
    uint64_t page[PAGE * MARKING_KEY_PERMISSION], answer, compartment;
    size_t len, from = 0;
    if (argc != 2)
        return 2;
    compartment = strtoull(argv[1], NULL, 10);
    len = fread(script, 1, sizeof script, stdin);
    do {
        answer = permissions_page(script, len, compartment, from, page, PAGE * MARKING_KEY_PERMISSION);
        if (marking_key_refusal(answer))
            return 1;
        for (size_t i = 0; i < answer * MARKING_KEY_PERMISSION; i += MARKING_KEY_PERMISSION)
            printf("%21" PRIu64 "%21" PRIu64 "%21" PRIu64 "\n", page[i], page[i + 1], page[i + 2]);
        from += answer;
    } while (answer == PAGE);
    return 0;
}
