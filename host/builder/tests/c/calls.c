/* Calls `build` from C on the tree file that the first argument names, and prints what it tells. */
#include "builder.h"
#include <stdio.h>
#include <string.h>

static uint8_t file[65536];
static uint8_t area[BUILDER_MOST_BYTES + 16];

static uint32_t word(size_t at)
{
    return area[at] | area[at + 1] << 8 | area[at + 2] << 16 | (uint32_t)area[at + 3] << 24;
}

static void call(size_t file_length, const char *root, size_t area_length)
{
    memset(area, 0xAA, sizeof area);
    uint64_t told = build(file, file_length, (const uint8_t *)root, strlen(root), area, area_length);
    size_t kept = 0, zeros = 0;
    while (kept < sizeof area && area[sizeof area - 1 - kept] == 0xAA)
        kept++;
    while (zeros < area_length && area[area_length - 1 - zeros] == 0)
        zeros++;
    printf("number %u used %u kept %zu zeros %zu\n", (unsigned)BUILDER_NUMBER(told), (unsigned)BUILDER_USED(told), kept, zeros);
}

int main(int count, char **arguments)
{
    FILE *from = count == 2 ? fopen(arguments[1], "rb") : NULL;
    if (!from)
        return 2;
    size_t length = fread(file, 1, sizeof file, from);
    fclose(from);

    call(length, "root", 395);
    call(length, "roo", 395);
    call(length - 1, "root", 395);
    call(31, "root", 395);
    call(length, "root", BUILDER_MOST_BYTES);
    for (size_t i = 0; i < BUILDER_HEADER_WORDS; i++)
        printf("%u ", (unsigned)word(4 * i));
    size_t statements = 4 * (BUILDER_HEADER_WORDS + BUILDER_NODE_WORDS * word(4 * BUILDER_HEADER_NODES));
    for (size_t i = 0; i < word(4 * BUILDER_HEADER_STATEMENTS); i++) {
        size_t at = statements + 4 * BUILDER_STATEMENT_WORDS * i;
        printf("fate %u variable %u ", (unsigned)word(at + 4 * BUILDER_STATEMENT_FATE),
               (unsigned)word(at + 4 * BUILDER_STATEMENT_VARIABLE));
    }
    printf("\n");
    return 0;
}
