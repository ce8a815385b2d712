/* pattern V LINE CALLS: reads a pattern CALLS times, and prints the answer and the number of states. */
#include "reedgosling.h"
#include <stdio.h>
#include <stdlib.h>
#include <string.h>

static uint8_t targets[REEDGOSLING_TABLE_SIZE];
static uint16_t costs[REEDGOSLING_TABLE_SIZE];

int main(int argc, char **argv)
{
    size_t states = 0, values = 0;
    uint8_t start = 0;
    uint64_t accepting = 0;
    uint32_t answer = 0;
    if (argc != 4) return 2;
    for (int call = 0; call < atoi(argv[3]); call++)
        answer = reedgosling_read_pattern((const uint8_t *)argv[2], strlen(argv[2]), atoi(argv[1]), targets, REEDGOSLING_TABLE_SIZE,
            costs, REEDGOSLING_TABLE_SIZE, &states, &values, &start, &accepting);
    printf("%u %zu\n", answer, states);
}
