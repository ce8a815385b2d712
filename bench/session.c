/* session SHEET N SECONDS: opens a session and makes calls by turns (mark, keep, limit, back), and prints calls a second. */
#include "reedgosling.h"
#include <stdio.h>
#include <stdlib.h>
#include <time.h>

static uint8_t text[65536], targets[REEDGOSLING_TABLE_SIZE];
static uint16_t costs[REEDGOSLING_TABLE_SIZE], masks[REEDGOSLING_MOST_PLACES];
static uint32_t limits[REEDGOSLING_MOST_PLACES], memory[REEDGOSLING_SESSION_LENGTH(REEDGOSLING_MOST_PLACES)],
    work[REEDGOSLING_WORK_LENGTH(REEDGOSLING_MOST_PLACES)];

int main(int argc, char **argv)
{
    if (argc != 4) return 2;
    FILE *file = fopen(argv[1], "rb");
    if (!file) return 2;
    size_t length = fread(text, 1, sizeof text, file), n = atoi(argv[2]), line, states, values;
    uint8_t start;
    uint64_t accepting, calls = 0;
    struct timespec a, b;
    double seconds = atof(argv[3]), spent = 0;
#define TABLES targets, REEDGOSLING_TABLE_SIZE, costs, REEDGOSLING_TABLE_SIZE
    if (reedgosling_read_sheet(text, length, TABLES, &line, &states, &values, &start, &accepting)) return 1;
    for (size_t i = 0; i < n; i++) { masks[i] = (1u << values) - 1; limits[i] = REEDGOSLING_MOST_LIMIT; }
#define HANDED n, states, values, start, TABLES, accepting
#define MEMORY memory, REEDGOSLING_SESSION_LENGTH(n), work, REEDGOSLING_WORK_LENGTH(n)
    if (reedgosling_open(HANDED, masks, n, limits, n, MEMORY)) return 1;
    clock_gettime(CLOCK_MONOTONIC, &a);
    while (spent < seconds) {
        uint32_t answers = reedgosling_mark(HANDED, MEMORY) + reedgosling_keep(HANDED, MEMORY, n / 2, (1u << values) - 2)
            + reedgosling_limit(HANDED, MEMORY, n - 1, 300000) + reedgosling_back(HANDED, MEMORY);
        if (answers) return 1;
        calls += 4;
        clock_gettime(CLOCK_MONOTONIC, &b);
        spent = b.tv_sec - a.tv_sec + (b.tv_nsec - a.tv_nsec) / 1e9;
    }
    printf("%.0f calls a second\n", calls / spent);
}
