/* sheet PROVED|PLAIN SHEET SECONDS: reads a sheet again and again, and prints bytes a second. PLAIN is a reader of the same format in
   plain C: every line judged by form, range and order, then the tables filled; nothing is written where a line is wrong. */
#include "reedgosling.h"
#include <stdio.h>
#include <string.h>
#include <stdlib.h>
#include <time.h>

static const uint8_t *number(const uint8_t *p, const uint8_t *end, uint32_t least, uint32_t most, uint32_t *out)
{
    uint64_t v = 0;
    const uint8_t *from = p;
    while (p < end && *p >= '0' && *p <= '9') { if (v <= most) v = v * 10 + (*p - '0'); p++; }
    if (p == from || (p > from + 1 && *from == '0') || v < least || v > most) return 0;
    *out = v;
    return p;
}

static const uint8_t *field(const uint8_t *p, const uint8_t *end, uint32_t least, uint32_t most, uint32_t *out)
{
    p = number(p, end, least, most, out);
    return p && p < end && *p == '\t' ? p + 1 : 0;
}

static size_t pass(const uint8_t *text, size_t length, uint8_t *targets, uint16_t *costs, uint32_t size[3], uint64_t *accepting)
{
    const uint8_t *p = text, *end = text + length;
    uint32_t q, v, t, c, next = 0;
    size_t line = 1;
    *accepting = 0;
    if (length < 5 || memcmp(p, "size\t", 5)) return 1;
    if (!(p = field(p + 5, end, 1, 64, &size[0])) || !(p = field(p, end, 1, 16, &size[1]))
        || !(p = number(p, end, 0, size[0] - 1, &size[2])) || p == end || *p++ != '\n') return 1;
    if (targets) { memset(targets, 255, size[0] * size[1]); memset(costs, 0, 2 * size[0] * size[1]); }
    while (p < end) {
        line++;
        if (end - p > 6 && !memcmp(p, "final\t", 6)) {
            if (!(p = number(p + 6, end, 0, size[0] - 1, &q)) || q < next) return line;
            next = q + 1;
            *accepting |= 1ull << q;
        } else if (end - p > 4 && !memcmp(p, "arc\t", 4)) {
            if (!(p = field(p + 4, end, 0, size[0] - 1, &q)) || !(p = field(p, end, 0, size[1] - 1, &v))
                || !(p = field(p, end, 0, size[0] - 1, &t)) || !(p = number(p, end, 0, 1000, &c))) return line;
            if (size[0] + q * size[1] + v < next) return line;
            next = size[0] + q * size[1] + v + 1;
            if (targets) { targets[q * size[1] + v] = t; costs[q * size[1] + v] = c; }
        } else return line;
        if (p == end || *p++ != '\n') return line;
    }
    return 0;
}

static uint8_t text[65536], targets[1024];
static uint16_t costs[1024];

int main(int argc, char **argv)
{
    if (argc != 4) return 2;
    FILE *file = fopen(argv[2], "rb");
    if (!file) return 2;
    size_t length = fread(text, 1, sizeof text, file), line, states, values;
    int proved = !strcmp(argv[1], "PROVED");
    uint8_t start;
    uint64_t accepting = 0, reads = 0, sum, wrong = 0;
    uint32_t size[3];
    struct timespec a, b;
    double seconds = atof(argv[3]), spent = 0;
    clock_gettime(CLOCK_MONOTONIC, &a);
    while (spent < seconds) {
        for (int i = 0; i < 50; i++) {
            if (proved) wrong += reedgosling_read_sheet(text, length, targets, 1024, costs, 1024, &line, &states, &values, &start, &accepting);
            else if ((line = pass(text, length, 0, 0, size, &accepting))) wrong += line;
            else pass(text, length, targets, costs, size, &accepting);
        }
        reads += 50;
        clock_gettime(CLOCK_MONOTONIC, &b);
        spent = b.tv_sec - a.tv_sec + (b.tv_nsec - a.tv_nsec) / 1e9;
    }
    if (wrong) return 1;
    sum = accepting;
    for (int i = 0; i < 1024; i++) sum = sum * 31 + targets[i] * 1009 + costs[i];
    printf("%.0f million bytes a second, checksum %llu\n", reads * length / spent / 1e6, (unsigned long long)sum);
}
