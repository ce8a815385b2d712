/* driver SHEET N INPUT CALLS: reads a sheet, filters N places CALLS times, and prints a checksum of the kept masks and the least cost.
   FILT is the filter under test, with the signature of peers/filt.h. INPUT says what it is lent:
     full     full masks, limits that do not bind
     half     each value with odds of one half, the values of one accepted roster always
     bind     full masks; each limit is what a cheapest roster has spent by then, and 300 more (on W, whose costs are 0 to 2, 2 more)
     both     half's masks and limits made likewise
     eighth   at one place in eight one value alone, that of an accepted roster; else full masks
     single   at every place one value alone, that of an accepted roster
     few      at every place one to three values, that of an accepted roster among them
     ill0     full masks; the drawn roster, which a planner or a checker looks at besides, is an accepted one
     ill3     the same, and its value struck from the mask at three places, evenly spread
     ill7     at seven
     well     as ill0, and no change is asked for: the planner is lent 0 in place of 7 */
#include "peers/filt.h"
#include "peers/mend.h"
#include <stdio.h>
#include <stdlib.h>
#include <string.h>

int FILT(const rules_t *, uint32_t, const uint16_t *, const uint32_t *, uint16_t *, uint32_t *, uint32_t *);

enum { PLACES = 366, STATES = 64, NONE = 1000000 };

static uint32_t work[(PLACES + 1) * STATES], limits[PLACES], dear[PLACES + 1][STATES];
static uint16_t masks[PLACES], kept[PLACES];
uint8_t drawn_roster[PLACES];
uint32_t most_changes = 7;
static rules_t rules;
static uint32_t seed = 20261115;

static uint32_t drawn(uint32_t below) /* the same numbers on every machine */
{
    seed = seed * 1664525u + 1013904223u;
    return (seed >> 8) % below;
}

static int read_sheet(const char *path)
{
    FILE *file = fopen(path, "r");
    char word[16];
    unsigned state, value, target, cost;
    if (!file) return 0;
    memset(rules.target, 255, sizeof rules.target);
    while (fscanf(file, "%15s", word) == 1) {
        if (!strcmp(word, "size")) {
            if (fscanf(file, "%u %u %u", &rules.Q, &rules.V, &rules.start) != 3) return 0;
        } else if (!strcmp(word, "final")) {
            if (fscanf(file, "%u", &state) != 1) return 0;
            rules.acc |= 1ull << state;
        } else {
            if (fscanf(file, "%u %u %u %u", &state, &value, &target, &cost) != 4) return 0;
            rules.target[state * rules.V + value] = target;
            rules.cost[state * rules.V + value] = cost;
        }
    }
    fclose(file);
    return 1;
}

/* What the rest of a roster costs at the least from each state before each place, within the masks. */
static void price(uint32_t n)
{
    for (uint32_t q = 0; q < rules.Q; q++) dear[n][q] = rules.acc >> q & 1 ? 0 : NONE;
    for (uint32_t i = n; i-- > 0;)
        for (uint32_t q = 0; q < rules.Q; q++) {
            dear[i][q] = NONE;
            for (uint32_t v = 0; v < rules.V; v++) {
                uint32_t arc = q * rules.V + v;
                if (!(masks[i] >> v & 1) || rules.target[arc] == 255) continue;
                uint32_t all = rules.cost[arc] + dear[i + 1][rules.target[arc]];
                if (all < dear[i][q]) dear[i][q] = all;
            }
        }
}

/* A roster within the masks: a cheapest one, or one that takes any value that leaves a way to the end. Gives what it spends place by place. */
static void draw(uint32_t n, int cheapest, uint32_t *spent)
{
    uint32_t q = rules.start, cost = 0;
    price(n);
    if (dear[0][q] >= NONE) exit(3);
    for (uint32_t i = 0; i < n; i++) {
        uint32_t v = cheapest ? 0 : drawn(rules.V);
        for (;; v = (v + 1) % rules.V) {
            uint32_t arc = q * rules.V + v;
            if (!(masks[i] >> v & 1) || rules.target[arc] == 255) continue;
            uint32_t rest = dear[i + 1][rules.target[arc]];
            if (rest < NONE && (!cheapest || rules.cost[arc] + rest == dear[i][q])) break;
        }
        drawn_roster[i] = v;
        cost += rules.cost[q * rules.V + v];
        q = rules.target[q * rules.V + v];
        spent[i] = cost;
    }
}

static int make_input(uint32_t n, const char *input)
{
    int halved = !strcmp(input, "half") || !strcmp(input, "both"), bound = !strcmp(input, "bind") || !strcmp(input, "both");
    int eighth = !strcmp(input, "eighth"), single = !strcmp(input, "single"), few = !strcmp(input, "few");
    int well = !strcmp(input, "well"), ill = !strncmp(input, "ill", 3) && input[3] && strchr("037", input[3]) && !input[4];
    static uint32_t spent[PLACES];
    for (uint32_t i = 0; i < n; i++) { limits[i] = 366000; masks[i] = (1u << rules.V) - 1; }
    if (halved || eighth || single || few) {
        draw(n, 0, spent);
        for (uint32_t i = 0; i < n; i++) {
            if (halved) masks[i] = drawn(1u << rules.V) | 1u << drawn_roster[i];
            if (single || few || (eighth && i % 8 == 3)) masks[i] = 1u << drawn_roster[i];
            for (uint32_t more = few ? drawn(3) : 0; more > 0; more--) masks[i] |= 1u << drawn(rules.V);
        }
    }
    if (well) most_changes = 0;
    if (ill || well) {
        uint32_t struck = well ? 0 : input[3] - '0';
        draw(n, 0, spent);
        for (uint32_t k = 1; k <= struck; k++) masks[n * k / (struck + 1)] &= ~(1u << drawn_roster[n * k / (struck + 1)]);
    }
    if (bound) {
        draw(n, 1, spent);
        for (uint32_t i = 0; i < n; i++) limits[i] = spent[i] + (rules.Q == 6 ? 2 : 300);
    }
    return halved || bound || eighth || single || few || ill || well || !strcmp(input, "full");
}

int main(int argc, char **argv)
{
    if (argc != 5 || !read_sheet(argv[1])) return 2;
    uint32_t n = atoi(argv[2]), least = 0;
    uint64_t sum = 0;
    if (n < 1 || n > PLACES || !make_input(n, argv[3])) return 2;
    for (int call = 0; call < atoi(argv[4]); call++) {
        FILT(&rules, n, masks, limits, kept, &least, work);
        sum += least;
        for (uint32_t i = 0; i < n; i++) sum = sum * 31 + kept[i];
    }
    printf("%llu\n", (unsigned long long)sum);
}
