/* The proved filter, first roster, prefix report, planner and checker behind the peers' signature. */
#include "peers/mend.h"
#include "reedgosling.h"

#define RULES(r) (r)->Q, (r)->V, (r)->start, (r)->target, REEDGOSLING_TABLE_SIZE, (r)->cost, REEDGOSLING_TABLE_SIZE, (r)->acc

int proved(const rules_t *r, uint32_t n, const uint16_t *masks, const uint32_t *limits, uint16_t *kept, uint32_t *least, uint32_t *work)
{
    return reedgosling_filter(n, RULES(r), masks, n, limits, n, kept, n, work, REEDGOSLING_WORK_LENGTH(n), least);
}

/* The first roster that has the last place's first value that any has there. Its values stand in kept, and least is not worked out. */
int first(const rules_t *r, uint32_t n, const uint16_t *masks, const uint32_t *limits, uint16_t *kept, uint32_t *least, uint32_t *work)
{
    static uint8_t roster[REEDGOSLING_MOST_PLACES];
    uint32_t answer = REEDGOSLING_NO_ROSTER;
    for (uint8_t v = 0; v < r->V && answer == REEDGOSLING_NO_ROSTER; v++)
        answer = reedgosling_first_roster(n, RULES(r), masks, n, limits, n, n - 1, v, roster, n, work, REEDGOSLING_WORK_LENGTH(n));
    for (uint32_t i = 0; i < n; i++) kept[i] = roster[i];
    *least = 0;
    return answer;
}

/* The prefix report of the roster that has the smallest value of each mask. The roster stands in kept, its report in least. */
int report(const rules_t *r, uint32_t n, const uint16_t *masks, const uint32_t *limits, uint16_t *kept, uint32_t *least, uint32_t *work)
{
    static uint8_t roster[REEDGOSLING_MOST_PLACES];
    size_t behind = 0;
    (void)limits, (void)work;
    for (uint32_t i = 0; i < n; i++) roster[i] = kept[i] = __builtin_ctz(masks[i]);
    uint32_t answer = reedgosling_prefix_report(n, RULES(r), roster, n, &behind);
    *least = behind;
    return answer;
}

/* The driver's roster mended. The proposal stands in kept, its changes in least. */
int proved_mend(const rules_t *r, uint32_t n, const uint16_t *masks, const uint32_t *limits, uint16_t *kept, uint32_t *least, uint32_t *work)
{
    static uint8_t roster[REEDGOSLING_MOST_PLACES];
    static uint32_t plan[REEDGOSLING_PLAN_LENGTH(REEDGOSLING_MOST_PLACES)];
    (void)work;
    uint32_t answer = reedgosling_mend(n, RULES(r), masks, n, limits, n, drawn_roster, n, most_changes, roster, n,
        plan, REEDGOSLING_PLAN_LENGTH(n), least);
    for (uint32_t i = 0; i < n; i++) kept[i] = roster[i];
    return answer;
}

/* The driver's roster checked as it was drawn. What the checker says stands in least. */
int proved_check(const rules_t *r, uint32_t n, const uint16_t *masks, const uint32_t *limits, uint16_t *kept, uint32_t *least, uint32_t *work)
{
    uint8_t says = 0;
    (void)kept, (void)work;
    uint32_t answer = reedgosling_check(n, RULES(r), masks, n, limits, n, drawn_roster, n, drawn_roster, n, 0, &says);
    *least = says;
    return answer;
}
