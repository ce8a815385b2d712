/* mend: eight rows a layer, row c for just c changes from there on, with the greatest running cost that leaves a way to the end, and 1
   more; 0 for none. One number of changes after the other, so that no row is filled past the fewest; then the walk. check: the roster followed. */
#include "mend.h"
#include "common.h"
#define INF (1 << 28)
/* not by memset, which takes a turn for each byte of so long a table */
__attribute__((noinline, optimize("no-tree-loop-distribute-patterns")))
static void clear(uint32_t *work, size_t count) { for (size_t i = 0; i < count; i++) work[i] = 0; }

int mend(const rules_t *r, uint32_t n, const uint16_t *masks, const uint32_t *limits, const uint8_t *drawn, uint32_t most, uint8_t *roster, uint32_t *changes, uint32_t *work)
{
    uint32_t Q = r->Q, V = r->V, c;
    size_t layers = (size_t)(n + 1) * 64;
    uint8_t tg[1024]; int32_t co[1024]; /* by v * 64 + q; a missing arc costs more than any room */
    for (uint32_t q = 0; q < Q; q++) for (uint32_t v = 0; v < V; v++) {
        uint8_t t = r->target[q * V + v];
        tg[v * 64 + q] = t == 255 ? 0 : t; co[v * 64 + q] = t == 255 ? INF : r->cost[q * V + v];
    }
    for (c = 0; c <= most; c++) {
        int32_t *now = (int32_t *)work + c * layers, *fewer = now - layers;
        int32_t lim = umin(limits[n - 1], TOP) + 1;
        for (uint32_t q = 0; q < Q; q++) now[(size_t)n * 64 + q] = c == 0 && (r->acc >> q & 1) ? lim : 0;
        for (uint32_t i = n; i-- > 0;) {
            int32_t best[64];
            uint32_t d = drawn[i], m = masks[i];
            for (uint32_t q = 0; q < Q; q++) best[q] = 0;
            if (m >> d & 1) {
                const int32_t *next = now + (size_t)(i + 1) * 64; const uint8_t *t = tg + d * 64; const int32_t *w = co + d * 64;
                for (uint32_t q = 0; q < Q; q++) best[q] = imax(0, next[t[q]] - w[q]);
            }
            if (c) for (uint32_t x = m & ~(1u << d); x; x &= x - 1) {
                uint32_t v = __builtin_ctz(x);
                const int32_t *next = fewer + (size_t)(i + 1) * 64; const uint8_t *t = tg + v * 64; const int32_t *w = co + v * 64;
                for (uint32_t q = 0; q < Q; q++) best[q] = imax(best[q], next[t[q]] - w[q]);
            }
            lim = i ? umin(limits[i - 1], TOP) + 1 : TOP + 1;
            for (uint32_t q = 0; q < Q; q++) now[(size_t)i * 64 + q] = imin(best[q], lim);
        }
        if (now[r->start] > 0) break;
    }
    *changes = c <= most ? c : 0;
    if (c <= most) {
        uint32_t q = r->start, left = c; int32_t spent = 0;
        for (uint32_t i = 0; i < n; i++) for (uint32_t x = masks[i]; x; x &= x - 1) {
            uint32_t v = __builtin_ctz(x), change = v != drawn[i];
            if (change > left) continue;
            const int32_t *next = (const int32_t *)work + (left - change) * layers + (size_t)(i + 1) * 64;
            if (spent + co[v * 64 + q] >= next[tg[v * 64 + q]]) continue;
            spent += co[v * 64 + q]; q = tg[v * 64 + q]; left -= change; roster[i] = v;
            break;
        }
    }
    clear(work, 8 * layers);
    return c <= most ? 0 : 11;
}

int check(const rules_t *r, uint32_t n, const uint16_t *masks, const uint32_t *limits, const uint8_t *drawn, const uint8_t *roster, uint32_t claimed)
{
    uint32_t q = r->start, spent = 0, changes = 0;
    for (uint32_t i = 0; i < n; i++) {
        uint32_t v = roster[i], arc = q * r->V + v;
        if (!(masks[i] >> v & 1) || r->target[arc] == 255) return 0;
        spent += r->cost[arc]; q = r->target[arc]; changes += v != drawn[i];
        if (spent > umin(limits[i], TOP)) return 0;
    }
    return (r->acc >> q & 1) && changes == claimed;
}

/* Both behind the filters' signature: the driver's roster mended, its values in kept and its changes in least; and checked as it was drawn. */
int plain_mend(const rules_t *r, uint32_t n, const uint16_t *masks, const uint32_t *limits, uint16_t *kept, uint32_t *least, uint32_t *work)
{
    static uint32_t plan[8 * 367 * 64];
    static uint8_t roster[366];
    (void)work;
    int answer = mend(r, n, masks, limits, drawn_roster, most_changes, roster, least, plan);
    for (uint32_t i = 0; i < n; i++) kept[i] = roster[i];
    return answer;
}

int plain_check(const rules_t *r, uint32_t n, const uint16_t *masks, const uint32_t *limits, uint16_t *kept, uint32_t *least, uint32_t *work)
{
    (void)kept, (void)work;
    *least = check(r, n, masks, limits, drawn_roster, drawn_roster, 0);
    return 0;
}
