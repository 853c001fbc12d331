/* The tables in plain C: the same sweeps, costs and skips as the proved code, nothing proved. */
#include "network.h"
#include <stdbool.h>

enum { MOST_PLACES = 1024, MOST_NODES = 256 };
#define FAR ((uint64_t)1 << 60)

typedef struct {
    const network *net;
    size_t n, p, size;
    uint32_t *weight;
    uint16_t *count;
    uint32_t stamps[MOST_PLACES];
} tables;

static uint64_t cost_of(uint32_t weight, uint16_t count) { return weight == NEVER ? FAR : ((uint64_t)weight << 16) + count; }

static void clear(uint64_t *costs, size_t m) {
    for (size_t i = 0; i < m; i++) costs[i] = FAR;
}

static void lower_to(uint64_t *costs, size_t i, uint64_t k) {
    if (k < costs[i]) costs[i] = k;
}

/* On from place r at the cost c. */
static void compose(const tables *t, size_t r, uint64_t c, uint64_t *y) {
    const uint32_t *weight = t->weight + r * t->size;
    const uint16_t *count = t->count + r * t->size;
    for (size_t q = 0; q < t->size; q++)
        if (weight[q] != NEVER) lower_to(y, q, c + cost_of(weight[q], count[q]));
}

static void steps(const tables *t, uint32_t v, uint32_t kind, uint32_t x, uint64_t *a) {
    const network *net = t->net;
    for (size_t j = 0; j < net->d; j++) {
        const uint32_t *f = net->funs + 5 * j;
        if (f[0] != v || f[1] != kind || f[2] != x) continue;
        for (size_t i = 0; i < net->c; i++) {
            const uint32_t *l = net->links + 4 * i;
            if (l[1] == v) lower_to(a, l[2] * t->p + f[3], ((uint64_t)(f[4] + l[3]) << 16) + 1);
        }
    }
}

static bool serves(const tables *t, uint32_t v, uint32_t kind, uint32_t x) {
    const uint32_t *f = t->net->funs;
    for (size_t j = 0; j < t->net->d; j++, f += 5)
        if (f[0] == v && f[1] == kind && f[2] == x) return true;
    return false;
}

static void tunnels(const tables *t, uint32_t v, uint32_t x, uint64_t *a) {
    const network *net = t->net;
    uint64_t inside[MOST_PLACES], exits[MOST_PLACES], ends[MOST_NODES];
    if (!serves(t, v, 1, x)) return;
    clear(inside, t->size);
    clear(exits, t->size);
    clear(ends, t->n);
    steps(t, v, 1, x, inside);
    for (size_t r = 0; r < t->size; r++)
        if (inside[r] < FAR) compose(t, r, inside[r], exits);
    for (size_t j = 0; j < net->d; j++) {
        const uint32_t *f = net->funs + 5 * j;
        if (f[1] != 2 || f[2] != x) continue;
        uint64_t k = exits[f[0] * t->p + f[3]];
        if (k < FAR) lower_to(ends, f[0], k + ((uint64_t)f[4] << 16) + 1);
    }
    for (size_t i = 0; i < net->c; i++) {
        const uint32_t *l = net->links + 4 * i;
        uint64_t k = ends[l[1]];
        if (k < FAR) lower_to(a, l[2] * t->p + x, k + ((uint64_t)l[3] << 16));
    }
}

typedef struct {
    uint32_t weight;
    uint16_t count;
} entry;

static entry entry_of(uint64_t k) {
    if (k >= FAR) return (entry){NEVER, 0};
    if (k >> 16 > 4000000000u) return (entry){OVER, 0};
    return (entry){(uint32_t)(k >> 16), (uint16_t)((k & 65535) < 4097 ? (k & 65535) : 4097)};
}

static bool lighter(entry a, entry b) { return a.weight < b.weight || (a.weight == b.weight && a.count < b.count); }

static bool sweep_row(tables *t, uint32_t v, uint32_t x, uint32_t since) {
    uint64_t a[MOST_PLACES], y[MOST_PLACES];
    uint32_t *weight = t->weight + (v * t->p + x) * t->size;
    uint16_t *count = t->count + (v * t->p + x) * t->size;
    clear(a, t->size);
    clear(y, t->size);
    steps(t, v, 0, x, a);
    tunnels(t, v, x, a);
    for (size_t r = 0; r < t->size; r++) {
        if (a[r] >= FAR) continue;
        entry known = {weight[r], count[r]}, new = entry_of(a[r]);
        if (lighter(known, new) || (t->stamps[r] < since && !lighter(new, known))) continue;
        compose(t, r, a[r], y);
    }
    bool fell = false;
    for (size_t q = 0; q < t->size; q++) {
        if (cost_of(weight[q], count[q]) <= y[q]) continue;
        entry known = {weight[q], count[q]}, new = entry_of(y[q]);
        if (!lighter(new, known)) continue;
        weight[q] = new.weight;
        count[q] = new.count;
        fell = true;
    }
    return fell;
}

static bool has_news(const tables *t, uint32_t w, uint32_t since) {
    for (size_t y = 0; y < t->p; y++)
        if (t->stamps[w * t->p + y] >= since) return true;
    return false;
}

static bool news_near(const tables *t, uint32_t v, uint32_t since) {
    const uint32_t *l = t->net->links;
    for (size_t i = 0; i < t->net->c; i++, l += 4)
        if (l[1] == v && has_news(t, l[2], since)) return true;
    return false;
}

static bool news_far(const tables *t, uint32_t x, uint32_t since) {
    const uint32_t *l = t->net->links;
    for (size_t i = 0; i < t->net->c; i++, l += 4)
        if (t->stamps[l[2] * t->p + x] >= since && serves(t, l[1], 2, x)) return true;
    return false;
}

/* Whether the row leans on nothing that has changed since then; since 0, everything has. */
static bool is_settled(const tables *t, uint32_t v, uint32_t x, uint32_t since) {
    return since != 0 && !news_near(t, v, since) && !(serves(t, v, 1, x) && news_far(t, x, since));
}

static bool sweep_all(tables *t, uint32_t stamp, uint32_t since, bool back) {
    bool fell = false;
    for (size_t k = 0; k < t->n; k++)
        for (size_t x = 0; x < t->p; x++) {
            size_t v = back ? t->n - 1 - k : k;
            if (is_settled(t, (uint32_t)v, (uint32_t)x, since) || !sweep_row(t, (uint32_t)v, (uint32_t)x, since)) continue;
            t->stamps[v * t->p + x] = stamp;
            fell = true;
        }
    return fell;
}

void plain_fill(const network *net, uint32_t *weight, uint16_t *count, uint16_t *choice) {
    tables t = {net, net->n, net->p, net->n * net->p, weight, count, {0}};
    for (size_t i = 0; i < t.size * t.size; i++) {
        weight[i] = NEVER;
        count[i] = 0;
    }
    for (size_t k = 0; k < t.size; k++) weight[k * t.size + k] = 0;
    bool back = false, done = false;
    for (uint32_t stamp = 1, since = 0; !done; stamp++, back = !back) {
        bool fell = sweep_all(&t, stamp, since, back);
        done = !fell && since == 0;
        since = fell ? stamp : 0;
    }
    for (size_t i = 0; i < 8 * t.size * t.size; i++) choice[i] = 0;
}
