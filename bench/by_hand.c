/*
 * by_hand.c: the operations of include/xdvdfs.h beside C written by hand for the same tasks, in one process. bench/by-hand builds and runs it.
 *
 * The C makes every check that the contracts ask for, gives the same answer, and is called as a function (noipa: nothing of a caller is known in it).
 *   c_look_up, c_walk, c_check  as a C programmer would write them;
 *   c_table                     plain: nodes in a struct, names compared byte by byte on the way down;
 *   c_table_fast                the fastest that was found: names sorted by eight raised bytes behind the front that all have in common, each entry hung beside its
 *                               neighbours with no way down the tree (so many names with the same first bytes, which do not occur here, would take it long). Where a
 *                               check fails c_table says the answer.
 * The C has memory of its own and leaves it as it is; the library is lent its memory and clears it, as its contract says.
 *
 * Before a race the answers are compared: sizes, bytes and next free sector of the tables; number, fields, place, offset and headers of the lookup of every name and of
 * a missing one beside each, under rule one, rule two and no rule; the lists of the walk and of the strict check, and what the check answers where names are exchanged. A
 * difference ends the program with 1.
 * Lookups are raced under rule one.
 * Time is the process's clock; turns alternate, and each has the least of its turns. A task of few entries is repeated within a turn, on the same input.
 *
 *   by_hand race [TURNS]     a line for each kind of names, fields parted by tabs: what, entries, then for each task ns an entry of ours and of the C
 *   by_hand growth [TURNS]   lines: kind, entries, task, ns an entry (ours alone)
 */
#include <stdint.h>
#include <stdio.h>
#include <stdlib.h>
#include <string.h>
#include <time.h>
#include "xdvdfs.h"

#if defined(__GNUC__) && !defined(__clang__)
#define CALLED __attribute__((noipa))
#else
#define CALLED __attribute__((noinline))
#endif
#define MOST 16384
#define NONE 65535

static inline uint8_t up(uint8_t c) { return (uint8_t)(c - 'a') < 26 ? c - 32 : c; }
static inline uint16_t get16(const uint8_t *p) { uint16_t v; memcpy(&v, p, 2); return v; }
static inline uint32_t get32(const uint8_t *p) { uint32_t v; memcpy(&v, p, 4); return v; }

static inline int compare(const uint8_t *a, size_t n, const uint8_t *b, size_t m) {
    size_t k = n < m ? n : m;
    for (size_t i = 0; i < k; i++)
        if (a[i] != b[i]) {
            int x = up(a[i]), y = up(b[i]);
            if (x != y) return x < y ? -1 : 1;
        }
    return n < m ? -1 : n > m;
}

/* READING */

static inline int is_blank(const uint8_t *e) {
    uint64_t a = (uint64_t)get32(e) | (uint64_t)get32(e + 4) << 32;
    uint64_t b = (uint64_t)get32(e + 8) | (uint64_t)get16(e + 12) << 32;
    return (a == 0 && b == 0) || (a == ~0ull && b == 0xffffffffffffull);
}

CALLED static uint32_t c_look_up(const uint8_t *w, size_t wl, uint32_t first, uint32_t sector, uint32_t size, const uint8_t *name, size_t n, uint32_t rule,
                                 struct xdvdfs_fields *fields, size_t *place, uint32_t *offset, uint32_t *headers) {
    if (rule != 1 && rule != 2) return 29;
    uint32_t absent = rule == 1 ? 255 : 65535; /* besides 0; a rule takes 255 for no link, as the Rust does, or 65,535, as the walk does */
    for (size_t i = 0; i < n; i++)
        if (name[i] > 127) return 2;
    if (!size) return 21;
    uint64_t base = (uint64_t)(sector - first) * 2048;
    uint32_t o = 0;
    for (uint32_t h = 1; h <= 65536; h++) {
        if (o >= size) { *offset = o; return 23; }
        uint64_t p = base + o;
        if (sector < first || p + 14 > wl) { *offset = o; return 24; }
        const uint8_t *e = w + p;
        if (is_blank(e)) { *headers = h; return 22; }
        size_t m = e[13];
        if (p + 14 + m > wl) { *offset = o; return 24; }
        int c = compare(name, n, e + 14, m);
        if (!c) {
            fields->left = get16(e); fields->right = get16(e + 2); fields->sector = get32(e + 4); fields->size = get32(e + 8);
            fields->attributes = e[12]; fields->name_len = e[13];
            *place = p; *offset = o; *headers = h;
            return 0;
        }
        uint32_t l = get16(c < 0 ? e : e + 2);
        if (l == 0 || l == absent) { *headers = h; return 22; }
        o = 4 * l;
    }
    return 25;
}

CALLED static uint32_t c_walk(const uint8_t *w, size_t wl, uint32_t first, uint32_t sector, uint32_t size,
                              uint32_t *list, size_t ll, uint32_t *st, size_t sl, size_t *count, uint32_t *offset) {
    if (sl <= ll) return 6;
    size_t n = 0, top = 0, high = 0;
    uint32_t o = 0, r = 0;
    uint64_t base = (uint64_t)(sector - first) * 2048;
    if (size) st[top++] = 0;
    while (top) {
        if (top > high) high = top;
        o = st[--top];
        uint64_t p = base + o;
        if (o >= size) { r = 23; break; }
        if (sector < first || p + 14 > wl) { r = 24; break; }
        const uint8_t *e = w + p;
        if (is_blank(e)) continue;
        if (p + 14 + e[13] > wl) { r = 24; break; }
        if (n == ll) { r = 26; break; }
        list[n++] = o;
        uint16_t a = get16(e), b = get16(e + 2);
        if (b != 0 && b != 65535) st[top++] = 4u * b;
        if (a != 0 && a != 65535) st[top++] = 4u * a;
    }
    memset(st, 0, 4 * sl);
    if (r) {
        memset(list, 0, 4 * ll);
        if (r != 26) *offset = o;
        return r;
    }
    memset(list + n, 0, 4 * (ll - n));
    *count = n;
    return 0;
}

/* the strict check: a bit for each four-byte unit, all units of an entry tested and set by words; a bit for each start. A place on the stack has its unit, and those of the
   nearest entries above it than whose names its own is to be less and greater: what is within these is within all. */
CALLED static uint32_t c_check(const uint8_t *w, size_t wl, uint32_t first, uint32_t sector, uint32_t size,
                               uint32_t *list, size_t ll, uint64_t *st, size_t sl, size_t *count, uint32_t *offset) {
    if (sl <= ll) return 6;
    static uint64_t used[1028], starts[1028];
    size_t n = 0, top = 0, units = size / 4 + 1 < 65604 ? size / 4 + 1 : 65604;
    uint32_t o = 0, r = 0;
    uint64_t base = (uint64_t)(sector - first) * 2048;
    memset(used, 0, units / 8 + 16);
    memset(starts, 0, units / 8 + 16);
    if (size) st[top++] = 0xffffffff0000ull;
    while (top) {
        uint64_t c = st[--top];
        uint32_t u = c & 65535;
        o = 4 * u;
        uint64_t p = base + o;
        if (o >= size) { r = 23; break; }
        if (sector < first || p + 14 > wl) { r = 24; break; }
        const uint8_t *e = w + p;
        if (is_blank(e)) continue;
        if (p + 14 + e[13] > wl) { r = 24; break; }
        if (starts[u / 64] >> u % 64 & 1) { r = 30; break; }
        if (n == ll) { r = 26; break; }
        uint32_t end = o + ((14 + e[13] + 3) & ~3u);
        if (end > size || o / 2048 != (end - 1) / 2048) { r = 32; break; }
        uint32_t k = (end - o) / 4, i = u / 64, s = u % 64;
        uint64_t m0 = k >= 64 ? ~0ull : (1ull << k) - 1, m1 = k > 64 ? (1ull << (k - 64)) - 1 : 0;
        uint64_t lo = m0 << s, hi = (s ? m0 >> (64 - s) : 0) | m1 << s;
        if ((used[i] & lo) | (used[i + 1] & hi)) { r = 32; break; }
        uint32_t under = c >> 16 & 65535, over = c >> 32 & 65535;
        if (under != 65535) { const uint8_t *q = w + base + 4 * under; if (compare(e + 14, e[13], q + 14, q[13]) >= 0) { r = 31; break; } }
        if (over != 65535) { const uint8_t *q = w + base + 4 * over; if (compare(q + 14, q[13], e + 14, e[13]) >= 0) { r = 31; break; } }
        used[i] |= lo; used[i + 1] |= hi; starts[i] |= 1ull << s;
        list[n++] = o;
        uint16_t a = get16(e), b = get16(e + 2);
        if (b != 0 && b != 65535) st[top++] = b | (uint64_t)under << 16 | (uint64_t)u << 32;
        if (a != 0 && a != 65535) st[top++] = a | (uint64_t)u << 16 | (uint64_t)over << 32;
    }
    memset(st, 0, 8 * sl);
    if (r) {
        memset(list, 0, 4 * ll);
        if (r != 26) *offset = o;
        return r;
    }
    memset(list + n, 0, 4 * (ll - n));
    *count = n;
    return 0;
}

/* WRITING */

struct list { uint32_t count; const uint32_t *start, *len, *size; const uint8_t *kind, *names; size_t names_len; };
struct node { uint16_t left, right, parent; uint8_t height, len; uint32_t name; };
static struct node T[MOST];
static uint16_t order[MOST], place[MOST], root;

static inline int high(uint16_t i) { return i == NONE ? 0 : T[i].height; }
static inline void raise_height(uint16_t i) { int a = high(T[i].left), b = high(T[i].right); T[i].height = 1 + (a > b ? a : b); }
static inline void relink(uint16_t p, uint16_t old, uint16_t to) {
    if (p == NONE) root = to;
    else if (T[p].left == old) T[p].left = to;
    else T[p].right = to;
    T[to].parent = p;
}
static uint16_t turn_right(uint16_t a) {
    uint16_t b = T[a].left, p = T[a].parent, m = T[b].right;
    T[a].left = m;
    if (m != NONE) T[m].parent = a;
    T[b].right = a;
    relink(p, a, b);
    T[a].parent = b;
    raise_height(a);
    raise_height(b);
    return b;
}
static uint16_t turn_left(uint16_t a) {
    uint16_t b = T[a].right, p = T[a].parent, m = T[b].left;
    T[a].right = m;
    if (m != NONE) T[m].parent = a;
    T[b].left = a;
    relink(p, a, b);
    T[a].parent = b;
    raise_height(a);
    raise_height(b);
    return b;
}
/* i has been hung below p: heights and turns upwards, as far as a height changes */
static inline void climb(uint16_t a) {
    while (a != NONE) {
        int old = T[a].height, l = high(T[a].left), r = high(T[a].right);
        if (l - r > 1) {
            uint16_t b = T[a].left;
            if (high(T[b].left) < high(T[b].right)) turn_left(b);
            a = turn_right(a);
        } else if (r - l > 1) {
            uint16_t b = T[a].right;
            if (high(T[b].right) < high(T[b].left)) turn_right(b);
            a = turn_left(a);
        } else
            T[a].height = 1 + (l > r ? l : r);
        if (T[a].height == old) return;
        a = T[a].parent;
    }
}
static inline uint32_t stored_size(const struct list *s, uint32_t i) { return s->kind[i] == 1 ? (s->size[i] + 2047) & ~2047u : s->size[i]; }

/* places, sectors and bytes of the tree below the root */
static inline uint32_t write_tree(const struct list *s, uint32_t first, uint8_t *out, size_t out_len, uint32_t *table_size, uint32_t *next_free) {
    uint32_t o = 0, k = 0, top = 0;
    uint16_t st[64];
    uint64_t sector = first;
    if (root != NONE) st[top++] = root;
    while (top) {
        uint16_t i = st[--top];
        uint32_t el = (14 + T[i].len + 3) & ~3u;
        if (o / 2048 != (o + el - 1) / 2048) o = (o + 2047) & ~2047u;
        if (o > 262143) return 7;
        place[i] = o / 4;
        order[k++] = i;
        o += el;
        uint64_t z = stored_size(s, i);
        sector += z ? (z + 2047) / 2048 : 1;
        if (T[i].right != NONE) st[top++] = T[i].right;
        if (T[i].left != NONE) st[top++] = T[i].left;
    }
    if (sector > 4294967295u) return 8;
    uint32_t total = s->count ? o : 2048, whole = (total + 2047) & ~2047u;
    if (out_len < whole) return 9;
    memset(out, 0xff, whole);
    uint32_t at = first;
    for (uint32_t j = 0; j < k; j++) {
        uint16_t i = order[j], l = T[i].left == NONE ? 0 : place[T[i].left], r = T[i].right == NONE ? 0 : place[T[i].right];
        uint8_t *e = out + 4u * place[i];
        uint32_t z = stored_size(s, i);
        memcpy(e, &l, 2); memcpy(e + 2, &r, 2); memcpy(e + 4, &at, 4); memcpy(e + 8, &z, 4);
        e[12] = s->kind[i] == 1 ? 16 : 32;
        e[13] = T[i].len;
        memcpy(e + 14, s->names + T[i].name, T[i].len);
        at += z ? (z + 2047) / 2048 : 1;
    }
    *table_size = total;
    *next_free = sector;
    return 0;
}

/* what is asked of an entry by itself */
static inline uint32_t check_entry(const struct list *s, uint32_t i) {
    uint64_t n = s->len[i], from = s->start[i];
    if (n == 0) return 1;
    if (from + n > s->names_len) return 2;
    int bad = 0;
    for (uint64_t k = from; k < from + n; k++) bad |= (uint8_t)(s->names[k] - 1) > 126;
    if (bad) return 2;
    if (n > 255) return 3;
    if (s->kind[i] == 1 && s->size[i] > 4294965248u) return 5;
    return 0;
}

CALLED static uint32_t c_table(const struct list *s, uint32_t first, uint8_t *out, size_t out_len, uint32_t *table_size, uint32_t *next_free, uint32_t *entry) {
    root = NONE;
    for (uint32_t i = 0; i < s->count; i++) {
        uint32_t fault = check_entry(s, i);
        if (fault) { *entry = i; return fault; }
        const uint8_t *name = s->names + s->start[i];
        uint32_t n = s->len[i];
        uint16_t at = root, p = NONE;
        int c = 0;
        while (at != NONE) {
            p = at;
            c = compare(name, n, s->names + T[at].name, T[at].len);
            if (!c) { *entry = i; return 4; }
            at = c < 0 ? T[at].left : T[at].right;
        }
        if (i >= MOST) { *entry = i; return 6; }
        T[i] = (struct node){NONE, NONE, p, 1, (uint8_t)n, s->start[i]};
        if (p == NONE) { root = i; continue; }
        if (c < 0) T[p].left = i; else T[p].right = i;
        climb(p);
    }
    return write_tree(s, first, out, out_len, table_size, next_free);
}

/* one of the names sorted: eight raised bytes behind the common front, and whose they are */
struct sorted { uint64_t key; uint32_t of; };
static struct sorted by_name[MOST], other[MOST];
static uint16_t before[MOST + 2], after[MOST + 2];

static int less(const struct list *s, const struct sorted *a, const struct sorted *b) {
    if (a->key != b->key) return a->key < b->key;
    return compare(s->names + s->start[a->of], s->len[a->of], s->names + s->start[b->of], s->len[b->of]) < 0;
}

/* by the digits of the first four bytes, then what is equal there by insertion */
static struct sorted *sort(const struct list *s, uint32_t n) {
    static uint32_t count[2048];
    struct sorted *from = by_name, *to = other;
    int bits = n < 2000 ? 8 : 11;
    for (int low = 64 - (bits == 8 ? 32 : 33); low < 64; low += bits) {
        uint32_t mask = (1u << bits) - 1, sum = 0;
        memset(count, 0, 4 * (mask + 1));
        for (uint32_t i = 0; i < n; i++) count[from[i].key >> low & mask]++;
        if (count[from[0].key >> low & mask] == n) continue;
        for (uint32_t d = 0; d <= mask; d++) { uint32_t c = count[d]; count[d] = sum; sum += c; }
        for (uint32_t i = 0; i < n; i++) to[count[from[i].key >> low & mask]++] = from[i];
        struct sorted *t = from; from = to; to = t;
    }
    for (uint32_t i = 1; i < n; i++) {
        struct sorted x = from[i];
        uint32_t j = i;
        while (j && less(s, &x, &from[j - 1])) { from[j] = from[j - 1]; j--; }
        from[j] = x;
    }
    return from;
}

CALLED static uint32_t c_table_fast(const struct list *s, uint32_t first, uint8_t *out, size_t out_len, uint32_t *table_size, uint32_t *next_free, uint32_t *entry) {
    uint32_t n = s->count, front = n && s->len[0] <= 255 ? s->len[0] : 0;
    if (n > MOST) return c_table(s, first, out, out_len, table_size, next_free, entry);
    for (uint32_t i = 0; i < n; i++) {
        if (check_entry(s, i)) return c_table(s, first, out, out_len, table_size, next_free, entry);
        if (s->len[i] < front) front = s->len[i];
        if (i && front && memcmp(s->names + s->start[i], s->names + s->start[0], front)) {
            uint32_t k = 0;
            while (k < front && up(s->names[s->start[i] + k]) == up(s->names[s->start[0] + k])) k++;
            front = k;
        }
    }
    int in_order = 1;
    for (uint32_t i = 0; i < n; i++) {
        const uint8_t *p = s->names + s->start[i] + front;
        uint32_t m = s->len[i] - front;
        uint64_t key = 0;
        if (m >= 8) {
            memcpy(&key, p, 8);
            key = __builtin_bswap64(key);
        } else
            for (uint32_t k = 0; k < m; k++) key |= (uint64_t)p[k] << (56 - 8 * k);
        uint64_t a = key + 0x1f1f1f1f1f1f1f1full, z = key + 0x0505050505050505ull; /* 0x80 where a byte is at least 'a', and where it is above 'z' */
        key -= (a & ~z & 0x8080808080808080ull) >> 2;
        by_name[i] = (struct sorted){key, i};
        if (i && in_order && !less(s, &by_name[i - 1], &by_name[i])) in_order = 0;
    }
    struct sorted *from = in_order ? by_name : sort(s, n);
    for (uint32_t i = 1; i < n; i++)
        if (!less(s, &from[i - 1], &from[i])) return c_table(s, first, out, out_len, table_size, next_free, entry);
    /* taken out from the last entry back, each leaves its neighbours among those before it: NONE, or one below which there is a free place on that side */
    for (uint32_t i = 0; i < n; i++) {
        before[from[i].of] = i ? from[i - 1].of : MOST;
        after[from[i].of] = i + 1 < n ? from[i + 1].of : MOST;
    }
    for (uint32_t i = n; i-- > 0;) {
        uint16_t b = before[i], a = after[i];
        after[b] = a;
        before[a] = b;
    }
    root = NONE;
    for (uint32_t i = 0; i < n; i++) {
        uint16_t b = before[i], a = after[i], p;
        if (b != MOST && T[b].right == NONE) { p = b; T[p].right = i; }
        else if (a != MOST) { p = a; T[p].left = i; }
        else { p = NONE; root = i; }
        T[i] = (struct node){NONE, NONE, p, 1, (uint8_t)s->len[i], s->start[i]};
        climb(p);
    }
    return write_tree(s, first, out, out_len, table_size, next_free);
}

/* THE RACE */

static double now(void) { struct timespec t; clock_gettime(CLOCK_PROCESS_CPUTIME_ID, &t); return t.tv_sec * 1e9 + t.tv_nsec; }
static uint64_t seed = 88172645463325252ull;
static uint64_t draw(void) { seed ^= seed << 13; seed ^= seed >> 7; seed ^= seed << 17; return seed; }
static void fail(const char *what, const char *why) { fprintf(stderr, "%s: %s\n", what, why); exit(1); }

static uint8_t names[8 << 20], kind[MOST];
static uint32_t start[MOST], len[MOST], size[MOST];
static size_t names_len;
static uint16_t L[MOST], R[MOST], P[MOST], O[MOST], PL[MOST];
static uint8_t H[MOST];
static uint32_t K[MOST];
static uint8_t out[1 << 19], out2[1 << 19], out3[1 << 19];
static uint32_t list[MOST], list2[MOST], sc[MOST + 1];
static uint64_t sc8[MOST + 1];
static volatile uint64_t sink;

static int by_name_at(const void *a, const void *b) {
    uint32_t i = *(const uint32_t *)a, j = *(const uint32_t *)b;
    return compare(names + start[i], len[i], names + start[j], len[j]);
}

/* at most n different names of a front and lo to hi bytes, in random order or sorted */
static uint32_t make(uint32_t n, int lo, int hi, const char *front, int sorted) {
    static uint32_t perm[MOST], s2[MOST], l2[MOST];
    size_t fl = strlen(front), at = 0;
    for (uint32_t i = 0; i < n; i++) {
        uint32_t x = i;
        int few = lo == 1 && hi == 3, m = few ? 1 + (x >= 100) + (x >= 10100) : lo + (int)(draw() % (hi - lo + 1)); /* the shortest names: 100 of one byte, 10,000 of two */
        if (few) x -= m == 1 ? 0 : m == 2 ? 100 : 10100;
        start[i] = at; len[i] = fl + m; size[i] = draw() % 5000; kind[i] = 0; perm[i] = i;
        memcpy(names + at, front, fl);
        for (int k = 0; k < m; k++) {
            names[at + fl + k] = few ? (uint8_t)(1 + x % 100 + (x % 100 >= 96 ? 26 : 0)) : (uint8_t)"abcdefghijklmnopqrstuvwxyz0123456789_"[draw() % 37];
            x /= 100;
        }
        at += fl + m;
    }
    names_len = at;
    qsort(perm, n, 4, by_name_at);
    uint32_t u = 0;
    for (uint32_t i = 0; i < n; i++)
        if (!u || by_name_at(&perm[u - 1], &perm[i])) perm[u++] = perm[i];
    if (!sorted)
        for (uint32_t i = u; i > 1; i--) { uint32_t j = draw() % i, t = perm[i - 1]; perm[i - 1] = perm[j]; perm[j] = t; }
    for (uint32_t i = 0; i < u; i++) { s2[i] = start[perm[i]]; l2[i] = len[perm[i]]; }
    memcpy(start, s2, 4 * u); memcpy(len, l2, 4 * u);
    return u;
}

static uint32_t ours_table(uint32_t n, uint8_t *to, size_t to_len, uint32_t *ts, uint32_t *nf, uint32_t *entry) {
    return xdvdfs_write_list(n, start, n, len, n, size, n, kind, n, names, names_len, 34, L, n, R, n, P, n, H, n, K, n, O, n, PL, n, to, to_len, ts, nf, entry);
}

#define LEAST(best, t) do { double t_ = (t); if (t_ < (best)) (best) = t_; } while (0)

static void swap_names(uint8_t *a, uint8_t *b, size_t n) {
    for (size_t i = 0; i < n; i++) { uint8_t t = a[i]; a[i] = b[i]; b[i] = t; }
}

static void check_answers(const char *what, uint32_t n, const struct list *s, uint32_t *ts, size_t *wl) {
    uint32_t nf = 0, e = 0, ts2 = 0, nf2 = 0, ts3 = 0, nf3 = 0;
    memset(out, 7, sizeof out); memset(out2, 7, sizeof out2); memset(out3, 7, sizeof out3);
    if (ours_table(n, out, sizeof out, ts, &nf, &e) || c_table(s, 34, out2, sizeof out2, &ts2, &nf2, &e) || c_table_fast(s, 34, out3, sizeof out3, &ts3, &nf3, &e))
        fail(what, "a table is refused");
    if (*ts != ts2 || *ts != ts3 || nf != nf2 || nf != nf3 || memcmp(out, out2, sizeof out) || memcmp(out, out3, sizeof out)) fail(what, "the tables differ");
    for (uint32_t i = 0; i < n; i++)
        if (L[i] | R[i] | P[i] | H[i] | K[i] | O[i] | PL[i]) fail(what, "scratch is not cleared");
    *wl = (*ts + 2047) / 2048 * 2048;
    for (uint32_t i = 0; i < 6 * n; i++) { /* under both rules, and under a number that is none */
        uint8_t name[256];
        uint32_t m = len[i / 6], rule = i / 2 % 3 + 1;
        memcpy(name, names + start[i / 6], m);
        if (i % 2) name[m - 1] ^= 3;
        struct xdvdfs_fields f, g;
        size_t p = 1, q = 1;
        uint32_t o = 1, o2 = 1, h = 1, h2 = 1;
        memset(&f, 0, sizeof f); memset(&g, 0, sizeof g);
        uint32_t a = xdvdfs_look_up(out, *wl, 33, 33, *ts, name, m, rule, &f, &p, &o, &h), b = c_look_up(out, *wl, 33, 33, *ts, name, m, rule, &g, &q, &o2, &h2);
        if (a != b || memcmp(&f, &g, sizeof f) || p != q || o != o2 || h != h2) fail(what, "the lookups differ");
    }
    size_t c = 0, c2 = 0;
    uint32_t o;
    memset(list, 7, sizeof list); memset(list2, 7, sizeof list2);
    if (xdvdfs_walk(out, *wl, 33, 33, *ts, list, n, sc, n + 1, &c, &o) || c_walk(out, *wl, 33, 33, *ts, list2, n, sc, n + 1, &c2, &o) || c != n || c2 != n ||
        memcmp(list, list2, sizeof list)) fail(what, "the walks differ");
    memset(list, 7, sizeof list); c = 0;
    if (xdvdfs_check_table(out, *wl, 33, 33, *ts, list, n, sc8, n + 1, &c, &o) || c != n || memcmp(list, list2, sizeof list)) fail(what, "the strict check differs");
    memset(list, 7, sizeof list); c = 0;
    if (c_check(out, *wl, 33, 33, *ts, list, n, sc8, n + 1, &c, &o) || c != n || memcmp(list, list2, sizeof list)) fail(what, "the strict check in C differs");
    for (uint32_t i = 0; i < 100; i++) { /* two names of one length exchanged: mostly 31 */
        uint32_t x = list2[i * 7919u % n], y = list2[i * 104729u % n], o1 = 1, o2 = 1;
        size_t counted = 1, counted_c = 1;
        if (out[x + 13] != out[y + 13]) continue;
        swap_names(out + x + 14, out + y + 14, out[x + 13]);
        uint32_t a = xdvdfs_check_table(out, *wl, 33, 33, *ts, list, n, sc8, n + 1, &counted, &o1), b = c_check(out, *wl, 33, 33, *ts, list, n, sc8, n + 1, &counted_c, &o2);
        if (a != b || o1 != o2 || counted != counted_c) fail(what, "the strict checks of a table out of order differ");
        swap_names(out + x + 14, out + y + 14, out[x + 13]);
    }
}

/* ns an entry: [task][who], who being ours, the plain C, the fast C; tasks: whole table, lookup, walk, strict check */
enum { TABLE, LOOKUP, WALK, CHECK, TASKS };
static void race(const char *what, uint32_t n, int turns, int whos, double best[TASKS][3]) {
    struct list s = {n, start, len, size, kind, names, names_len};
    uint32_t ts, nf, e, o = 0;
    size_t wl, c;
    check_answers(what, n, &s, &ts, &wl);
    for (int t = 0; t < TASKS; t++)
        for (int w = 0; w < 3; w++) best[t][w] = 1e18;
    int reps = 100000 / n + 1;
    for (int turn = 0; turn < turns; turn++)
        for (int k = 0; k < whos; k++) {
            int me = (k + turn) % whos, few = reps / 4 + 1;
            double t = now();
            for (int q = 0; q < few; q++) {
                uint32_t r = me == 0 ? ours_table(n, out, sizeof out, &ts, &nf, &e)
                    : me == 1 ? c_table(&s, 34, out, sizeof out, &ts, &nf, &e) : c_table_fast(&s, 34, out, sizeof out, &ts, &nf, &e);
                sink += r;
            }
            LEAST(best[TABLE][me], (now() - t) / few / n);
            if (me == 2) continue;
            few = reps / 8 + 1;
            t = now();
            for (int q = 0; q < few; q++)
                for (uint32_t i = 0; i < n; i++) {
                    uint32_t x = i * 7919u % n, at = 0, h = 0;
                    struct xdvdfs_fields f;
                    size_t p;
                    if (me) c_look_up(out, wl, 33, 33, ts, names + start[x], len[x], 1, &f, &p, &at, &h);
                    else xdvdfs_look_up(out, wl, 33, 33, ts, names + start[x], len[x], 1, &f, &p, &at, &h);
                    sink += at + h;
                }
            LEAST(best[LOOKUP][me], (now() - t) / few / n);
            t = now();
            for (int q = 0; q < reps; q++)
                sink += me ? c_walk(out, wl, 33, 33, ts, list, n, sc, n + 1, &c, &o) : xdvdfs_walk(out, wl, 33, 33, ts, list, n, sc, n + 1, &c, &o);
            LEAST(best[WALK][me], (now() - t) / reps / n);
            few = reps / 2 + 1;
            t = now();
            for (int q = 0; q < few; q++)
                sink += me ? c_check(out, wl, 33, 33, ts, list, n, sc8, n + 1, &c, &o) : xdvdfs_check_table(out, wl, 33, 33, ts, list, n, sc8, n + 1, &c, &o);
            LEAST(best[CHECK][me], (now() - t) / few / n);
        }
}

#define FRONT "TRACK_AXIS_LIMITS_FILE"
static const struct { const char *what; uint32_t n; int lo, hi; const char *front; int sorted; } ROWS[] = {
    {"1 name of 4 bytes", 1, 4, 4, "", 0},
    {"100 short", 100, 4, 8, "", 0},
    {"100 short, in order", 100, 4, 8, "", 1},
    {"1,000 short", 1000, 4, 8, "", 0},
    {"1,000 short, in order", 1000, 4, 8, "", 1},
    {"8,000 short", 8000, 4, 8, "", 0},
    {"8,000 short, in order", 8000, 4, 8, "", 1},
    {"15,000 of 1 to 3 bytes", 15000, 1, 3, "", 0},
    {"100 long", 100, 4, 4, FRONT, 0},
    {"1,000 long", 1000, 4, 4, FRONT, 0},
    {"6,000 long", 6000, 4, 4, FRONT, 0},
};

/* A plan of as many directories, eight below each, and entries evenly shared; ns an entry. */
static double plan(uint32_t directories, uint32_t entries, int turns) {
    uint32_t *first = calloc(directories, 4), *share = calloc(directories, 4), *st = calloc(entries, 4), *ln = calloc(entries, 4);
    uint32_t *sizes = calloc(directories, 4), *tables = calloc(directories, 4), *sectors = calloc(entries, 4), *sized = calloc(directories, 4);
    uint64_t *value = calloc(entries, 8);
    uint8_t *kd = calloc(entries, 1), *nm = malloc(9 * (size_t)entries);
    uint16_t *ord = calloc(entries, 2);
    size_t at = 0;
    uint32_t named = 0, e = 0, largest = 0;
    for (uint32_t d = 0; d < directories; d++) {
        uint32_t n = entries / directories + (d < entries % directories);
        first[d] = e;
        share[d] = n;
        if (n > largest) largest = n;
        for (uint32_t i = 0; i < n; i++, e++) {
            int m = 4 + draw() % 4;
            st[e] = at;
            ln[e] = m + 1;
            for (int k = 0; k < m; k++) nm[at++] = "abcdefghijklmnopqrstuvwxyz0123456789_"[draw() % 37];
            nm[at++] = '!' + i % 64; /* fewer equal names; the rest is drawn again below */
            kd[e] = i < 8 && named + 1 < directories;
            value[e] = kd[e] ? ++named : draw() % 5000;
        }
    }
    if (e != entries || named + 1 != directories || largest > MOST) fail("plan", "bad input");
    uint32_t nf, en, di, r;
    double best = 1e18;
    for (int turn = 0; turn < turns; turn++) {
        double t = now();
        r = xdvdfs_plan(directories, entries, first, directories, share, directories, st, entries, ln, entries, kd, entries, value, entries, nm, at,
                        sizes, directories, tables, directories, sectors, entries, sized, directories, L, MOST, R, MOST, P, MOST, H, MOST, K, MOST, sc, MOST,
                        ord, entries, &nf, &en, &di);
        t = now() - t;
        if (r == 4) { nm[st[en]] = "abcdefghijklmnopqrstuvwxyz0123456789_"[draw() % 37]; turn--; continue; } /* an equal name: drawn again */
        if (r) { fprintf(stderr, "plan refused: %u\n", r); exit(1); }
        LEAST(best, t / entries);
    }
    free(first); free(share); free(st); free(ln); free(sizes); free(tables); free(sectors); free(sized); free(value); free(kd); free(nm); free(ord);
    return best;
}

int main(int argc, char **argv) {
    int turns = argc > 2 ? atoi(argv[2]) : 24;
    const char *only = argc > 3 ? argv[3] : "";
    double b[TASKS][3];
    if (argc > 1 && !strcmp(argv[1], "growth")) {
        static const char *const TASK[] = {"whole table", "lookup", "walk", "strict check"};
        static const struct { const char *kind; int lo, hi; const char *front; uint32_t n[4]; } G[] = {
            {"1 to 3 bytes", 1, 3, "", {100, 1000, 8000, 15000}}, {"26 bytes, 22 common", 4, 4, FRONT, {100, 1000, 3000, 6000}}};
        for (unsigned g = 0; g < 2; g++)
            for (int k = 0; k < 4; k++) {
                uint32_t n = make(G[g].n[k], G[g].lo, G[g].hi, G[g].front, 0);
                race("growth", n, turns, 1, b);
                for (int t = 0; t < TASKS; t++) printf("%s\t%u\t%s\t%.2f\n", G[g].kind, n, TASK[t], b[t][0]);
            }
        static const uint32_t D[] = {600, 1900, 6000, 19000, 65535}, N[] = {10000, 31623, 100000, 316228, 1000000};
        for (int k = 0; k < 5; k++) printf("16 entries a directory\t%u\tplan\t%.2f\n", N[k], plan(D[k], N[k], turns / 3 + 1));
        return 0;
    }
    for (unsigned i = 0; i < sizeof ROWS / sizeof *ROWS; i++) {
        uint32_t n = make(ROWS[i].n, ROWS[i].lo, ROWS[i].hi, ROWS[i].front, ROWS[i].sorted);
        if (!strstr(ROWS[i].what, only)) continue;
        race(ROWS[i].what, n, turns, 3, b);
        printf("%s\t%u", ROWS[i].what, n);
        for (int t = 0; t < TASKS; t++) printf("\t%.2f\t%.2f", b[t][0], b[t][1]);
        printf("\t%.2f\n", b[TABLE][2]);
        fflush(stdout);
    }
    return 0;
}
