/*
 * tests: what include/xdvdfs.h says of empty slices, of the order that the strict check asks for and of what it gives, of names that are listed and not found under the two
 * rules, of numbers that are no rule's, of rings, of shares that overlap, of a kind that is neither 0 nor 1, of the bytes of a descriptor, of dates, of the limits loader and
 * of the numbers' texts.
 * For every slice of every function a call is made in which that slice is NULL with length 0 and the others are there, and one in which all are; each number, each [out] cell and all
 * lent memory are compared with what the header says. bin/test-bindings builds and runs it. It prints each difference; its last line counts.
 */
#include <stdio.h>
#include <string.h>
#include <time.h>

#include "xdvdfs.h"

static int tried, wrong;

static void expect(int line, const char *what, int missing, unsigned long is, unsigned long should)
{
    tried++;
    if (is != should) {
        wrong++;
        printf("tests.c:%d: %s, slice %d: %lu and not %lu\n", line, what, missing, is, should);
    }
}

static void expect_text(int line, const char *is, const char *should)
{
    tried++;
    if (strcmp(is, should) != 0) {
        wrong++;
        printf("tests.c:%d: %s and not %s\n", line, is, should);
    }
}

/* `missing` is the number of the slice that is NULL; ALL is every one, NONE is none */
enum { ALL = -1, NONE = 99 };
#define EMPTY(i) (missing == (i) || missing == ALL)
#define SLICE(i, p, n) (EMPTY(i) ? NULL : (p)), (EMPTY(i) ? (size_t)0 : (size_t)(n))
#define EXPECT(what, is, should) expect(__LINE__, what, missing, (unsigned long)(is), (unsigned long)(should))
#define UNTOUCHED 77u
#define FILL(x) memset(&(x), 0x4d, sizeof(x))
#define IS_FILL(what, x) EXPECT(what ": is as it was", same_bytes((x), sizeof(x), 0x4d), 1)
#define IS_ZERO(what, x) EXPECT(what ": is zero", same_bytes((x), sizeof(x), 0), 1)

static int same_bytes(const void *p, size_t n, unsigned char byte)
{
    const unsigned char *b = p;
    size_t i;
    for (i = 0; i < n; i++)
        if (b[i] != byte)
            return 0;
    return 1;
}

/* b with the links 4 and 8, then a and c, in a table of 48 bytes */
static const uint8_t abc[48] = {4, 0, 8, 0, 34, 0, 0, 0, 1, 0, 0, 0, 32, 1, 'b', 255, 0, 0, 0, 0, 35, 0, 0, 0,
                                1, 0, 0, 0, 32, 1, 'a', 255, 0, 0, 0, 0, 36, 0, 0, 0, 1, 0, 0, 0, 32, 1, 'c', 255};

static void reading(void)
{
    struct xdvdfs_fields fields;
    uint32_t sector = UNTOUCHED, size = UNTOUCHED, found, offset, headers, rule;
    uint64_t stamp = UNTOUCHED;
    size_t place, start, len;
    int missing = 0;

    EXPECT("read_descriptor", xdvdfs_read_descriptor(NULL, 0, &sector, &size, &stamp), XDVDFS_NO_VOLUME);
    EXPECT("read_descriptor: sector", sector, UNTOUCHED);
    EXPECT("read_descriptor: size", size, UNTOUCHED);
    EXPECT("read_descriptor: stamp", stamp, UNTOUCHED);

    FILL(fields);
    found = offset = headers = UNTOUCHED;
    place = UNTOUCHED;
    EXPECT("read_entry of size 0", xdvdfs_read_entry(NULL, 0, 0, 0, 0, 0, &found, &fields, &place), XDVDFS_OUT_OF_BOUNDS);
    EXPECT("read_entry", xdvdfs_read_entry(NULL, 0, 0, 0, 48, 16, &found, &fields, &place), XDVDFS_TRUNCATED);
    EXPECT("read_entry: found", found, UNTOUCHED);
    EXPECT("read_entry: place", place, UNTOUCHED);
    EXPECT("read_entry: fields", same_bytes(&fields, sizeof fields, 0x4d), 1);

    start = len = UNTOUCHED;
    xdvdfs_entry_name(NULL, 0, 5, 255, &start, &len);
    EXPECT("entry_name: start", start, 0);
    EXPECT("entry_name: len", len, 0);

    for (rule = XDVDFS_RULE_ONE; rule <= XDVDFS_RULE_TWO; rule++)
        for (missing = ALL; missing <= 1; missing++) { /* 0 is the window, 1 the name */
            uint32_t number;
            offset = headers = UNTOUCHED;
            EXPECT("look_up of size 0", xdvdfs_look_up(SLICE(0, abc, 48), 0, 0, 0, SLICE(1, (const uint8_t *)"a", 1), rule, &fields, &place, &offset, &headers),
                   XDVDFS_DIRECTORY_EMPTY);
            number = xdvdfs_look_up(SLICE(0, abc, 48), 0, 0, 48, SLICE(1, (const uint8_t *)"a", 1), rule, &fields, &place, &offset, &headers);
            if (EMPTY(0)) {
                EXPECT("look_up", number, XDVDFS_TRUNCATED);
                EXPECT("look_up: offset", offset, 0);
                EXPECT("look_up: headers", headers, UNTOUCHED);
            } else { /* the name without bytes is less than every other: b, a, and no link */
                EXPECT("look_up", number, XDVDFS_DOES_NOT_EXIST);
                EXPECT("look_up: offset", offset, UNTOUCHED);
                EXPECT("look_up: headers", headers, 2);
            }
            offset = UNTOUCHED;
            number = xdvdfs_find_path(SLICE(0, abc, 48), 0, 0, 48, SLICE(1, (const uint8_t *)"a", 1), rule, &fields, &place, &offset);
            EXPECT("find_path", number, EMPTY(1) ? XDVDFS_NO_DIRENT : XDVDFS_TRUNCATED);
            EXPECT("find_path: offset", offset, EMPTY(1) ? UNTOUCHED : 0);
        }
    missing = NONE;
    EXPECT("look_up: fields after refusals", same_bytes(&fields, sizeof fields, 0x4d), 1);
    EXPECT("look_up: place after refusals", place, UNTOUCHED);
}

static void walking(void)
{
    uint32_t list[4], scratch[5], offset, number;
    uint64_t wide[5];
    size_t count;
    int missing, strict;
    for (strict = 0; strict <= 1; strict++)
        for (missing = ALL; missing <= 2; missing++) { /* the window, the list, the scratch */
            count = offset = UNTOUCHED;
            FILL(list);
            FILL(scratch);
            FILL(wide);
            number = strict ? xdvdfs_check_table(SLICE(0, abc, 48), 0, 0, 48, SLICE(1, list, 4), SLICE(2, wide, 5), &count, &offset)
                            : xdvdfs_walk(SLICE(0, abc, 48), 0, 0, 48, SLICE(1, list, 4), SLICE(2, scratch, 5), &count, &offset);
            EXPECT("walk", number, EMPTY(2) ? XDVDFS_ROOM : EMPTY(0) ? XDVDFS_TRUNCATED : XDVDFS_WALK_FULL);
            EXPECT("walk: count", count, UNTOUCHED);
            EXPECT("walk: offset", offset, !EMPTY(2) && EMPTY(0) ? 0 : UNTOUCHED);
            if (EMPTY(1) || EMPTY(2))
                IS_FILL("walk: list", list);
            else
                IS_ZERO("walk: list", list);
            if (EMPTY(2)) {
                IS_FILL("walk: scratch", scratch);
                IS_FILL("walk: scratch", wide);
            } else if (strict)
                IS_ZERO("walk: scratch", wide);
            else
                IS_ZERO("walk: scratch", scratch);
            /* a table of size 0 lists nothing, also without a window and without a list */
            count = UNTOUCHED;
            number = strict ? xdvdfs_check_table(SLICE(0, abc, 48), 0, 0, 0, SLICE(1, list, 4), SLICE(2, wide, 5), &count, &offset)
                            : xdvdfs_walk(SLICE(0, abc, 48), 0, 0, 0, SLICE(1, list, 4), SLICE(2, scratch, 5), &count, &offset);
            EXPECT("walk of size 0", number, EMPTY(2) ? XDVDFS_ROOM : XDVDFS_DONE);
            EXPECT("walk of size 0: count", count, EMPTY(2) ? UNTOUCHED : 0);
        }
}

/* An arena that holds one entry, `a`, or none */
struct arena {
    uint16_t root, count, left[2], right[2], parent[2];
    uint8_t height[2], kind[2];
    uint32_t start[2], len[2], size[2];
};

static struct arena arena_of(int held)
{
    struct arena a;
    FILL(a);
    a.root = held ? 0 : XDVDFS_NO_NODE;
    a.count = (uint16_t)held;
    a.left[0] = a.right[0] = a.parent[0] = XDVDFS_NO_NODE;
    a.height[0] = 1;
    a.start[0] = 0;
    a.len[0] = 1;
    a.size[0] = 1;
    a.kind[0] = XDVDFS_KIND_FILE;
    return a;
}

#define ARENA(a)                                                                                                                                     \
    SLICE(0, (a).left, 2), SLICE(1, (a).right, 2), SLICE(2, (a).parent, 2), SLICE(3, (a).height, 2), SLICE(4, (a).start, 2), SLICE(5, (a).len, 2), \
        SLICE(6, (a).size, 2), SLICE(7, (a).kind, 2), SLICE(8, (const uint8_t *)"ab", 2)

static void adding(void)
{
    int missing, held;
    struct arena a, before;
    for (held = 0; held <= 1; held++)
        for (missing = ALL; missing <= 8; missing++) { /* eight columns, and the names */
            uint32_t number, should;
            a = arena_of(held);
            before = a;
            number = xdvdfs_add(&a.root, &a.count, ARENA(a), 1, 1, XDVDFS_KIND_FILE, 1);
            /* a held entry without a place in a column, or without its name, is no arena; of none held the name's place comes before the room */
            should = held ? XDVDFS_BAD_ARENA : EMPTY(8) ? XDVDFS_BAD_BYTE : XDVDFS_ROOM;
            EXPECT(held ? "add to one" : "add to none", number, should);
            EXPECT("add: all is as it was", memcmp(&a, &before, sizeof a), 0);
            number = xdvdfs_add(&a.root, &a.count, ARENA(a), 0, 0, XDVDFS_KIND_FILE, 1);
            EXPECT("add of no name", number, held ? XDVDFS_BAD_ARENA : XDVDFS_EMPTY_NAME);
        }
    /* the byte that is stored for a kind: 1 for 1, 0 for every other number */
    missing = NONE;
    for (held = 0; held <= 255; held++) {
        a = arena_of(0);
        EXPECT("add of a kind", xdvdfs_add(&a.root, &a.count, ARENA(a), 1, 1, (uint8_t)held, 1), XDVDFS_DONE);
        EXPECT("add of a kind: stored", a.kind[0], held == 1 ? 1 : 0);
        EXPECT("add of a kind: size", a.size[0], held == 1 ? 2048 : 1);
        EXPECT("add of a kind: root", a.root, 0);
        EXPECT("add of a kind: count", a.count, 1);
    }
}

static void serialising(void)
{
    static uint8_t out[2048];
    uint16_t order[2], place[2];
    uint32_t table_size, next_free, number, should;
    int missing, held;
    for (held = 0; held <= 1; held++)
        for (missing = ALL; missing <= 11; missing++) { /* columns and names, order, place, out */
            struct arena a = arena_of(held);
            FILL(out);
            FILL(order);
            FILL(place);
            table_size = next_free = UNTOUCHED;
            number = xdvdfs_serialise(a.root, a.count, ARENA(a), 40, SLICE(9, order, 2), SLICE(10, place, 2), SLICE(11, out, 2048), &table_size, &next_free);
            if (held)
                should = missing == ALL || missing <= 8 ? XDVDFS_BAD_ARENA : missing <= 10 ? XDVDFS_ROOM : XDVDFS_BUFFER_TOO_SMALL;
            else /* nothing is held: no column and no scratch is needed */
                should = EMPTY(11) ? XDVDFS_BUFFER_TOO_SMALL : XDVDFS_DONE;
            EXPECT(held ? "serialise one" : "serialise none", number, should);
            EXPECT("serialise: table_size", table_size, should == XDVDFS_DONE ? 2048 : UNTOUCHED);
            EXPECT("serialise: next_free", next_free, should == XDVDFS_DONE ? 40 : UNTOUCHED);
            EXPECT("serialise: out", same_bytes(out, sizeof out, should == XDVDFS_DONE ? 0xff : 0x4d), 1);
            /* scratch is zero, and as it was where either column is shorter than the count */
            if (held && (EMPTY(9) || EMPTY(10))) {
                IS_FILL("serialise: order", order);
                IS_FILL("serialise: place", place);
            } else {
                if (!EMPTY(9))
                    IS_ZERO("serialise: order", order);
                if (!EMPTY(10))
                    IS_ZERO("serialise: place", place);
            }
        }
}

static void listing(void)
{
    static uint8_t out[2048];
    const uint32_t start[1] = {0}, len[1] = {1}, size[1] = {1};
    const uint8_t kind[1] = {XDVDFS_KIND_FILE};
    uint16_t left[1], right[1], parent[1], order[1], place[1];
    uint8_t height[1];
    uint32_t key[1], table_size, next_free, entry, number, should, count;
    int missing;
    for (count = 0; count <= 1; count++)
        for (missing = ALL; missing <= 12; missing++) { /* the list, the names, the scratch, out */
            FILL(out);
            FILL(left);
            FILL(right);
            FILL(parent);
            FILL(order);
            FILL(place);
            FILL(height);
            FILL(key);
            table_size = next_free = entry = UNTOUCHED;
            number = xdvdfs_write_list(count, SLICE(0, start, 1), SLICE(1, len, 1), SLICE(2, size, 1), SLICE(3, kind, 1), SLICE(4, (const uint8_t *)"a", 1), 40,
                                       SLICE(5, left, 1), SLICE(6, right, 1), SLICE(7, parent, 1), SLICE(8, height, 1), SLICE(9, key, 1), SLICE(10, order, 1),
                                       SLICE(11, place, 1), SLICE(12, out, 2048), &table_size, &next_free, &entry);
            if (count == 0)
                should = EMPTY(12) ? XDVDFS_BUFFER_TOO_SMALL : XDVDFS_DONE;
            else
                should = missing == 4 ? XDVDFS_BAD_BYTE : missing == 12 ? XDVDFS_BUFFER_TOO_SMALL : XDVDFS_ROOM;
            EXPECT(count ? "write_list of one" : "write_list of none", number, should);
            EXPECT("write_list: entry", entry, should == XDVDFS_BAD_BYTE ? 0 : UNTOUCHED);
            EXPECT("write_list: table_size", table_size, should == XDVDFS_DONE ? 2048 : UNTOUCHED);
            EXPECT("write_list: next_free", next_free, should == XDVDFS_DONE ? 40 : UNTOUCHED);
            EXPECT("write_list: out", same_bytes(out, sizeof out, should == XDVDFS_DONE ? 0xff : 0x4d), 1);
#define AFTER(i, x)                                                                                                                                  \
    if (should == XDVDFS_ROOM || EMPTY(i))                                                                                                           \
        IS_FILL("write_list: " #x, x);                                                                                                               \
    else                                                                                                                                             \
        IS_ZERO("write_list: " #x, x)
            AFTER(5, left);
            AFTER(6, right);
            AFTER(7, parent);
            AFTER(8, height);
            AFTER(9, key);
            AFTER(10, order);
            AFTER(11, place);
#undef AFTER
        }
}

static void planning(void)
{
    const uint32_t first[1] = {0}, share_of_one[1] = {1}, share_of_none[1] = {0}, start[1] = {0}, len[1] = {1};
    const uint8_t kind[1] = {XDVDFS_KIND_FILE};
    const uint64_t value[1] = {1};
    uint32_t sizes[1], tables[1], sectors[1], sized[1], key[1], size[1], next_free, entry, directory, number, should, directories, entries;
    uint16_t left[1], right[1], parent[1], order[1];
    uint8_t height[1];
    int missing;
    for (entries = 0; entries <= 1; entries++)
        for (directories = 0; directories <= 1; directories++)
            for (missing = ALL; missing <= 17; missing++) { /* 0 to 6 are read, 7 to 9 given back, 10 to 17 scratch */
                const uint32_t *share = entries ? share_of_one : share_of_none;
                FILL(sizes);
                FILL(tables);
                FILL(sectors);
                FILL(sized);
                FILL(key);
                FILL(size);
                FILL(left);
                FILL(right);
                FILL(parent);
                FILL(order);
                FILL(height);
                next_free = entry = directory = UNTOUCHED;
                number = xdvdfs_plan(directories, entries, SLICE(0, first, 1), SLICE(1, share, 1), SLICE(2, start, 1), SLICE(3, len, 1), SLICE(4, kind, 1),
                                     SLICE(5, value, 1), SLICE(6, (const uint8_t *)"a", 1), SLICE(7, sizes, 1), SLICE(8, tables, 1), SLICE(9, sectors, 1),
                                     SLICE(10, sized, 1), SLICE(11, left, 1), SLICE(12, right, 1), SLICE(13, parent, 1), SLICE(14, height, 1), SLICE(15, key, 1),
                                     SLICE(16, size, 1), SLICE(17, order, 1), &next_free, &entry, &directory);
                should = XDVDFS_DONE;
                if (directories && (EMPTY(0) || EMPTY(1) || EMPTY(7) || EMPTY(8) || EMPTY(10)))
                    should = XDVDFS_ROOM;
                else if (entries && (EMPTY(2) || EMPTY(3) || EMPTY(4) || EMPTY(5) || EMPTY(9) || EMPTY(17)))
                    should = XDVDFS_ROOM;
                else if (directories && entries && missing >= 11 && missing <= 16)
                    should = XDVDFS_ROOM;
                else if (directories == 0)
                    should = XDVDFS_BAD_TREE;
                else if (entries && EMPTY(6))
                    should = XDVDFS_BAD_BYTE;
                EXPECT("plan", number, should);
                EXPECT("plan: entry", entry, should == XDVDFS_BAD_BYTE ? 0 : UNTOUCHED);
                EXPECT("plan: directory", directory, UNTOUCHED);
                EXPECT("plan: next_free", next_free, should != XDVDFS_DONE ? UNTOUCHED : entries ? 35 : 34);
                if (should == XDVDFS_DONE) {
                    EXPECT("plan: size", sizes[0], entries ? 16 : 2048);
                    EXPECT("plan: table", tables[0], 33);
                    if (entries)
                        EXPECT("plan: sector", sectors[0], 34);
                    else
                        IS_FILL("plan: sectors", sectors);
                } else {
                    IS_FILL("plan: sizes", sizes);
                    IS_FILL("plan: tables", tables);
                    IS_FILL("plan: sectors", sectors);
                }
#define AFTER(i, x)                                                                                                                                  \
    if (should == XDVDFS_ROOM || EMPTY(i))                                                                                                           \
        IS_FILL("plan: " #x, x);                                                                                                                     \
    else                                                                                                                                             \
        IS_ZERO("plan: " #x, x)
                AFTER(10, sized);
                AFTER(11, left);
                AFTER(12, right);
                AFTER(13, parent);
                AFTER(14, height);
                AFTER(15, key);
                AFTER(16, size);
                AFTER(17, order);
#undef AFTER
            }
}

/* A root with the directory `d` and the file `a`; the share of `d` is `a` once more, or, with 2 for its first, an entry of its own. `entries` is how many there are, `places` how many
 * the column of orders has, `nodes` how many those of the tree have. */
static uint32_t plan_two(uint32_t first_of_d, uint32_t entries, size_t places, size_t nodes, uint32_t *sectors, uint32_t *next_free, uint32_t *entry)
{
    const uint32_t first[2] = {0, first_of_d}, share[2] = {first_of_d == 2 ? 1 : 2, 1}, start[3] = {0, 1, 1}, len[3] = {1, 1, 1};
    const uint8_t kind[3] = {XDVDFS_KIND_DIRECTORY, XDVDFS_KIND_FILE, XDVDFS_KIND_FILE};
    const uint64_t value[3] = {1, 1, 1};
    uint32_t sizes[2], tables[2], sized[2], key[3], size[3], directory = UNTOUCHED;
    uint16_t left[3], right[3], parent[3], order[3];
    uint8_t height[3];
    return xdvdfs_plan(2, entries, first, 2, share, 2, start, 3, len, 3, kind, 3, value, 3, (const uint8_t *)"da", 2, sizes, 2, tables, 2, sectors, 3, sized, 2, left,
                       nodes, right, nodes, parent, nodes, height, nodes, key, nodes, size, nodes, order, places, next_free, entry, &directory);
}

static void shares(void)
{
    uint32_t sectors[3] = {UNTOUCHED, UNTOUCHED, UNTOUCHED}, next_free = UNTOUCHED, entry = UNTOUCHED;
    int missing = NONE;
    /* the file lies in both shares: it takes 35 in the root's and 36 in that of `d`, and keeps the later */
    EXPECT("plan of two shares", plan_two(1, 2, 3, 3, sectors, &next_free, &entry), XDVDFS_DONE);
    EXPECT("plan of two shares: d", sectors[0], 34);
    EXPECT("plan of two shares: a", sectors[1], 36);
    EXPECT("plan of two shares: next_free", next_free, 37);
    /* the orders have three entries together */
    EXPECT("plan of two shares in two places", plan_two(1, 2, 2, 3, sectors, &next_free, &entry), XDVDFS_ROOM);
    EXPECT("plan of two shares in two places: entry", entry, UNTOUCHED);
    /* entry 1 lies in no share: its sector stays as it was. The tree's columns need a place for the largest share alone */
    sectors[1] = UNTOUCHED;
    EXPECT("plan with an entry in no share", plan_two(2, 3, 3, 1, sectors, &next_free, &entry), XDVDFS_DONE);
    EXPECT("plan with an entry in no share: d", sectors[0], 34);
    EXPECT("plan with an entry in no share: it", sectors[1], UNTOUCHED);
    EXPECT("plan with an entry in no share: the file", sectors[2], 35);
    EXPECT("plan with an entry in no share: next_free", next_free, 36);
}

/* Looks a name up, and follows the same as a path: both numbers are `number`, and the cells are as it says; `at` and `headers` are the values of XDVDFS_DONE, and of
 * XDVDFS_DOES_NOT_EXIST there are the headers alone. */
static void sought(int line, const uint8_t *table, size_t size, const char *name, uint32_t rule, uint32_t number, uint32_t at, uint32_t headers)
{
    struct xdvdfs_fields fields;
    uint32_t offset = UNTOUCHED, read = UNTOUCHED;
    size_t place = UNTOUCHED, name_len = strlen(name);
    int missing = NONE, is_found = number == XDVDFS_DONE, has_headers = is_found || number == XDVDFS_DOES_NOT_EXIST;
    FILL(fields);
    expect(line, "look_up", missing, xdvdfs_look_up(table, size, 0, 0, (uint32_t)size, (const uint8_t *)name, name_len, rule, &fields, &place, &offset, &read), number);
    expect(line, "look_up: fields", missing, same_bytes(&fields, sizeof fields, 0x4d), !is_found);
    expect(line, "look_up: place", missing, place, is_found ? at : UNTOUCHED);
    expect(line, "look_up: offset", missing, offset, is_found ? at : UNTOUCHED);
    expect(line, "look_up: headers", missing, read, has_headers ? headers : UNTOUCHED);
    FILL(fields);
    place = offset = UNTOUCHED;
    expect(line, "find_path", missing, xdvdfs_find_path(table, size, 0, 0, (uint32_t)size, (const uint8_t *)name, name_len, rule, &fields, &place, &offset), number);
    expect(line, "find_path: fields", missing, same_bytes(&fields, sizeof fields, 0x4d), !is_found);
    expect(line, "find_path: place", missing, place, is_found ? at : UNTOUCHED);
    expect(line, "find_path: offset", missing, offset, UNTOUCHED);
}

/* A number that is no rule's comes before all else that a lookup or a path refuses */
static void no_rule(void)
{
    static const uint32_t none[] = {0, 3, 255, 65535, UINT32_MAX};
    size_t i;
    for (i = 0; i < sizeof none / sizeof *none; i++) {
        sought(__LINE__, abc, 48, "a", none[i], XDVDFS_BAD_RULE, 0, 0);
        sought(__LINE__, abc, 48, "\x80", none[i], XDVDFS_BAD_RULE, 0, 0); /* with a rule, 2 */
        sought(__LINE__, abc, 48, "", none[i], XDVDFS_BAD_RULE, 0, 0);     /* a path without a part: 28 */
        sought(__LINE__, abc, 0, "a", none[i], XDVDFS_BAD_RULE, 0, 0);     /* a table of size 0: 21 */
        sought(__LINE__, NULL, 0, "a", none[i], XDVDFS_BAD_RULE, 0, 0);
    }
    for (i = XDVDFS_RULE_ONE; i <= XDVDFS_RULE_TWO; i++) {
        sought(__LINE__, abc, 48, "a", (uint32_t)i, XDVDFS_DONE, 16, 2);
        sought(__LINE__, abc, 48, "d", (uint32_t)i, XDVDFS_DOES_NOT_EXIST, 0, 2);
        sought(__LINE__, abc, 48, "\x80", (uint32_t)i, XDVDFS_BAD_BYTE, 0, 0);
    }
}

/* An entry of sixteen bytes: its links and its name of one byte; without a name fourteen bytes that are no entry */
struct laid {
    uint8_t left, right, name;
};

/* Tables of up to five such entries, one after the other, and what the strict check answers: how many it lists, or a number and an offset */
static const struct {
    const char *what;
    struct laid entry[5];
    uint32_t listed, number, at;
} ORDERS[] = {
    {"m c z", {{4, 0, 'm'}, {0, 8, 'c'}, {0, 0, 'z'}}, 0, XDVDFS_OUT_OF_ORDER, 32},
    {"m x a", {{0, 4, 'm'}, {8, 0, 'x'}, {0, 0, 'a'}}, 0, XDVDFS_OUT_OF_ORDER, 32},
    {"m c d", {{4, 0, 'm'}, {0, 8, 'c'}, {0, 0, 'd'}}, 3, XDVDFS_DONE, 0},
    {"m x t", {{0, 4, 'm'}, {8, 0, 'x'}, {0, 0, 't'}}, 3, XDVDFS_DONE, 0},
    {"m, z on its left", {{4, 0, 'm'}, {0, 0, 'z'}}, 0, XDVDFS_OUT_OF_ORDER, 16},
    {"m, c on its right", {{0, 4, 'm'}, {0, 0, 'c'}}, 0, XDVDFS_OUT_OF_ORDER, 16},
    {"m c e z: three up", {{4, 0, 'm'}, {0, 8, 'c'}, {0, 12, 'e'}, {0, 0, 'z'}}, 0, XDVDFS_OUT_OF_ORDER, 48},
    {"m x t a: three up", {{0, 4, 'm'}, {8, 0, 'x'}, {12, 0, 't'}, {0, 0, 'a'}}, 0, XDVDFS_OUT_OF_ORDER, 48},
    {"m c e b: less than c", {{4, 0, 'm'}, {0, 8, 'c'}, {12, 0, 'e'}, {0, 0, 'b'}}, 0, XDVDFS_OUT_OF_ORDER, 48},
    {"m x t y: greater than x", {{0, 4, 'm'}, {8, 0, 'x'}, {0, 12, 't'}, {0, 0, 'y'}}, 0, XDVDFS_OUT_OF_ORDER, 48},
    {"m c e d", {{4, 0, 'm'}, {0, 8, 'c'}, {12, 0, 'e'}, {0, 0, 'd'}}, 4, XDVDFS_DONE, 0},
    {"m x t u", {{0, 4, 'm'}, {8, 0, 'x'}, {0, 12, 't'}, {0, 0, 'u'}}, 4, XDVDFS_DONE, 0},
    {"m c M: equal, two up", {{4, 0, 'm'}, {0, 8, 'c'}, {0, 0, 'M'}}, 0, XDVDFS_OUT_OF_ORDER, 32},
    {"m x M: equal, two up", {{0, 4, 'm'}, {8, 0, 'x'}, {0, 0, 'M'}}, 0, XDVDFS_OUT_OF_ORDER, 32},
    {"m c e M: equal, three up", {{4, 0, 'm'}, {0, 8, 'c'}, {0, 12, 'e'}, {0, 0, 'M'}}, 0, XDVDFS_OUT_OF_ORDER, 48},
    {"m c z, a blank header before z", {{4, 0, 'm'}, {12, 8, 'c'}, {0, 0, 'z'}, {0, 0, 0}}, 0, XDVDFS_OUT_OF_ORDER, 32},
    {"m x a, a blank header before x", {{4, 8, 'm'}, {0, 0, 0}, {12, 0, 'x'}, {0, 0, 'a'}}, 0, XDVDFS_OUT_OF_ORDER, 48},
    {"m x, blank headers beside them", {{4, 8, 'm'}, {0, 0, 0}, {4, 12, 'x'}, {0, 0, 0}}, 2, XDVDFS_DONE, 0},
    {"m c z and x a: the first in walk order", {{4, 12, 'm'}, {0, 8, 'c'}, {0, 0, 'z'}, {16, 0, 'x'}, {0, 0, 'a'}}, 0, XDVDFS_OUT_OF_ORDER, 32},
    {"m c d and x a", {{4, 12, 'm'}, {0, 8, 'c'}, {0, 0, 'd'}, {16, 0, 'x'}, {0, 0, 'a'}}, 0, XDVDFS_OUT_OF_ORDER, 64},
    {"m c c: reached twice", {{4, 4, 'm'}, {0, 0, 'c'}}, 0, XDVDFS_SHARED, 16},
    {"m c z, z's link out of bounds", {{4, 0, 'm'}, {0, 8, 'c'}, {99, 0, 'z'}}, 0, XDVDFS_OUT_OF_ORDER, 32},
    {"m c z, m's other link out of bounds", {{4, 99, 'm'}, {0, 8, 'c'}, {0, 0, 'z'}}, 0, XDVDFS_OUT_OF_ORDER, 32},
    {"m c z, c's other link out of bounds", {{4, 0, 'm'}, {99, 8, 'c'}, {0, 0, 'z'}}, 0, XDVDFS_OUT_OF_BOUNDS, 396},
    {"m, and a byte above 127 on its right", {{0, 4, 'm'}, {0, 0, 0x80}}, 2, XDVDFS_DONE, 0},
    {"m c, and a byte above 127 on c's right", {{4, 0, 'm'}, {0, 8, 'c'}, {0, 0, 0x80}}, 0, XDVDFS_OUT_OF_ORDER, 32},
};

/* The strict check compares a name with those of all entries above it; in a table that it accepts each listed name is found where it can be sought */
static void ordered(void)
{
    uint8_t table[80];
    uint32_t list[8], offset, at, headers, rule;
    uint64_t wide[9];
    size_t i, k, count, place;
    struct xdvdfs_fields fields;
    for (i = 0; i < sizeof ORDERS / sizeof *ORDERS; i++) {
        const char *what = ORDERS[i].what;
        int missing = NONE, is_accepted = ORDERS[i].number == XDVDFS_DONE;
        memset(table, 0xff, sizeof table);
        for (k = 0; k < 5; k++) {
            const struct laid *e = &ORDERS[i].entry[k];
            const uint8_t bytes[16] = {e->left, 0, e->right, 0, 34, 0, 0, 0, 1, 0, 0, 0, 32, 1, e->name, 255};
            if (e->name != 0)
                memcpy(table + 16 * k, bytes, 16);
        }
        FILL(list);
        count = offset = UNTOUCHED;
        EXPECT(what, xdvdfs_check_table(table, 80, 0, 0, 80, list, 8, wide, 9, &count, &offset), ORDERS[i].number);
        EXPECT(what, offset, is_accepted ? UNTOUCHED : ORDERS[i].at);
        EXPECT(what, count, is_accepted ? ORDERS[i].listed : UNTOUCHED);
        EXPECT(what, same_bytes(list + ORDERS[i].listed, 4 * (8 - ORDERS[i].listed), 0), 1);
        for (k = 0; k < ORDERS[i].listed; k++)
            for (rule = XDVDFS_RULE_ONE; rule <= XDVDFS_RULE_TWO; rule++) {
                const uint8_t *name = table + list[k] + 14;
                uint32_t number = *name > 127 ? XDVDFS_BAD_BYTE : XDVDFS_DONE;
                at = UNTOUCHED;
                EXPECT(what, xdvdfs_look_up(table, 80, 0, 0, 80, name, 1, rule, &fields, &place, &at, &headers), number);
                EXPECT(what, at, number == XDVDFS_DONE ? list[k] : UNTOUCHED);
            }
    }
}

/* Names that are listed and not found: under either rule what is misfiled, in a table that the strict check refuses; under rule one what stands below a link of 255, in one
 * that it accepts */
static void hidden(void)
{
    /* m, its left child c, and c's right child z */
    static const uint8_t mcz[48] = {4, 0, 0, 0, 34, 0, 0, 0, 1, 0, 0, 0, 32, 1, 'm', 255, 0, 0, 8, 0, 35, 0, 0, 0,
                                    1, 0, 0, 0, 32, 1, 'c', 255, 0, 0, 0, 0, 36, 0, 0, 0, 1, 0, 0, 0, 32, 1, 'z', 255};
    /* m, and at 1,020 its right child z: the link is 255 */
    static uint8_t far_child[1036];
    /* m, and at 262,140 its right child z: the link is 65,535, which rule one alone follows */
    static uint8_t farthest_child[262156];
    uint32_t list[4], scratch[5], offset = UNTOUCHED;
    uint64_t wide[5];
    size_t count = UNTOUCHED;
    int missing = NONE;
    memset(far_child, 0xff, sizeof far_child);
    memcpy(far_child, mcz, 16);
    memcpy(far_child + 1020, mcz + 32, 16);
    far_child[0] = 0;
    far_child[2] = 255;
    far_child[3] = 0;
    memset(farthest_child, 0xff, sizeof farthest_child);
    memcpy(farthest_child, far_child, 16);
    memcpy(farthest_child + 262140, mcz + 32, 16);
    farthest_child[3] = 255;
    EXPECT("walk m c z", xdvdfs_walk(mcz, 48, 0, 0, 48, list, 4, scratch, 5, &count, &offset), XDVDFS_DONE);
    EXPECT("walk m c z: count", count, 3);
    EXPECT("check m c z", xdvdfs_check_table(mcz, 48, 0, 0, 48, list, 4, wide, 5, &count, &offset), XDVDFS_OUT_OF_ORDER);
    EXPECT("check m c z: offset", offset, 32);
    EXPECT("check m c z with two places", xdvdfs_check_table(mcz, 48, 0, 0, 48, list, 2, wide, 3, &count, &offset), XDVDFS_WALK_FULL);
    EXPECT("check m c z, z past the table's end", xdvdfs_check_table(mcz, 48, 0, 0, 44, list, 4, wide, 5, &count, &offset), XDVDFS_BAD_PLACE);
    sought(__LINE__, mcz, 48, "z", XDVDFS_RULE_ONE, XDVDFS_DOES_NOT_EXIST, 0, 1);
    sought(__LINE__, mcz, 48, "z", XDVDFS_RULE_TWO, XDVDFS_DOES_NOT_EXIST, 0, 1);
    EXPECT("check m z", xdvdfs_check_table(far_child, 1036, 0, 0, 1036, list, 4, wide, 5, &count, &offset), XDVDFS_DONE);
    EXPECT("check m z: listed", count == 2 && list[1] == 1020, 1);
    EXPECT("walk m z", xdvdfs_walk(far_child, 1036, 0, 0, 1036, list, 4, scratch, 5, &count, &offset), XDVDFS_DONE);
    EXPECT("walk m z: listed", count == 2 && list[1] == 1020, 1);
    sought(__LINE__, far_child, 1036, "z", XDVDFS_RULE_ONE, XDVDFS_DOES_NOT_EXIST, 0, 1);
    sought(__LINE__, far_child, 1036, "Z", XDVDFS_RULE_TWO, XDVDFS_DONE, 1020, 2);
    EXPECT("walk m z at 262,140", xdvdfs_walk(farthest_child, 262156, 0, 0, 262156, list, 4, scratch, 5, &count, &offset), XDVDFS_DONE);
    EXPECT("walk m z at 262,140: listed", count == 1 && list[0] == 0, 1);
    sought(__LINE__, farthest_child, 262156, "z", XDVDFS_RULE_ONE, XDVDFS_DONE, 262140, 2);
    sought(__LINE__, farthest_child, 262156, "z", XDVDFS_RULE_TWO, XDVDFS_DOES_NOT_EXIST, 0, 1);
}

/* A ring of two entries: the list is full however long it is */
static void ringed(void)
{
    static uint8_t ring[48];
    static uint32_t list[5000], scratch[5001];
    static uint64_t wide[5001];
    uint32_t offset = UNTOUCHED;
    size_t count = UNTOUCHED, n;
    int missing = NONE;
    memcpy(ring, abc, 48);
    ring[16] = 8; /* a's left child is c, and c's left child is a */
    ring[32] = 4;
    for (n = 0; n <= 5000; n += 1000) {
        EXPECT("walk a ring", xdvdfs_walk(ring, 48, 0, 0, 48, list, n, scratch, n + 1, &count, &offset), XDVDFS_WALK_FULL);
        EXPECT("walk a ring: count", count, UNTOUCHED);
    }
    /* the strict check meets a second time what it listed: a's left child is a itself */
    ring[16] = 4;
    EXPECT("check a ring", xdvdfs_check_table(ring, 48, 0, 0, 48, list, 5000, wide, 5001, &count, &offset), XDVDFS_SHARED);
    EXPECT("check a ring: offset", offset, 16);
    EXPECT("check a ring with one place", xdvdfs_check_table(ring, 48, 0, 0, 48, list, 1, wide, 2, &count, &offset), XDVDFS_WALK_FULL);
}

/* A descriptor is written and read back; the stamp is its bytes 28 to 35, and no other byte hangs on it */
static void described(uint64_t stamp)
{
    static uint8_t undated[2050], out[2050];
    uint32_t sector = UNTOUCHED, size = UNTOUCHED;
    uint64_t read = UNTOUCHED;
    int missing = NONE, i;
    FILL(undated);
    EXPECT("write_descriptor without a date", xdvdfs_write_descriptor(undated, sizeof undated, 33, 48, XDVDFS_NO_DATE), XDVDFS_DONE);
    FILL(out);
    EXPECT("write_descriptor of 2,047 bytes", xdvdfs_write_descriptor(out, 2047, 33, 48, stamp), XDVDFS_BUFFER_TOO_SMALL);
    IS_FILL("write_descriptor of 2,047 bytes: out", out);
    EXPECT("write_descriptor of a stamp", xdvdfs_write_descriptor(out, sizeof out, 33, 48, stamp), XDVDFS_DONE);
    for (i = 0; i < 8; i++)
        EXPECT("write_descriptor: a byte of the stamp", out[28 + i], stamp >> (8 * i) & 0xff);
    EXPECT("write_descriptor: before the stamp", memcmp(out, undated, 28), 0);
    EXPECT("write_descriptor: after the stamp", memcmp(out + 36, undated + 36, 2048 - 36), 0);
    EXPECT("write_descriptor: past the descriptor", same_bytes(out + 2048, 2, 0x4d), 1);
    EXPECT("read_descriptor of 2,047 bytes", xdvdfs_read_descriptor(out, 2047, &sector, &size, &read), XDVDFS_NO_VOLUME);
    EXPECT("read_descriptor of 2,047 bytes: the cells", sector == UNTOUCHED && size == UNTOUCHED && read == UNTOUCHED, 1);
    EXPECT("read_descriptor of a stamp", xdvdfs_read_descriptor(out, 2048, &sector, &size, &read), XDVDFS_DONE);
    EXPECT("read_descriptor of a stamp: the root", sector == 33 && size == 48, 1);
    EXPECT("read_descriptor of a stamp: it", read, stamp);
}

static void descriptors(void)
{
    static const uint64_t stamps[] = {0, 1, UINT32_MAX, UINT64_C(1) << 32, UINT64_C(1) << 63, UINT64_MAX};
    size_t i;
    for (i = 0; i < sizeof stamps / sizeof *stamps; i++)
        described(stamps[i]);
}

static void known_dates(void)
{
    static const struct {
        uint64_t stamp;
        const char *text;
    } known[] = {
        {XDVDFS_NO_DATE, "no date"},
        {1, "1601-01-01T00:00:00.0000001Z"},
        {UINT64_C(863999999999), "1601-01-01T23:59:59.9999999Z"},
        {UINT64_C(864000000000), "1601-01-02T00:00:00Z"},
        {XDVDFS_STAMP_1970 + 20773 * XDVDFS_STAMP_DAY + 43200 * XDVDFS_STAMP_SECOND, "2026-11-16T12:00:00Z"},
        {UINT64_C(95667264000000000), "1904-02-29T00:00:00Z"},
        {UINT64_C(0x019db1ded53e8000), "1970-01-01T00:00:00Z"},
        {UINT64_C(125911583999999999), "1999-12-31T23:59:59.9999999Z"},
        {UINT64_C(125911584000000000), "2000-01-01T00:00:00Z"},
        {UINT64_C(125962560000000000), "2000-02-29T00:00:00Z"},
        {UINT64_C(0x01c16d6877fa4000), "2001-11-15T00:00:00Z"},
        {UINT64_C(0x01dd75c2017c2000), "2026-11-16T12:00:00Z"},
        {UINT64_C(157520159999999999), "2100-02-28T23:59:59.9999999Z"},
        {UINT64_C(157520160000000000), "2100-03-01T00:00:00Z"},
        {UINT64_C(2650467743999999999), "9999-12-31T23:59:59.9999999Z"},
        {UINT64_C(2650467744000000000), "+10000-01-01T00:00:00Z"},
        {UINT64_C(1) << 63, "+30828-09-14T02:48:05.4775808Z"},
        {UINT64_MAX, "+60056-05-28T05:36:10.9551615Z"},
    };
    char text[XDVDFS_DATE_SIZE];
    int missing = NONE;
    size_t i;
    for (i = 0; i < sizeof known / sizeof *known; i++) {
        FILL(text);
        EXPECT("date_text: the buffer", xdvdfs_date_text(known[i].stamp, text) == text, 1);
        expect_text(__LINE__, text, known[i].text);
    }
}

/* No date is no date: nothing is put in its place. A stamp of 1 has one */
static void no_date(void)
{
    struct xdvdfs_date date;
    int missing = NONE;
    FILL(date);
    EXPECT("date_of no date", xdvdfs_date_of(XDVDFS_NO_DATE, &date), 0);
    EXPECT("date_of no date: is as it was", same_bytes(&date, sizeof date, 0x4d), 1);
    EXPECT("date_of a date", xdvdfs_date_of(1, &date), 1);
    EXPECT("date_of a date: its day", date.year == 1601 && date.month == 1 && date.day == 1, 1);
    EXPECT("date_of a date: its time", date.hour == 0 && date.minute == 0 && date.second == 0 && date.fraction == 1, 1);
}

/* Whether the text of a Unix time's date, and of so many 100 ns more, is what libc's calendar says */
static int is_as_libc_has_it(int64_t unix_time, unsigned fraction)
{
    uint64_t stamp = XDVDFS_STAMP_1970 + (uint64_t)unix_time * XDVDFS_STAMP_SECOND + fraction;
    char text[XDVDFS_DATE_SIZE], should[80];
    time_t t = (time_t)unix_time;
    const struct tm *tm = gmtime(&t);
    int year, n;
    if (tm == NULL)
        return 0;
    year = tm->tm_year + 1900;
    n = sprintf(should, "%s%04d-%02d-%02dT%02d:%02d:%02d", year > 9999 ? "+" : "", year, tm->tm_mon + 1, tm->tm_mday, tm->tm_hour, tm->tm_min, tm->tm_sec);
    if (fraction != 0)
        n += sprintf(should + n, ".%07u", fraction);
    strcpy(should + n, "Z");
    return strcmp(xdvdfs_date_text(stamp, text), should) == 0;
}

/* How many dates differ from libc's, of Unix times from the first to the last, each so many seconds after the one before */
static unsigned long other_dates(int64_t first, int64_t step, int64_t last)
{
    unsigned long other = 0;
    for (; first <= last; first += step)
        other += !is_as_libc_has_it(first, (unsigned)(first & 1) * 9999999);
    return other;
}

static void dates_of_libc(void)
{
    const int64_t day = 86400, first = INT64_C(-11644473599), start_of_2401 = INT64_C(13601088000), last = INT64_C(1833029933770);
    int missing = NONE;
    if (sizeof(time_t) < sizeof(int64_t)) {
        printf("tests.c: time_t has %u bytes, too few: dates are not compared with libc's\n", (unsigned)sizeof(time_t));
        return;
    }
    EXPECT("the first second that has a date", is_as_libc_has_it(first, 0), 1);
    EXPECT("the last second that has a date", is_as_libc_has_it(last, 9551615), 1);
    EXPECT("dates that differ, of a second into each day of 800 years", other_dates(first, day, start_of_2401), 0);
    EXPECT("dates that differ, of the last second of each day of 800 years", other_dates(first + day - 2, day, start_of_2401), 0);
    EXPECT("dates that differ, of every 101 days and 7,919 seconds", other_dates(first, 101 * day + 7919, last - 1), 0);
    EXPECT("dates that differ, of each second of a day", other_dates(0, 1, day), 0);
}

/* THE LIMITS LOADER */

enum { SECTOR = 2048, DESCRIPTOR = 32 * SECTOR, ROOT = 33 * SECTOR, FOLDER = 35 * SECTOR, MOST = 60 };

#define MADE UINT64_C(134393040000000000) /* 2026-11-16T12:00:00Z */

/* Writes a table into a sector, of names of six bytes each; its reported size */
static uint32_t write_six(uint32_t count, const char *names, const uint32_t *size, const uint8_t *kind, uint32_t first, uint8_t *out)
{
    uint32_t start[MOST], len[MOST], key[MOST], table_size = UNTOUCHED, next_free, entry, i;
    uint16_t left[MOST], right[MOST], parent[MOST], order[MOST], place[MOST];
    uint8_t height[MOST];
    int missing = NONE;
    for (i = 0; i < count; i++) {
        start[i] = 6 * i;
        len[i] = 6;
    }
    EXPECT("write_list for a volume",
           xdvdfs_write_list(count, start, count, len, count, size, count, kind, count, (const uint8_t *)names, 6 * count, first, left, MOST, right, MOST, parent, MOST, height,
                             MOST, key, MOST, order, MOST, place, MOST, out, SECTOR, &table_size, &next_free, &entry),
           XDVDFS_DONE);
    return table_size;
}

/* An image of the sectors 0 to 35. In the root table, of 60 bytes, `hollow` is at 0, a directory of size 0; `folder` at 20, a directory, its table at sector 35; `limits` at 40, a
 * file of 7 bytes at sector 36. In `folder` are `axis_1`, 100 bytes at sector 37, and `axis_2`, 5,000 bytes at 38. */
static uint8_t volume[36 * SECTOR];

static void describe(uint32_t root_size, uint64_t stamp)
{
    int missing = NONE;
    EXPECT("write_descriptor for a volume", xdvdfs_write_descriptor(volume + DESCRIPTOR, SECTOR, 33, root_size, stamp), XDVDFS_DONE);
}

static void make_volume(uint64_t stamp)
{
    static const uint32_t folder_size[] = {100, 5000};
    static const uint8_t folder_kind[] = {XDVDFS_KIND_FILE, XDVDFS_KIND_FILE}, kind[] = {XDVDFS_KIND_DIRECTORY, XDVDFS_KIND_DIRECTORY, XDVDFS_KIND_FILE};
    uint32_t size[] = {0, 0, 7};
    FILL(volume);
    size[1] = write_six(2, "axis_1axis_2", folder_size, folder_kind, 37, volume + FOLDER);
    describe(write_six(3, "hollowfolderlimits", size, kind, 34, volume + ROOT), stamp);
}

/* What is asked of the loader: a window, a path, a time and a greatest age */
struct asked {
    const uint8_t *w;
    size_t w_len;
    uint32_t first;
    const char *path;
    uint64_t time, age;
};

static struct asked ask(uint32_t first, const char *path, uint64_t time, uint64_t age)
{
    struct asked a = {volume, sizeof volume, 0, NULL, 0, 0};
    a.w += first * SECTOR;
    a.w_len -= first * SECTOR;
    a.first = first;
    a.path = path;
    a.time = time;
    a.age = age;
    return a;
}

/* Before the call no cell holds 0 or what is to be answered; after it all three hold the answer, which is 0 of a refusal */
static void answers(int line, struct asked a, uint32_t number, uint32_t sector, uint32_t size, uint64_t stamp)
{
    uint32_t sector_is, size_is;
    uint64_t stamp_is;
    FILL(sector_is);
    FILL(size_is);
    FILL(stamp_is);
    expect(line, "load_limits", NONE,
           xdvdfs_load_limits(a.w, a.w_len, a.first, (const uint8_t *)a.path, a.path == NULL ? 0 : strlen(a.path), a.time, a.age, &sector_is, &size_is, &stamp_is), number);
    expect(line, "load_limits: sector", NONE, sector_is, sector);
    expect(line, "load_limits: size", NONE, size_is, size);
    expect(line, "load_limits: stamp", NONE, stamp_is, stamp);
}

static void loads(int line, struct asked a, uint32_t sector, uint32_t size, uint64_t stamp)
{
    answers(line, a, XDVDFS_DONE, sector, size, stamp);
}

static void refuses(int line, struct asked a, uint32_t number)
{
    answers(line, a, number, 0, 0, 0);
}

/* The window and the path, each NULL with length 0, and both */
static void limits_of_nothing(void)
{
    struct asked a;
    make_volume(MADE);
    a = ask(0, NULL, MADE, 0);
    refuses(__LINE__, a, XDVDFS_NO_DIRENT);
    a.w = NULL;
    a.w_len = 0;
    refuses(__LINE__, a, XDVDFS_NO_VOLUME);
    a.path = "limits";
    refuses(__LINE__, a, XDVDFS_NO_VOLUME);
    a.first = 32;
    refuses(__LINE__, a, XDVDFS_NO_VOLUME);
}

/* At each stamp: the time is the stamp's, one less, as much later as the age allows, and one more */
static void limits_by_date(void)
{
    static const uint64_t stamps[] = {1, XDVDFS_STAMP_1970, MADE, UINT64_C(1) << 63, UINT64_MAX - XDVDFS_STAMP_DAY - 1};
    static const uint64_t ages[] = {0, 1, UINT32_MAX, UINT64_C(1) << 32, XDVDFS_STAMP_DAY};
    size_t i, j;
    for (i = 0; i < sizeof stamps / sizeof *stamps; i++) {
        uint64_t stamp = stamps[i];
        make_volume(stamp);
        for (j = 0; j < sizeof ages / sizeof *ages; j++) {
            uint64_t age = ages[j];
            loads(__LINE__, ask(0, "limits", stamp, age), 36, 7, stamp);
            refuses(__LINE__, ask(0, "limits", stamp - 1, age), XDVDFS_CLOCK_BACK);
            refuses(__LINE__, ask(0, "limits", 0, age), XDVDFS_CLOCK_BACK);
            loads(__LINE__, ask(0, "limits", stamp + age, age), 36, 7, stamp);
            refuses(__LINE__, ask(0, "limits", stamp + age + 1, age), XDVDFS_TOO_OLD);
        }
    }
    /* the ends of the numbers: no sum of a stamp and an age is made */
    make_volume(UINT64_MAX);
    loads(__LINE__, ask(0, "limits", UINT64_MAX, 0), 36, 7, UINT64_MAX);
    loads(__LINE__, ask(0, "limits", UINT64_MAX, UINT64_MAX), 36, 7, UINT64_MAX);
    refuses(__LINE__, ask(0, "limits", UINT64_MAX - 1, UINT64_MAX), XDVDFS_CLOCK_BACK);
    refuses(__LINE__, ask(0, "limits", 0, UINT64_MAX), XDVDFS_CLOCK_BACK);
    make_volume(UINT64_MAX - 1);
    refuses(__LINE__, ask(0, "limits", UINT64_MAX, 0), XDVDFS_TOO_OLD);
    loads(__LINE__, ask(0, "limits", UINT64_MAX, 1), 36, 7, UINT64_MAX - 1);
    make_volume(1);
    loads(__LINE__, ask(0, "limits", UINT64_MAX, UINT64_MAX), 36, 7, 1);
    loads(__LINE__, ask(0, "limits", UINT64_MAX, UINT64_MAX - 1), 36, 7, 1);
    refuses(__LINE__, ask(0, "limits", UINT64_MAX, UINT64_MAX - 2), XDVDFS_TOO_OLD);
    /* no date, at any time and by any age */
    make_volume(XDVDFS_NO_DATE);
    refuses(__LINE__, ask(0, "limits", 0, 0), XDVDFS_UNDATED);
    refuses(__LINE__, ask(0, "limits", 0, UINT64_MAX), XDVDFS_UNDATED);
    refuses(__LINE__, ask(0, "limits", UINT64_MAX, 0), XDVDFS_UNDATED);
    refuses(__LINE__, ask(0, "limits", UINT64_MAX, UINT64_MAX), XDVDFS_UNDATED);
}

/* Wherever the window starts, the descriptor is that of sector 32 */
static void limits_by_window(void)
{
    uint32_t first;
    struct asked a;
    make_volume(MADE);
    for (first = 0; first <= 32; first++) {
        loads(__LINE__, ask(first, "limits", MADE, 0), 36, 7, MADE);
        loads(__LINE__, ask(first, "folder/axis_2", MADE, 0), 38, 5000, MADE);
    }
    for (first = 33; first <= 36; first++)
        refuses(__LINE__, ask(first, "limits", MADE, 0), XDVDFS_NO_VOLUME);
    /* the same bytes, said to start at another sector */
    a = ask(32, "limits", MADE, 0);
    for (a.first = 0; a.first <= 100; a.first++)
        if (a.first != 32)
            refuses(__LINE__, a, XDVDFS_NO_VOLUME);
    a.first = UINT32_MAX;
    refuses(__LINE__, a, XDVDFS_NO_VOLUME);
    a = ask(0, "limits", MADE, 0);
    a.first = 32;
    refuses(__LINE__, a, XDVDFS_NO_VOLUME);
}

/* The window is cut: before the second mark's end there is no volume; from there on to the end of the entry that is sought the table is cut short */
static void limits_of_a_cut_window(void)
{
    static const uint32_t firsts[] = {0, 31, 32};
    size_t i;
    make_volume(MADE);
    for (i = 0; i < sizeof firsts / sizeof *firsts; i++) {
        struct asked a = ask(firsts[i], "limits", MADE, 0);
        size_t descriptor = (32 - firsts[i]) * SECTOR, whole = a.w_len;
        for (a.w_len = 0; a.w_len < descriptor; a.w_len += SECTOR - 1)
            refuses(__LINE__, a, XDVDFS_NO_VOLUME);
        for (a.w_len = descriptor; a.w_len < descriptor + SECTOR; a.w_len++)
            refuses(__LINE__, a, XDVDFS_NO_VOLUME);
        for (; a.w_len < descriptor + SECTOR + 60; a.w_len++)
            refuses(__LINE__, a, XDVDFS_TRUNCATED);
        for (; a.w_len <= descriptor + SECTOR + 61; a.w_len++)
            loads(__LINE__, a, 36, 7, MADE);
        a.path = "folder/axis_2"; /* its entry is the last of a table of 40 bytes */
        for (a.w_len = whole - SECTOR - 1; a.w_len < whole - SECTOR + 40; a.w_len++)
            refuses(__LINE__, a, XDVDFS_TRUNCATED);
        loads(__LINE__, a, 38, 5000, MADE);
    }
}

/* A byte of the descriptor is changed: one of a mark, and there is no volume; of the rest nothing but root and stamp counts */
static void limits_by_marks(void)
{
    size_t i;
    make_volume(MADE);
    for (i = 0; i < SECTOR; i++) {
        volume[DESCRIPTOR + i] ^= 0x20;
        if (i < 20 || i >= 2028)
            refuses(__LINE__, ask(0, "limits", MADE, UINT64_MAX), XDVDFS_NO_VOLUME);
        else if (i >= 36)
            loads(__LINE__, ask(0, "limits", MADE, 0), 36, 7, MADE);
        volume[DESCRIPTOR + i] ^= 0x20;
    }
}

/* What a path answers in a volume as it is made, and below each earlier refusal: those of the volume come before those of its date, and both before the path's */
static void limits_by_path(void)
{
    static const struct {
        const char *path;
        uint32_t number, sector, size;
    } paths[] = {
        {"limits", XDVDFS_DONE, 36, 7},
        {"LIMITS", XDVDFS_DONE, 36, 7},
        {"///Limits/", XDVDFS_DONE, 36, 7},
        {"folder/axis_1", XDVDFS_DONE, 37, 100},
        {"/FOLDER/axis_2/", XDVDFS_DONE, 38, 5000},
        {"\x80", XDVDFS_BAD_BYTE, 0, 0},
        {"limits\xff", XDVDFS_BAD_BYTE, 0, 0},
        {"limits/\x80", XDVDFS_BAD_BYTE, 0, 0},
        {"missing/\x80", XDVDFS_BAD_BYTE, 0, 0},
        {"", XDVDFS_NO_DIRENT, 0, 0},
        {"/", XDVDFS_NO_DIRENT, 0, 0},
        {"///", XDVDFS_NO_DIRENT, 0, 0},
        {"hollow/limits", XDVDFS_DIRECTORY_EMPTY, 0, 0},
        {"hollow/limits/x", XDVDFS_DIRECTORY_EMPTY, 0, 0},
        {"missing", XDVDFS_DOES_NOT_EXIST, 0, 0},
        {"limit", XDVDFS_DOES_NOT_EXIST, 0, 0},
        {"limits_", XDVDFS_DOES_NOT_EXIST, 0, 0},
        {"\x7f", XDVDFS_DOES_NOT_EXIST, 0, 0},
        {"folder/limits", XDVDFS_DOES_NOT_EXIST, 0, 0},
        {"missing/limits", XDVDFS_DOES_NOT_EXIST, 0, 0},
        {"limits/x", XDVDFS_IS_NOT_DIRECTORY, 0, 0},
        {"folder/axis_1/x", XDVDFS_IS_NOT_DIRECTORY, 0, 0},
        {"folder", XDVDFS_NOT_A_FILE, 0, 0},
        {"/folder/", XDVDFS_NOT_A_FILE, 0, 0},
        {"hollow", XDVDFS_NOT_A_FILE, 0, 0},
    };
    static const struct {
        uint64_t stamp, time, age;
        uint32_t number;
    } dates[] = {
        {MADE, MADE, 0, XDVDFS_DONE},
        {XDVDFS_NO_DATE, MADE, UINT64_MAX, XDVDFS_UNDATED},
        {MADE, MADE - 1, UINT64_MAX, XDVDFS_CLOCK_BACK},
        {MADE, MADE + 2, 1, XDVDFS_TOO_OLD},
    };
    size_t i, j;
    for (i = 0; i < sizeof dates / sizeof *dates; i++) {
        make_volume(dates[i].stamp);
        for (j = 0; j < sizeof paths / sizeof *paths; j++) {
            struct asked a = ask(0, paths[j].path, dates[i].time, dates[i].age);
            if (dates[i].number != XDVDFS_DONE)
                refuses(__LINE__, a, dates[i].number);
            else
                answers(__LINE__, a, paths[j].number, paths[j].sector, paths[j].size, paths[j].number == XDVDFS_DONE ? MADE : 0);
            volume[DESCRIPTOR + 2047] ^= 1;
            refuses(__LINE__, a, XDVDFS_NO_VOLUME);
            volume[DESCRIPTOR + 2047] ^= 1;
        }
    }
}

/* Tables that are damaged, or said to be shorter than they are */
static void limits_in_a_bad_table(void)
{
    make_volume(MADE);
    describe(0, MADE);
    refuses(__LINE__, ask(0, "limits", MADE, 0), XDVDFS_DIRECTORY_EMPTY);
    refuses(__LINE__, ask(0, "limits/x", MADE, 0), XDVDFS_DIRECTORY_EMPTY);
    refuses(__LINE__, ask(0, "\x80", MADE, 0), XDVDFS_BAD_BYTE);
    refuses(__LINE__, ask(0, "", MADE, 0), XDVDFS_NO_DIRENT);
    refuses(__LINE__, ask(0, "limits", MADE + 1, 0), XDVDFS_TOO_OLD);
    describe(0, XDVDFS_NO_DATE);
    refuses(__LINE__, ask(0, "limits", MADE, 0), XDVDFS_UNDATED);
    /* `limits` stands at 40 */
    describe(40, MADE);
    refuses(__LINE__, ask(0, "limits", MADE, 0), XDVDFS_OUT_OF_BOUNDS);
    refuses(__LINE__, ask(0, "limits", MADE - 1, 0), XDVDFS_CLOCK_BACK);
    refuses(__LINE__, ask(0, "hollow", MADE, 0), XDVDFS_NOT_A_FILE);
    describe(41, MADE);
    loads(__LINE__, ask(0, "limits", MADE, 0), 36, 7, MADE);
    /* the left child of `folder`, at 20, is itself */
    make_volume(MADE);
    volume[ROOT + 20] = 5;
    volume[ROOT + 21] = 0;
    refuses(__LINE__, ask(0, "axis_1", MADE, 0), XDVDFS_LOOPED);
    refuses(__LINE__, ask(0, "axis_1", MADE + 1, 0), XDVDFS_TOO_OLD);
    loads(__LINE__, ask(0, "folder/axis_1", MADE, 0), 37, 100, MADE);
}

/* What stands in the entry of `limits`: of the attributes the bit of a directory alone counts; sector and size are any, and a file at 0 of 0 bytes is loaded like another */
static void limits_by_entry(void)
{
    uint8_t *entry = volume + ROOT + 40;
    unsigned bits;
    make_volume(MADE);
    for (bits = 0; bits <= 255; bits++) {
        entry[12] = (uint8_t)bits;
        if (bits & XDVDFS_DIRECTORY)
            refuses(__LINE__, ask(0, "limits", MADE, 0), XDVDFS_NOT_A_FILE);
        else
            loads(__LINE__, ask(0, "limits", MADE, 0), 36, 7, MADE);
    }
    entry[12] = 0;
    memset(entry + 4, 0xff, 8);
    loads(__LINE__, ask(0, "limits", MADE, 0), UINT32_MAX, UINT32_MAX, MADE);
    memset(entry + 4, 0, 8);
    loads(__LINE__, ask(0, "limits", MADE, 0), 0, 0, MADE);
}

/* A root of sixty names: `file48` stands behind a link of 255. The root's size is the reported one, and rounded up */
static void limits_behind_255(void)
{
    static const uint32_t forms[] = {1200, 2048};
    char names[6 * MOST + 1], path[sizeof "file00"];
    uint32_t size[MOST], hidden_names = 0, offset, i;
    uint8_t kind[MOST];
    size_t place, form;
    struct xdvdfs_fields fields;
    int missing = NONE;
    for (i = 0; i < MOST; i++) {
        sprintf(names + 6 * i, "file%02u", (unsigned)i);
        size[i] = i + 1;
        kind[i] = XDVDFS_KIND_FILE;
    }
    FILL(volume);
    EXPECT("sixty names: the reported size", write_six(MOST, names, size, kind, 34, volume + ROOT), forms[0]);
    for (form = 0; form < 2; form++) {
        describe(forms[form], MADE);
        for (i = 0; i < MOST; i++) {
            sprintf(path, "file%02u", (unsigned)i);
            EXPECT("sixty names: under rule two",
                   xdvdfs_find_path(volume, sizeof volume, 0, 33, forms[form], (const uint8_t *)path, 6, XDVDFS_RULE_TWO, &fields, &place, &offset), XDVDFS_DONE);
            loads(__LINE__, ask(0, path, MADE, 0), fields.sector, i + 1, MADE);
            hidden_names += xdvdfs_find_path(volume, sizeof volume, 0, 33, forms[form], (const uint8_t *)path, 6, XDVDFS_RULE_ONE, &fields, &place, &offset) == XDVDFS_DOES_NOT_EXIST;
        }
        loads(__LINE__, ask(32, "file48", MADE, 0), 85, 49, MADE);
        refuses(__LINE__, ask(32, "file60", MADE, 0), XDVDFS_DOES_NOT_EXIST);
    }
    EXPECT("sixty names: not found under rule one, in two forms", hidden_names, 2);
}

/* A link of 65,535 is absent, as under rule two; one of 65,534 is followed */
static void limits_behind_65535(void)
{
    static uint8_t image[SECTOR + 262156];
    struct asked a = {image, sizeof image, 32, "c", MADE, 0};
    uint8_t *table = image + SECTOR;
    int missing = NONE;
    FILL(image);
    EXPECT("write_descriptor of a long root", xdvdfs_write_descriptor(image, SECTOR, 33, 262156, MADE), XDVDFS_DONE);
    memcpy(table, abc, 16);
    memset(table, 0, 2);
    memset(table + 2, 0xff, 2);
    memcpy(table + 262140, abc + 32, 16);
    refuses(__LINE__, a, XDVDFS_DOES_NOT_EXIST);
    table[2] = 0xfe;
    memcpy(table + 262136, abc + 32, 16);
    loads(__LINE__, a, 36, 1, MADE);
}

static void others(void)
{
    uint32_t next = 33, start = UNTOUCHED;
    int missing = 0;
    EXPECT("write_descriptor", xdvdfs_write_descriptor(NULL, 0, 33, 48, XDVDFS_NO_DATE), XDVDFS_BUFFER_TOO_SMALL);
    /* these have no slice */
    missing = NONE;
    EXPECT("first_sector", xdvdfs_first_sector(), 33);
    EXPECT("required_sectors", xdvdfs_required_sectors(0), 1);
    EXPECT("take_sectors", xdvdfs_take_sectors(&next, 2049, &start), XDVDFS_DONE);
    EXPECT("take_sectors: start", start, 33);
    EXPECT("take_sectors: next", next, 35);
}

static void texts(void)
{
    static const uint32_t known[] = {0, 1, 2, 3, 4, 5, 6, 7, 8, 9, 10, 11, 12, 20, 21, 22, 23, 24, 25, 26, 27, 28, 29, 30, 31, 32, 40, 41, 42, 43};
    enum { KNOWN = sizeof known / sizeof *known };
    const char *other = xdvdfs_text(UINT32_MAX);
    int missing = NONE;
    unsigned i, j;
    EXPECT("text of no number", other != NULL && other[0] != 0, 1);
    for (i = 0; i < 1000; i++) {
        const char *text = xdvdfs_text(i);
        int is_known = 0;
        for (j = 0; j < KNOWN; j++)
            if (known[j] == i)
                is_known = 1;
        EXPECT("text", text != NULL && text[0] != 0, 1);
        if (text != NULL)
            EXPECT("text: of its own", strcmp(text, other) != 0, is_known);
    }
    for (i = 0; i < KNOWN; i++)
        for (j = 0; j < i; j++)
            EXPECT("texts differ", strcmp(xdvdfs_text(known[i]), xdvdfs_text(known[j])) != 0, 1);
    /* what stops a rig, in words */
    expect_text(__LINE__, xdvdfs_text(40), "the volume has no date");
    expect_text(__LINE__, xdvdfs_text(41), "the time is before the volume's date");
    expect_text(__LINE__, xdvdfs_text(42), "the volume is older than the greatest age");
    expect_text(__LINE__, xdvdfs_text(43), "the path leads to a directory and not to a file");
    /* the number is not the stamp that it speaks of */
    EXPECT("the number of no date", XDVDFS_UNDATED, 40);
    EXPECT("the stamp of no date", XDVDFS_NO_DATE, 0);
    EXPECT("version", strlen(XDVDFS_VERSION) >= 5 && XDVDFS_VERSION_NUMBER > 0, 1);
}

int main(void)
{
    reading();
    walking();
    adding();
    serialising();
    listing();
    planning();
    shares();
    no_rule();
    ordered();
    hidden();
    ringed();
    descriptors();
    known_dates();
    no_date();
    dates_of_libc();
    limits_of_nothing();
    limits_by_date();
    limits_by_window();
    limits_of_a_cut_window();
    limits_by_marks();
    limits_by_path();
    limits_in_a_bad_table();
    limits_by_entry();
    limits_behind_255();
    limits_behind_65535();
    others();
    texts();
    printf("bindings/c/tests: %d compared, %d differ\n", tried, wrong);
    return wrong != 0;
}
