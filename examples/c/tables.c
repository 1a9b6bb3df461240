/*
 * tables IMAGE PATH: shows the date of an image's volume, lists its root directory, looks a path up in it, then builds a small image in memory, reads it back, and plans it.
 * Everything of a descriptor and of a directory table is done by libcapi.a; this file only reads a file and prints.
 */
#include <stdio.h>
#include <stdlib.h>
#include <string.h>

#include "xdvdfs.h"

enum { MOST = 4096 };

struct table {
    uint32_t sector;
    uint32_t size;
};

struct window {
    const uint8_t *bytes;
    size_t len;
    uint32_t first;
};

static void refuse(const char *what, uint32_t number)
{
    printf("%s: %s (refusal %u)\n", what, xdvdfs_text(number), (unsigned)number);
}

/* Reads the descriptor that the window starts with: the root table. The volume's date is printed. */
static uint32_t read_volume(struct window w, struct table *root)
{
    char text[XDVDFS_DATE_SIZE];
    uint64_t stamp = XDVDFS_NO_DATE;
    uint32_t number = xdvdfs_read_descriptor(w.bytes, w.len, &root->sector, &root->size, &stamp);
    if (number == XDVDFS_DONE)
        printf("date: %s\n", xdvdfs_date_text(stamp, text));
    return number;
}

/* A line of a listing: `d` or `f`, the sector, the size, the name. */
static void show(struct window w, struct xdvdfs_fields fields, size_t place)
{
    size_t start, len;
    xdvdfs_entry_name(w.bytes, w.len, place, fields.name_len, &start, &len);
    printf("%c %u %u ", fields.attributes & XDVDFS_DIRECTORY ? 'd' : 'f', (unsigned)fields.sector, (unsigned)fields.size);
    fwrite(w.bytes + start, 1, len, stdout);
    putchar('\n');
}

/* Nothing is printed of a table before the walk is known to end well. */
static void list(struct window w, struct table t)
{
    static uint32_t offsets[MOST], scratch[MOST + 1];
    size_t count = 0, i;
    uint32_t offset = 0;
    uint32_t number = xdvdfs_walk(w.bytes, w.len, w.first, t.sector, t.size, offsets, MOST, scratch, MOST + 1, &count, &offset);
    if (number != XDVDFS_DONE) {
        refuse("list", number);
        return;
    }
    for (i = 0; i < count; i++) {
        struct xdvdfs_fields fields;
        uint32_t found = 0;
        size_t place = 0;
        number = xdvdfs_read_entry(w.bytes, w.len, w.first, t.sector, t.size, offsets[i], &found, &fields, &place);
        if (number == XDVDFS_DONE && found)
            show(w, fields, place);
    }
    printf("entries %lu\n", (unsigned long)count);
}

/* Under rule two, as a new loader looks up. */
static void find(struct window w, struct table t, const char *path)
{
    struct xdvdfs_fields fields;
    size_t place = 0;
    uint32_t offset = 0;
    uint32_t number = xdvdfs_find_path(w.bytes, w.len, w.first, t.sector, t.size, (const uint8_t *)path, strlen(path), XDVDFS_RULE_TWO, &fields, &place, &offset);
    printf("%s: ", path);
    if (number == XDVDFS_DONE)
        show(w, fields, place);
    else if (number == XDVDFS_OUT_OF_BOUNDS || number == XDVDFS_TRUNCATED)
        printf("%s (refusal %u at offset %u)\n", xdvdfs_text(number), (unsigned)number, (unsigned)offset);
    else
        printf("%s (refusal %u)\n", xdvdfs_text(number), (unsigned)number);
}

static void check(struct window w, struct table t)
{
    static uint32_t offsets[MOST];
    static uint64_t scratch[MOST + 1];
    size_t count = 0;
    uint32_t offset = 0;
    uint32_t number = xdvdfs_check_table(w.bytes, w.len, w.first, t.sector, t.size, offsets, MOST, scratch, MOST + 1, &count, &offset);
    if (number == XDVDFS_DONE)
        printf("check: good, entries %lu\n", (unsigned long)count);
    else
        refuse("check", number);
}

/* Writes a table of up to four entries, names being one after another; out has room for one sector. */
static uint32_t write_table(const char *names, const uint32_t *len, const uint32_t *size, const uint8_t *kind, uint32_t n, uint32_t first, uint8_t *out,
                            uint32_t *table_size, uint32_t *next_free)
{
    uint32_t start[4], key[4], entry = UINT32_MAX, i;
    uint16_t left[4], right[4], parent[4], order[4], place[4];
    uint8_t height[4];
    uint32_t number;
    for (i = 0; i < n; i++)
        start[i] = i == 0 ? 0 : start[i - 1] + len[i - 1];
    number = xdvdfs_write_list(n, start, n, len, n, size, n, kind, n, (const uint8_t *)names, strlen(names), first, left, 4, right, 4, parent, 4, height, 4,
                               key, 4, order, 4, place, 4, out, XDVDFS_SECTOR_SIZE, table_size, next_free, &entry);
    if (entry != UINT32_MAX)
        printf("entry %u of the list: ", (unsigned)entry);
    return number;
}

/* Adds one entry at a time, and writes: the same bytes. */
static uint32_t add_and_write(const char *names, const uint32_t *len_of, const uint32_t *size_of, const uint8_t *kind_of, uint32_t n, uint32_t first,
                              uint8_t *out)
{
    uint16_t root = XDVDFS_NO_NODE, count = 0, left[4], right[4], parent[4], order[4], place[4];
    uint32_t start[4], len[4], size[4], at = 0, i, number, table_size, next_free;
    uint8_t height[4], kind[4];
    for (i = 0; i < n; i++) {
        number = xdvdfs_add(&root, &count, left, 4, right, 4, parent, 4, height, 4, start, 4, len, 4, size, 4, kind, 4, (const uint8_t *)names,
                            strlen(names), at, len_of[i], kind_of[i], size_of[i]);
        if (number != XDVDFS_DONE)
            return number;
        at += len_of[i];
    }
    return xdvdfs_serialise(root, count, left, 4, right, 4, parent, 4, height, 4, start, 4, len, 4, size, 4, kind, 4, (const uint8_t *)names, strlen(names),
                            first, order, 4, place, 4, out, XDVDFS_SECTOR_SIZE, &table_size, &next_free);
}

/* An image of three sectors from sector 32 on: the descriptor, a root table and the table of its directory. */
static void build(void)
{
    static uint8_t image[3 * XDVDFS_SECTOR_SIZE], again[XDVDFS_SECTOR_SIZE];
    const uint32_t maps_len[] = {7, 7}, maps_size[] = {100, 5000};
    const uint8_t maps_kind[] = {XDVDFS_KIND_FILE, XDVDFS_KIND_FILE};
    uint32_t root_len[] = {6, 4, 4}, root_size[] = {7, 0, 2048};
    const uint8_t root_kind[] = {XDVDFS_KIND_FILE, XDVDFS_KIND_DIRECTORY, XDVDFS_KIND_FILE};
    struct window w = {image, sizeof image, 32};
    struct table root = {33, 0};
    const uint64_t unix_time = 1794830400; /* 2026-11-16T12:00:00Z */
    uint32_t next_free = 0, number;

    /* The root's entries take sectors in walk order, "maps" first: its table is at 34, and the files of "maps" go where the root's end. */
    number = write_table("one.bintwo.bin", maps_len, maps_size, maps_kind, 2, 37, image + 2 * XDVDFS_SECTOR_SIZE, &root_size[1], &next_free);
    if (number != XDVDFS_DONE)
        refuse("maps", number);
    number = write_table("limitsmapssave", root_len, root_size, root_kind, 3, 34, image + XDVDFS_SECTOR_SIZE, &root.size, &next_free);
    if (number != XDVDFS_DONE)
        refuse("root", number);
    xdvdfs_write_descriptor(image, sizeof image, root.sector, root.size, XDVDFS_STAMP_1970 + unix_time * XDVDFS_STAMP_SECOND);
    printf("built: root of %u bytes, next free sector %u\n", (unsigned)root.size, (unsigned)next_free);
    number = add_and_write("limitsmapssave", root_len, root_size, root_kind, 3, 34, again);
    printf("one by one: %s, %s\n", xdvdfs_text(number), memcmp(again, image + XDVDFS_SECTOR_SIZE, sizeof again) == 0 ? "the same bytes" : "other bytes");

    number = read_volume(w, &root);
    if (number != XDVDFS_DONE)
        refuse("built", number);
    list(w, root);
    check(w, root);
    find(w, root, "Maps/TWO.bin");
    find(w, root, "limits/x");
    find(w, root, "maps/three.bin");
    number = write_table("aabA", maps_len, maps_size, maps_kind, 2, 37, again, &root.size, &next_free);
    refuse("a name past the names lent", number);
}

/* The plan of the same image: the root has the entries 0 to 2, "maps" 3 and 4. `names_directory` is the directory that the entry "maps" names. */
static void plan(uint32_t names_directory)
{
    const uint32_t first[] = {0, 3}, share[] = {3, 2}, start[] = {0, 6, 10, 14, 21}, len[] = {6, 4, 4, 7, 7};
    const uint8_t kind[] = {XDVDFS_KIND_FILE, XDVDFS_KIND_DIRECTORY, XDVDFS_KIND_FILE, XDVDFS_KIND_FILE, XDVDFS_KIND_FILE};
    const uint64_t value[] = {7, names_directory, 2048, 100, 5000};
    const char *names = "limitsmapssaveone.bintwo.bin";
    uint32_t sizes[2], tables[2], sectors[5], sized[2], key[3], size[3], next_free = 0, entry = 0, directory = 0, number, i;
    uint16_t left[3], right[3], parent[3], order[5];
    uint8_t height[3];
    number = xdvdfs_plan(2, 5, first, 2, share, 2, start, 5, len, 5, kind, 5, value, 5, (const uint8_t *)names, strlen(names), sizes, 2, tables, 2, sectors, 5,
                         sized, 2, left, 3, right, 3, parent, 3, height, 3, key, 3, size, 3, order, 5, &next_free, &entry, &directory);
    if (number != XDVDFS_DONE) {
        refuse("plan", number);
        return;
    }
    for (i = 0; i < 2; i++)
        printf("plan: directory %u at %u, %u bytes\n", (unsigned)i, (unsigned)tables[i], (unsigned)sizes[i]);
    for (i = 0; i < 5; i++)
        printf("plan: %.*s at %u\n", (int)len[i], names + start[i], (unsigned)sectors[i]);
    printf("plan: next free sector %u\n", (unsigned)next_free);
}

static void read_image(const char *file, const char *path)
{
    static uint8_t image[1 << 21];
    FILE *f = fopen(file, "rb");
    size_t n = f == NULL ? 0 : fread(image, 1, sizeof image, f);
    size_t skip = (size_t)XDVDFS_DESCRIPTOR_SECTOR * XDVDFS_SECTOR_SIZE;
    struct window w = {image, 0, XDVDFS_DESCRIPTOR_SECTOR};
    struct table root = {0, 0};
    uint32_t number;
    if (f != NULL)
        fclose(f);
    if (n > skip) {
        w.bytes = image + skip;
        w.len = n - skip;
    }
    number = read_volume(w, &root);
    if (number != XDVDFS_DONE) {
        refuse(file, number);
        return;
    }
    list(w, root);
    find(w, root, path);
}

int main(int argc, char **argv)
{
    if (argc != 3) {
        fprintf(stderr, "usage: tables IMAGE PATH\n");
        return 2;
    }
    read_image(argv[1], argv[2]);
    build();
    plan(1);
    plan(0);
    return 0;
}
