/*
 * xdvdfs.h: XDVDFS directory tables, read and written.
 *
 * The functions below are those of crates/capi, which are proved to answer and to leave in memory what their contracts
 * say; this file says the same in words, and docs/SCOPE.md has the rules in one place. tools/check-header compares the
 * declarations with the code. `rt lib` in crates/capi writes out/libcapi.a there, which links into C, C++ and Rust
 * programs on x86-64 Linux. Of other libraries it calls memset alone.
 *
 * WHAT A CALL DOES. It returns a number, 0 (XDVDFS_DONE) where nothing is refused, else one of `enum xdvdfs_number`;
 * xdvdfs_text says in words what a number means. Values of the answer are stored where the parameters marked [out]
 * point. A place for which the answer has no value is left as it was: after a refusal that is every [out] place but
 * those that the function's comment names for that number. xdvdfs_load_limits is the exception: it writes all its
 * [out] places on every call, and after a refusal they are 0. No call keeps a pointer, allocates, prints, or has state
 * of its own: calls from several threads do not disturb each other, so long as none writes what another reads.
 *
 * WHAT A CALL ASKS. Any numbers and any bytes will do: bad input gets a number. Of pointers it asks what C cannot
 * check:
 *   - a pointer that comes with a length points to that many elements, which stay there during the call; one with no
 *     length points to one element;
 *   - each is aligned for its type;
 *   - what a call may write ([out], [in,out], [scratch]) overlaps nothing else that is lent to the same call. What it
 *     only reads may overlap what it only reads;
 *   - no pointer is NULL, but where the length is 0: then nothing is read or written through it, and NULL will do.
 * No array is longer than PTRDIFF_MAX bytes.
 *
 * WORDS. A window is a run of image bytes that starts at a sector, whose number is `first`; a sector has 2,048 bytes. A
 * table is given by its first sector and its size in bytes. Sectors are numbered from the start of the image, wherever
 * the window starts. An offset is a byte offset in a table, a place is an index into the window. A stamp says when a
 * volume was made: it counts 100 ns since the start of 1601, UTC, and 0 is no date.
 *
 * LIMITS. A rig that loads the limits of its axes from an image calls xdvdfs_load_limits, and stops where that refuses.
 * The one call stands for xdvdfs_read_descriptor, a look at the date, and xdvdfs_find_path: it answers a file and the
 * stamp of its volume together, or neither.
 *
 * RULES. xdvdfs_look_up and xdvdfs_find_path take the number of a rule, which says what links they take for absent:
 *   - XDVDFS_RULE_TWO: 0 and 65,535, as xdvdfs_walk does. A new loader takes this one: in a table that this library
 *     wrote it finds every entry by its name, and in an image that this library planned every file by its path; in a
 *     table that xdvdfs_check_table accepts, every entry whose name can be sought;
 *   - XDVDFS_RULE_ONE: 0 and 255, as the boards in the field do, and the tool that this library agrees with. It is for
 *     what has to answer as they do, and does not find what stands below a link of 255.
 * What rule one finds in a table that this library wrote, rule two finds too, at the same offset and after as many
 * headers. Any other number is XDVDFS_BAD_RULE, before all else that a call refuses. xdvdfs_load_limits takes no
 * number: it looks up under rule two.
 *
 * A NAME THAT IS LISTED MAY NOT BE FOUND. Under rule one an entry at offset 1,020, which a link of 255 names, and every
 * entry below it, is listed by xdvdfs_walk and is XDVDFS_DOES_NOT_EXIST to xdvdfs_look_up and xdvdfs_find_path. Tables
 * that this library writes can have such an entry; so can those of the tool that it agrees with. Under rule two a link
 * of 255 is followed. The second cause is there under both rules: a lookup goes left or right by each name that it
 * meets, so an entry that stands on the wrong side of one above it, or below one of the same name, is not found; only a
 * table that was not written in order has such an entry. (Nor is a stored name that has a byte above 127: it cannot be
 * sought, XDVDFS_BAD_BYTE.) xdvdfs_check_table refuses every table of the second kind, and a link of 255 is no fault to
 * it. So in a table that it accepts every entry whose name can be sought is found by its name under rule two, and under
 * rule one unless a link of 255 stands on the way to it. Who must not take "does not exist" for an answer about a file
 * that is there takes rule two, and has a table that this library did not write checked first. (The other way round:
 * under rule one a lookup follows a link of 65,535, which neither rule two nor a walk does. No table that this library
 * writes has one.)
 *
 * STACK. xdvdfs_check_table takes 65 KiB of stack, xdvdfs_add and xdvdfs_serialise at most 10 KiB, every other call
 * less than 2 KiB. (Read off the object code and measured; no theorem speaks of the stack.)
 */
#ifndef XDVDFS_H
#define XDVDFS_H

#include <stddef.h>
#include <stdint.h>

#ifdef __cplusplus
extern "C" {
#endif

/* The version of this interface: as text, and as 10,000 for the first of its numbers, 100 for the second, 1 for the
 * third. Where one of the first two is another, functions may have other parameters under the same names: a program is
 * compiled with the header of the library that it is linked with. From 0.3.0 to 0.5.0 none has: with 0.4.0
 * xdvdfs_load_limits, the numbers 40 to 43 and XDVDFS_STAMP_DAY were added, with 0.5.0 xdvdfs_check_table compares a
 * name with those of all entries above it, and no longer with its parent's alone. A program that was compiled with the
 * header of 0.3.0 or 0.4.0 links with this library and runs as it did, but where such a table is now
 * XDVDFS_OUT_OF_ORDER. */
#define XDVDFS_VERSION "0.5.0"
#define XDVDFS_VERSION_NUMBER 500

/* What a call returns. */
enum xdvdfs_number {
    XDVDFS_DONE = 0,
    /* adding an entry, writing a list, planning an image */
    XDVDFS_EMPTY_NAME = 1,                 /* the name has no bytes */
    XDVDFS_BAD_BYTE = 2,                   /* a byte of the name is 0 or above 127, or its place reaches past the names
                                              lent; in a name or path sought: a byte above 127 */
    XDVDFS_NAME_TOO_LONG = 3,              /* more than 255 bytes */
    XDVDFS_DUPLICATE_FILE_NAME = 4,        /* an equal name is there; a to z count as A to Z */
    XDVDFS_SIZE_OVERFLOW = 5,              /* a directory's size is above 4,294,965,248 */
    XDVDFS_ROOM = 6,                       /* lent memory is too short, or 16,384 entries are held */
    XDVDFS_TOO_MANY_DIRECTORY_ENTRIES = 7, /* an entry would stand past 262,143, where no link reaches */
    XDVDFS_SECTOR_OVERFLOW = 8,            /* the next free sector would exceed 4,294,967,295 */
    XDVDFS_BUFFER_TOO_SMALL = 9,           /* the output is shorter than what is to be written */
    XDVDFS_FILE_TOO_LARGE = 10,            /* a file's length is above 4,294,967,295 */
    XDVDFS_BAD_TREE = 11,                  /* the directories of a plan are not one tree, each after the one that names
                                              it, or a share reaches past the entries */
    XDVDFS_BAD_ARENA = 12,                 /* the arena's held nodes are not one ordered, balanced tree of entries that
                                              adding takes */
    /* reading */
    XDVDFS_NO_VOLUME = 20,                 /* no descriptor: a mark differs or is cut */
    XDVDFS_DIRECTORY_EMPTY = 21,           /* a lookup in a table of size 0 */
    XDVDFS_DOES_NOT_EXIST = 22,            /* the lookup came to a link that its rule takes for absent, or to no entry;
                                              where that was 255, under rule one, an entry below it may have the name */
    XDVDFS_OUT_OF_BOUNDS = 23,             /* an offset is not below the table's size */
    XDVDFS_TRUNCATED = 24,                 /* an entry's header or name is not in the window */
    XDVDFS_LOOPED = 25,                    /* the entries' links lead a lookup round for ever */
    XDVDFS_WALK_FULL = 26,                 /* an entry is read when the list is full: it has too few places, or the
                                              links lead a walk round for ever and no list would do */
    XDVDFS_IS_NOT_DIRECTORY = 27,          /* a part of the path, not its last, is a file */
    XDVDFS_NO_DIRENT = 28,                 /* the path has no part */
    XDVDFS_BAD_RULE = 29,                  /* the rule of a lookup or of a path is neither 1 nor 2 */
    /* the strict check */
    XDVDFS_SHARED = 30,                    /* an entry is reached twice */
    XDVDFS_OUT_OF_ORDER = 31,              /* a name in the left subtree of an entry is not less than the entry's, or
                                              one in its right subtree not greater */
    XDVDFS_BAD_PLACE = 32,                 /* an entry overlaps another, crosses a sector line or leaves the table */
    /* loading limits */
    XDVDFS_UNDATED = 40,                   /* NoDate in docs/SCOPE.md: the volume's stamp is 0. (XDVDFS_NO_DATE, below,
                                              is that stamp and no number of this list: it is 0 and not 40) */
    XDVDFS_CLOCK_BACK = 41,                /* the time is before the volume's stamp */
    XDVDFS_TOO_OLD = 42,                   /* the time less the volume's stamp is above the greatest age */
    XDVDFS_NOT_A_FILE = 43                 /* the path leads to a directory */
};

/* What a number means, in words: one line without a full stop. Never NULL, also for a number that no call returns. */
static inline const char *xdvdfs_text(uint32_t number)
{
    switch (number) {
    case XDVDFS_DONE:
        return "nothing is refused";
    case XDVDFS_EMPTY_NAME:
        return "the name is empty";
    case XDVDFS_BAD_BYTE:
        return "a byte of the name is 0 or above 127, or the name's place reaches past the bytes lent for names; "
               "of what is sought, a byte is above 127";
    case XDVDFS_NAME_TOO_LONG:
        return "the name has more than 255 bytes";
    case XDVDFS_DUPLICATE_FILE_NAME:
        return "an entry of that name is there already, upper and lower case being one";
    case XDVDFS_SIZE_OVERFLOW:
        return "the directory's size is above 4294965248 bytes";
    case XDVDFS_ROOM:
        return "the memory lent for the call is too short, or 16384 entries are held";
    case XDVDFS_TOO_MANY_DIRECTORY_ENTRIES:
        return "the table is too long: an entry would stand at offset 262144 or past it, where no link reaches";
    case XDVDFS_SECTOR_OVERFLOW:
        return "the next free sector would exceed 4294967295";
    case XDVDFS_BUFFER_TOO_SMALL:
        return "the output is shorter than what is to be written";
    case XDVDFS_FILE_TOO_LARGE:
        return "the file has more than 4294967295 bytes";
    case XDVDFS_BAD_TREE:
        return "the directories are no tree: there is none, a share reaches past the entries, "
               "or one but the root is not named exactly once, by an earlier one";
    case XDVDFS_BAD_ARENA:
        return "the arena does not hold one ordered, balanced tree of entries that adding takes";
    case XDVDFS_NO_VOLUME:
        return "no volume descriptor: one of its two marks differs or is cut short";
    case XDVDFS_DIRECTORY_EMPTY:
        return "the directory is empty: its table has size 0";
    case XDVDFS_DOES_NOT_EXIST:
        return "the name was not found; under rule one what stands below a link of 255 is not found, "
               "though a walk lists it";
    case XDVDFS_OUT_OF_BOUNDS:
        return "an offset is not below the table's size";
    case XDVDFS_TRUNCATED:
        return "an entry of the table is not whole in the bytes at hand";
    case XDVDFS_LOOPED:
        return "the table's links lead round in a ring: the lookup would never end";
    case XDVDFS_WALK_FULL:
        return "the list is full and there is an entry more: "
               "the list has too few places, or the table's links lead round in a ring";
    case XDVDFS_IS_NOT_DIRECTORY:
        return "a part of the path, not its last, is no directory";
    case XDVDFS_NO_DIRENT:
        return "the path has no part";
    case XDVDFS_BAD_RULE:
        return "the rule is neither 1 nor 2";
    case XDVDFS_SHARED:
        return "an entry is reached twice";
    case XDVDFS_OUT_OF_ORDER:
        return "a name in the left subtree of an entry is not less than the entry's, "
               "or one in its right subtree is not greater";
    case XDVDFS_BAD_PLACE:
        return "an entry overlaps another, crosses a sector line or leaves the table";
    case XDVDFS_UNDATED:
        return "the volume has no date";
    case XDVDFS_CLOCK_BACK:
        return "the time is before the volume's date";
    case XDVDFS_TOO_OLD:
        return "the volume is older than the greatest age";
    case XDVDFS_NOT_A_FILE:
        return "the path leads to a directory and not to a file";
    default:
        return "a number that no call returns";
    }
}

#define XDVDFS_SECTOR_SIZE 2048u      /* the bytes of a sector, and of a volume descriptor */
#define XDVDFS_DESCRIPTOR_SECTOR 32u  /* the sector of the volume descriptor */
#define XDVDFS_DIRECTORY 0x10u        /* the attribute bit of a directory */
#define XDVDFS_KIND_FILE 0u           /* the kinds of an entry to write; any number but 1 is a file */
#define XDVDFS_KIND_DIRECTORY 1u
#define XDVDFS_NO_NODE 65535u         /* the root of an arena that holds nothing; its count is 0 */
#define XDVDFS_NO_DATE 0u             /* the stamp of a volume without a date; the number 40 is XDVDFS_UNDATED */
#define XDVDFS_RULE_ONE 1u            /* a lookup as the boards in the field do it: links 0 and 255 are absent */
#define XDVDFS_RULE_TWO 2u            /* a lookup for a new loader: links 0 and 65,535 are absent, as in a walk */

/*
 * The header of an entry. Links are in units of four bytes. A directory is an entry with the attribute bit
 * XDVDFS_DIRECTORY, whatever else is set; sector and size are then its table.
 */
struct xdvdfs_fields {
    uint32_t left;
    uint32_t right;
    uint32_t sector;
    uint32_t size;
    uint32_t attributes;
    uint32_t name_len;
};

/*
 * DATES. What follows, up to READING, is the way from a stamp to a date, in plain C, tested and not proved: what is
 * proved ends at the stamp.
 *
 * The stamp of a Unix time t, in whole seconds, is XDVDFS_STAMP_1970 + (uint64_t)t * XDVDFS_STAMP_SECOND, for t from
 * -11,644,473,599, a second into 1601, to 1,833,029,933,770, the last second that has a stamp.
 */
#define XDVDFS_STAMP_1970 UINT64_C(116444736000000000)  /* the stamp of 1970-01-01T00:00:00Z */
#define XDVDFS_STAMP_SECOND UINT64_C(10000000)          /* a second, in the units of a stamp */
#define XDVDFS_STAMP_DAY UINT64_C(864000000000)         /* a day of 24 hours, in the same */
#define XDVDFS_DATE_SIZE 32u                            /* the bytes that xdvdfs_date_text asks for */

/* A date of the Gregorian calendar with a time of day, UTC. */
struct xdvdfs_date {
    uint32_t year;      /* 1601 to 60,056 */
    uint32_t month;     /* from 1 on */
    uint32_t day;       /* from 1 on */
    uint32_t hour;
    uint32_t minute;
    uint32_t second;
    uint32_t fraction;  /* of the second, in units of 100 ns */
};

/* How many whole runs of `run` days *days has, but at most `most`; they are taken off. */
static inline uint32_t xdvdfs_take_runs(uint32_t *days, uint32_t run, uint32_t most)
{
    uint32_t runs = *days / run;
    if (runs > most)
        runs = most;
    *days -= runs * run;
    return runs;
}

/* How many whole months of a year *days has; they are taken off. */
static inline uint32_t xdvdfs_take_months(uint32_t *days, int leap_day)
{
    const uint32_t lengths[] = {31, leap_day ? 29u : 28u, 31, 30, 31, 30, 31, 31, 30, 31, 30, 31};
    uint32_t months = 0;
    while (*days >= lengths[months]) {
        *days -= lengths[months];
        months++;
    }
    return months;
}

/*
 * The date of a stamp: 1, and *date is it; 0 for XDVDFS_NO_DATE, and *date is left as it was.
 * Each 400 years from 1601 on have 146,097 days. Their centuries have 36,524 days, the last of them one more; each four
 * years have 1,461 days, at the end of a century perhaps one less; their years 365, the last of them perhaps one more.
 */
static inline int xdvdfs_date_of(uint64_t stamp, struct xdvdfs_date *date)
{
    uint64_t seconds = stamp / XDVDFS_STAMP_SECOND;
    uint32_t of_day = (uint32_t)(seconds % 86400), days = (uint32_t)(seconds / 86400);
    uint32_t cycles = xdvdfs_take_runs(&days, 146097, UINT32_MAX);
    uint32_t centuries = xdvdfs_take_runs(&days, 36524, 3);
    uint32_t fours = xdvdfs_take_runs(&days, 1461, 24);
    uint32_t years = xdvdfs_take_runs(&days, 365, 3);
    int leap_day = years == 3 && (fours != 24 || centuries == 3);
    if (stamp == XDVDFS_NO_DATE)
        return 0;
    date->year = 1601 + 400 * cycles + 100 * centuries + 4 * fours + years;
    date->month = xdvdfs_take_months(&days, leap_day) + 1;
    date->day = days + 1;
    date->hour = of_day / 3600;
    date->minute = of_day / 60 % 60;
    date->second = of_day % 60;
    date->fraction = (uint32_t)(stamp % XDVDFS_STAMP_SECOND);
    return 1;
}

/* Puts the last `digits` decimal digits of a number; the place after them. */
static inline char *xdvdfs_put_digits(char *at, uint32_t number, uint32_t digits)
{
    uint32_t i;
    for (i = digits; i > 0; i--) {
        at[i - 1] = (char)('0' + number % 10);
        number /= 10;
    }
    return at + digits;
}

/* Puts a date as xdvdfs_date_text has it; the place after it. */
static inline char *xdvdfs_put_date(char *at, struct xdvdfs_date date)
{
    const uint32_t pairs[] = {date.month, date.day, date.hour, date.minute, date.second};
    const char *before = "--T::";
    uint32_t i;
    if (date.year > 9999)
        *at++ = '+';
    at = xdvdfs_put_digits(at, date.year, date.year > 9999 ? 5 : 4);
    for (i = 0; i < 5; i++) {
        *at++ = before[i];
        at = xdvdfs_put_digits(at, pairs[i], 2);
    }
    if (date.fraction != 0) {
        *at++ = '.';
        at = xdvdfs_put_digits(at, date.fraction, 7);
    }
    *at++ = 'Z';
    return at;
}

/*
 * The date of a stamp as text for people, ended by a 0, in `text`, which is returned: "no date" for XDVDFS_NO_DATE,
 * else as ISO 8601 has it, UTC, like 1970-01-01T00:00:00Z. Where it is no whole second, a fraction of seven digits
 * comes after the seconds, like 1601-01-01T00:00:00.0000001Z; a year from 10,000 on has a plus sign and all its
 * digits, like +10000-01-01T00:00:00Z.
 */
static inline const char *xdvdfs_date_text(uint64_t stamp, char text[XDVDFS_DATE_SIZE])
{
    const char *none = "no date";
    struct xdvdfs_date date = {0, 0, 0, 0, 0, 0, 0};
    char *at = text;
    if (xdvdfs_date_of(stamp, &date))
        at = xdvdfs_put_date(at, date);
    else
        while (*none != 0)
            *at++ = *none++;
    *at = 0;
    return text;
}

/* READING */

/*
 * Reads the volume descriptor that `s` starts with: sector 32 of an image.
 * 0: *sector and *size are those of the root table, *stamp is the volume's, XDVDFS_NO_DATE where it has no date.
 * XDVDFS_NO_VOLUME.
 */
uint32_t xdvdfs_read_descriptor(
    const uint8_t *s, size_t s_len,
    uint32_t *sector,  /* [out] */
    uint32_t *size,    /* [out] */
    uint64_t *stamp);  /* [out] */

/*
 * Reads the entry at an offset of a table.
 * 0, *found = 1: *fields is its header and *place its first byte in the window. 0, *found = 0: no entry stands there
 * (fourteen bytes of 0xff, or of 0). XDVDFS_OUT_OF_BOUNDS, XDVDFS_TRUNCATED: of the offset that was asked for.
 */
uint32_t xdvdfs_read_entry(
    const uint8_t *w, size_t w_len, uint32_t first,
    uint32_t sector, uint32_t size,
    uint32_t offset,
    uint32_t *found,               /* [out] */
    struct xdvdfs_fields *fields,  /* [out] */
    size_t *place);                /* [out] */

/*
 * Where the name of an entry stands: `place` and `name_len` are as an entry's answer has them. The name is w[*start] to
 * w[*start + *len - 1]; it is not ended by a 0, and may have any bytes. For a place that is no entry's it is what of
 * the window lies there, so *start + *len is never above w_len.
 */
void xdvdfs_entry_name(
    const uint8_t *w, size_t w_len,
    size_t place, uint32_t name_len,
    size_t *start,  /* [out] */
    size_t *len);   /* [out] */

/*
 * Looks a name up in a table; a to z count as A to Z. `rule` is XDVDFS_RULE_ONE or XDVDFS_RULE_TWO: see RULES, above.
 * 0: *fields and *place as xdvdfs_read_entry has them, *offset is the entry's in the table, *headers the number of
 * entry headers read. XDVDFS_BAD_RULE, XDVDFS_BAD_BYTE, XDVDFS_DIRECTORY_EMPTY; XDVDFS_DOES_NOT_EXIST: *headers is the
 * number of headers read; XDVDFS_OUT_OF_BOUNDS, XDVDFS_TRUNCATED: *offset is the one that was to be read;
 * XDVDFS_LOOPED.
 *
 * XDVDFS_DOES_NOT_EXIST does not say that no entry has the name: it says that the lookup came to a link that the rule
 * takes for absent, or to no entry. Under rule one a link of 255 is such a link; xdvdfs_walk lists what stands below
 * it, and rule two follows it. See A NAME THAT IS LISTED MAY NOT BE FOUND, above. Under rule two, in a table that
 * xdvdfs_check_table accepts, it does say that no entry that is listed has the name.
 */
uint32_t xdvdfs_look_up(
    const uint8_t *w, size_t w_len, uint32_t first,
    uint32_t sector, uint32_t size,
    const uint8_t *name, size_t name_len,
    uint32_t rule,
    struct xdvdfs_fields *fields,  /* [out] */
    size_t *place,                 /* [out] */
    uint32_t *offset,              /* [out] */
    uint32_t *headers);            /* [out] */

/*
 * Follows a path from a table, through directories whose tables are in the window too. Leading slashes and one trailing
 * slash do not count. `rule` is XDVDFS_RULE_ONE or XDVDFS_RULE_TWO, and that of every part: see RULES, above.
 * 0: *fields and *place of the entry. XDVDFS_BAD_RULE, XDVDFS_BAD_BYTE, XDVDFS_NO_DIRENT; then of each part
 * XDVDFS_DIRECTORY_EMPTY, XDVDFS_DOES_NOT_EXIST, XDVDFS_LOOPED, and XDVDFS_OUT_OF_BOUNDS, XDVDFS_TRUNCATED with
 * *offset, the one that was to be read in that part's table; XDVDFS_IS_NOT_DIRECTORY.
 *
 * Each part is looked up as xdvdfs_look_up does it: XDVDFS_DOES_NOT_EXIST does not say that there is no such file.
 * Under rule one a part that stands below a link of 255 in its table is not found, though xdvdfs_walk lists it.
 */
uint32_t xdvdfs_find_path(
    const uint8_t *w, size_t w_len, uint32_t first,
    uint32_t sector, uint32_t size,
    const uint8_t *path, size_t path_len,
    uint32_t rule,
    struct xdvdfs_fields *fields,  /* [out] */
    size_t *place,                 /* [out] */
    uint32_t *offset);             /* [out] */

/*
 * Lists the offsets of a table's entries in preorder, left before right. An entry to which two links lead is listed
 * twice.
 * 0: *count is how many, list has them, and zeros past them. XDVDFS_ROOM: scratch_len is not above list_len, and
 * nothing is changed. XDVDFS_OUT_OF_BOUNDS, XDVDFS_TRUNCATED: *offset is the one that was to be read, and list is all
 * zero. XDVDFS_WALK_FULL: list is all zero; an entry was read when list_len entries were listed, be it that the table
 * has more, or that its links lead round in a ring, which fills a list of any length.
 * The scratch is all zero afterwards, but after XDVDFS_ROOM.
 *
 * Links of 0 and 65,535 are absent here, as under rule two of xdvdfs_look_up and xdvdfs_find_path. One of 255 is not:
 * what stands below it is listed, and under rule one XDVDFS_DOES_NOT_EXIST to those two.
 */
uint32_t xdvdfs_walk(
    const uint8_t *w, size_t w_len, uint32_t first,
    uint32_t sector, uint32_t size,
    uint32_t *list, size_t list_len,        /* [out] */
    uint32_t *scratch, size_t scratch_len,  /* [scratch] at least list_len + 1 */
    size_t *count,                          /* [out] */
    uint32_t *offset);                      /* [out] */

/*
 * Checks a table by a strict rule, and lists it as xdvdfs_walk does. The rule: the walk ends; no entry is reached
 * twice; no entry overlaps another, crosses a sector line or leaves the table; every name in the left subtree of an
 * entry is less than the entry's, every name in its right subtree greater. A subtree is all that the walk lists from a
 * link on. A blank header that a link reaches is no entry and no fault, and bounds no name.
 * As xdvdfs_walk, and further XDVDFS_SHARED, XDVDFS_BAD_PLACE, XDVDFS_OUT_OF_ORDER: *offset is that of the entry at
 * fault, and list is all zero. A ring is XDVDFS_SHARED, unless another fault or the end of the list comes before the
 * second visit. XDVDFS_OUT_OF_ORDER is told of the first entry in walk order whose name is on the wrong side of that of
 * any entry above it, or equal to it: of the root m, its left child c and c's right child z, it is told of z.
 *
 * In a table that is accepted every entry that is listed is found by its name: always under rule two of xdvdfs_look_up,
 * and under rule one unless a link of 255 stands on the way to it from the first entry. Names that have a byte above
 * 127 are the exception: they cannot be sought (XDVDFS_BAD_BYTE). A sought name that no listed entry has is
 * XDVDFS_DOES_NOT_EXIST under rule two (in a table of size 0 XDVDFS_DIRECTORY_EMPTY), and no lookup under rule two is
 * XDVDFS_OUT_OF_BOUNDS, XDVDFS_TRUNCATED or XDVDFS_LOOPED there.
 */
uint32_t xdvdfs_check_table(
    const uint8_t *w, size_t w_len, uint32_t first,
    uint32_t sector, uint32_t size,
    uint32_t *list, size_t list_len,        /* [out] */
    uint64_t *scratch, size_t scratch_len,  /* [scratch] at least list_len + 1 */
    size_t *count,                          /* [out] */
    uint32_t *offset);                      /* [out] */

/* LOADING LIMITS */

/*
 * Finds a file by its path, in a volume that is not too old, for a rig that is to load its limits: the file's first
 * sector, its size and the volume's stamp are answered together, or none of them is. It accepts exactly where both
 * marks of the volume descriptor stand, the volume has a date, `time` is not before the stamp, `time` less the stamp is
 * at most `age`, and the path finds a file from the root table on, as xdvdfs_find_path does under XDVDFS_RULE_TWO. A
 * file is an entry without the attribute bit XDVDFS_DIRECTORY.
 *
 * The descriptor is looked for at sector 32 of the image, which is byte 2,048 * (32 - first) of the window: the window
 * may be a whole image, with a `first` of 0, or start at any sector up to 32.
 *
 * 0: *sector and *size are the file's, *stamp is the volume's and is not 0. Refusals, in this order:
 *   - XDVDFS_NO_VOLUME, also where the window starts past sector 32 or ends before the descriptor's second mark does;
 *   - XDVDFS_UNDATED, XDVDFS_CLOCK_BACK, XDVDFS_TOO_OLD;
 *   - those of xdvdfs_find_path under rule two, without the offset;
 *   - XDVDFS_NOT_A_FILE.
 *
 * ALL THREE CELLS ARE WRITTEN ON EVERY CALL, with zeros on a refusal. Every other function leaves a cell for which the
 * answer has no value as it was. Here that could be what an earlier call answered, and after a refusal a rig must have
 * nothing to go on with. Nor is there a way to get one of the three without the others, and none of the pointers may be
 * NULL: a limits file without a date is a rumour. (xdvdfs_find_path gives a file's sector and size whatever the date: a
 * rig does not load by it.) Every refusal is a reason to stop, XDVDFS_DOES_NOT_EXIST too, and none is a reason to keep
 * the limits of before.
 *
 * `time` and `age` count 100 ns, as a stamp does; the time counts from the start of 1601, UTC. The time now is, in
 * whole seconds, or with their fraction after clock_gettime(CLOCK_REALTIME, &t):
 *
 *     XDVDFS_STAMP_1970 + (uint64_t)time(NULL) * XDVDFS_STAMP_SECOND
 *     XDVDFS_STAMP_1970 + (uint64_t)t.tv_sec * XDVDFS_STAMP_SECOND + (uint64_t)t.tv_nsec / 100
 *
 * An age of thirty days is 30 * XDVDFS_STAMP_DAY; one of 0 accepts no time but the stamp's. The time is believed: with
 * a clock that is slow a volume looks younger than it is. (With one that was never set, and says 1970, every volume
 * that was made later is XDVDFS_CLOCK_BACK.)
 *
 * Whether the window, or the image, has the bytes of the file itself is not looked at.
 */
uint32_t xdvdfs_load_limits(
    const uint8_t *w, size_t w_len, uint32_t first,
    const uint8_t *path, size_t path_len,
    uint64_t time, uint64_t age,
    uint32_t *sector,  /* [out] written on every call */
    uint32_t *size,    /* [out] written on every call */
    uint64_t *stamp);  /* [out] written on every call */

/* WRITING */

/*
 * Writes a volume descriptor into the first 2,048 bytes of `out`: sector and size of the root table, and the volume's
 * stamp. XDVDFS_BUFFER_TOO_SMALL: nothing is changed.
 */
uint32_t xdvdfs_write_descriptor(
    uint8_t *out, size_t out_len,  /* [out] */
    uint32_t sector, uint32_t size,
    uint64_t stamp);

/* The number of the first sector that an image hands out: 33. */
uint32_t xdvdfs_first_sector(void);

/* The sectors that a length takes: its 2,048-byte sectors, rounded up; a length of 0 takes one. */
uint64_t xdvdfs_required_sectors(uint64_t length);

/*
 * Takes the sectors of a length. *next is the next free sector.
 * 0: *start is the first of them, *next the one after the last. XDVDFS_SECTOR_OVERFLOW: nothing is changed.
 */
uint32_t xdvdfs_take_sectors(
    uint32_t *next,    /* [in,out] */
    uint64_t length,
    uint32_t *start);  /* [out] */

/*
 * Adds an entry to the table that an arena holds. An arena is eight columns by node, of which the first *count places
 * are held: the tree's (left, right, parent, height) and the entries' (start and len: where the name stands in `names`;
 * size; kind). An empty one has *root = XDVDFS_NO_NODE, *count = 0 and anything in its columns. The columns' lengths
 * need not be equal: the shortest says how many entries there is room for.
 * 0: *root, *count and the columns hold one entry more. A directory's size is stored rounded up to a multiple of 2,048.
 * The byte stored in `kind` is 1 for an entry_kind of 1 and 0 for any other: what is no directory is a file.
 * XDVDFS_BAD_ARENA, XDVDFS_EMPTY_NAME, XDVDFS_BAD_BYTE, XDVDFS_NAME_TOO_LONG, XDVDFS_SIZE_OVERFLOW,
 * XDVDFS_DUPLICATE_FILE_NAME, XDVDFS_ROOM: nothing is changed.
 * It looks the whole arena over first (XDVDFS_BAD_ARENA), so adding n entries takes time in n times n;
 * xdvdfs_write_list does not.
 */
uint32_t xdvdfs_add(
    uint16_t *root,                       /* [in,out] */
    uint16_t *count,                      /* [in,out] */
    uint16_t *left, size_t left_len,      /* [in,out] */
    uint16_t *right, size_t right_len,    /* [in,out] */
    uint16_t *parent, size_t parent_len,  /* [in,out] */
    uint8_t *height, size_t height_len,   /* [in,out] */
    uint32_t *start, size_t start_len,    /* [in,out] */
    uint32_t *len, size_t len_len,        /* [in,out] */
    uint32_t *size, size_t size_len,      /* [in,out] */
    uint8_t *kind, size_t kind_len,       /* [in,out] */
    const uint8_t *names, size_t names_len,
    uint32_t name_start, uint32_t name_len,
    uint8_t entry_kind, uint32_t entry_size);

/*
 * Writes the table that an arena holds. Sectors for the entries are taken from `first` on, in the table's order.
 * 0: *table_size is the reported size, *next_free the next free sector; out holds the table up to that size rounded up
 * to a multiple of 2,048, and is unchanged past it.
 * XDVDFS_BAD_ARENA, XDVDFS_ROOM (order or place shorter than count), XDVDFS_TOO_MANY_DIRECTORY_ENTRIES,
 * XDVDFS_SECTOR_OVERFLOW, XDVDFS_BUFFER_TOO_SMALL: out is unchanged.
 * order and place are all zero afterwards, and unchanged where either is shorter than count.
 */
uint32_t xdvdfs_serialise(
    uint16_t root, uint16_t count,
    const uint16_t *left, size_t left_len,
    const uint16_t *right, size_t right_len,
    const uint16_t *parent, size_t parent_len,
    const uint8_t *height, size_t height_len,
    const uint32_t *start, size_t start_len,
    const uint32_t *len, size_t len_len,
    const uint32_t *size, size_t size_len,
    const uint8_t *kind, size_t kind_len,
    const uint8_t *names, size_t names_len,
    uint32_t first,
    uint16_t *order, size_t order_len,  /* [scratch] */
    uint16_t *place, size_t place_len,  /* [scratch] */
    uint8_t *out, size_t out_len,       /* [out] */
    uint32_t *table_size,               /* [out] */
    uint32_t *next_free);               /* [out] */

/*
 * Writes the table of the first `count` entries of a list in one call: the same as adding each in turn to an empty
 * arena and then xdvdfs_serialise. start, len, size and kind are the list: where each name stands in `names`, the size
 * in bytes, the kind (1 is a directory, any other number a file). left to place are scratch, each of at least count
 * places. 0: as xdvdfs_serialise. XDVDFS_ROOM with *entry as it was: a column is shorter than count, and nothing is
 * changed. Of the first entry that adding refuses XDVDFS_EMPTY_NAME, XDVDFS_BAD_BYTE, XDVDFS_NAME_TOO_LONG,
 * XDVDFS_SIZE_OVERFLOW, XDVDFS_DUPLICATE_FILE_NAME, XDVDFS_ROOM (there are more than 16,384): *entry is its number in
 * the list, from 0 on. Then XDVDFS_TOO_MANY_DIRECTORY_ENTRIES, XDVDFS_SECTOR_OVERFLOW, XDVDFS_BUFFER_TOO_SMALL. After a
 * refusal out is unchanged. The scratch is all zero afterwards, but where a column is shorter than count.
 */
uint32_t xdvdfs_write_list(
    uint32_t count,
    const uint32_t *start, size_t start_len,
    const uint32_t *len, size_t len_len,
    const uint32_t *size, size_t size_len,
    const uint8_t *kind, size_t kind_len,
    const uint8_t *names, size_t names_len,
    uint32_t first,
    uint16_t *left, size_t left_len,      /* [scratch] */
    uint16_t *right, size_t right_len,    /* [scratch] */
    uint16_t *parent, size_t parent_len,  /* [scratch] */
    uint8_t *height, size_t height_len,   /* [scratch] */
    uint32_t *key, size_t key_len,        /* [scratch] */
    uint16_t *order, size_t order_len,    /* [scratch] */
    uint16_t *place, size_t place_len,    /* [scratch] */
    uint8_t *out, size_t out_len,         /* [out] */
    uint32_t *table_size,                 /* [out] */
    uint32_t *next_free,                  /* [out] */
    uint32_t *entry);                     /* [out] */

/*
 * Plans an image: the reported size and the sector of each directory's table, and the sector of each entry. It writes
 * no table: xdvdfs_write_list does, a directory at a time. A directory is a share of one list of entries, by the place
 * of its first entry (`from`) and how many it has (`share`); the root comes first. An entry has its name's place and
 * length in `names` (start, len), its kind (1 is a directory, any other number a file), and its value: a file's length,
 * or the place of its directory in the list of directories, which is a later one than its own.
 *
 * The root table stands at sector 33. Directory by directory the entries take their sectors, within one directory in
 * the order in which its table is walked; a directory entry's sectors are its table. So where no entry lies in two
 * shares, a directory's table is written by xdvdfs_write_list with its entries, a directory entry's size being its
 * table's out of `sizes`, and with a `first` that is the least of its entries' sectors; of a directory without entries
 * with any. A file's entry may lie in two shares: it then takes sectors in both, `sectors` keeps those of the later
 * directory, and the least of an earlier directory's sectors need not be where its run starts. An entry in no share is
 * not looked at, takes no sector, and its place in `sectors` keeps what was there.
 *
 * 0: sizes, tables and sectors have the plan in their first places and are unchanged past them; *next_free is the next
 * free sector. XDVDFS_ROOM with *entry as it was: a column of the directories (sizes, tables and sized too) is shorter
 * than `directories`, one of the entries (sectors and order too) shorter than `entries`, or one of left to size shorter
 * than the largest share, of which no more counts than `entries`; and then nothing is changed.
 * XDVDFS_BAD_TREE: there is no directory, a share reaches past the entries, or a directory but the root is not named
 * exactly once, by an earlier one. Then XDVDFS_ROOM once more, with *entry as it was, where order is shorter than all
 * shares together (as where an entry lies in two). From the last directory back XDVDFS_FILE_TOO_LARGE,
 * XDVDFS_EMPTY_NAME, XDVDFS_BAD_BYTE, XDVDFS_NAME_TOO_LONG, XDVDFS_DUPLICATE_FILE_NAME, XDVDFS_ROOM (there are more
 * than 16,384 in one directory): *entry is the entry's place in the list. Never XDVDFS_SIZE_OVERFLOW: no table is that
 * large. Forward XDVDFS_TOO_MANY_DIRECTORY_ENTRIES, XDVDFS_SECTOR_OVERFLOW: *directory is the directory's place in the
 * list. After a refusal sizes, tables and sectors are unchanged.
 * The scratch is all zero afterwards, but where nothing is changed.
 */
uint32_t xdvdfs_plan(
    uint32_t directories, uint32_t entries,
    const uint32_t *from, size_t from_len,
    const uint32_t *share, size_t share_len,
    const uint32_t *start, size_t start_len,
    const uint32_t *len, size_t len_len,
    const uint8_t *kind, size_t kind_len,
    const uint64_t *value, size_t value_len,
    const uint8_t *names, size_t names_len,
    uint32_t *sizes, size_t sizes_len,      /* [out] */
    uint32_t *tables, size_t tables_len,    /* [out] */
    uint32_t *sectors, size_t sectors_len,  /* [out] */
    uint32_t *sized, size_t sized_len,      /* [scratch] */
    uint16_t *left, size_t left_len,        /* [scratch] */
    uint16_t *right, size_t right_len,      /* [scratch] */
    uint16_t *parent, size_t parent_len,    /* [scratch] */
    uint8_t *height, size_t height_len,     /* [scratch] */
    uint32_t *key, size_t key_len,          /* [scratch] */
    uint32_t *size, size_t size_len,        /* [scratch] */
    uint16_t *order, size_t order_len,      /* [scratch] */
    uint32_t *next_free,                    /* [out] */
    uint32_t *entry,                        /* [out] */
    uint32_t *directory);                   /* [out] */

#ifdef __cplusplus
}
#endif

#endif
