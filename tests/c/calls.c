/* Calls every function of hdrfs.h on two sound volumes, on no bytes at all, and on numbers from the edges, and prints the
 * numbers that come back, a line for each call, in the order of the struct; and writes the second volume anew, and others whose
 * blocks have equal and lower times, or cannot be counted. Texts that are not UTF-8 are tried in texts.c, digests and pairs of
 * volumes in digests.c, volumes that were cut short in repair.c, trees in tree.c. calls.expected has what all of them must print.
 *
 * The two volumes are the samples v.vol and all_kinds.vol.
 */
#include "calls.h"

/* ---- The layout of the structs: as many numbers of 8 bytes as there are fields, one after the other. */

#define IS_NUMBER(type, field, place)                                                                       \
    _Static_assert(offsetof(type, field) == 8 * (place), #type "." #field " stands elsewhere");             \
    _Static_assert(sizeof(((type *)0)->field) == 8, #type "." #field " is no number of 8 bytes")
#define HAS_FIELDS(type, count) _Static_assert(sizeof(type) == 8 * (count), #type " has another size")

IS_NUMBER(hdrfs_checked, refusal, 0);
IS_NUMBER(hdrfs_checked, text, 1);
IS_NUMBER(hdrfs_checked, start, 2);
IS_NUMBER(hdrfs_checked, sequence, 3);
IS_NUMBER(hdrfs_checked, blocks, 4);
IS_NUMBER(hdrfs_checked, offset, 5);
IS_NUMBER(hdrfs_checked, timed, 6);
IS_NUMBER(hdrfs_checked, time, 7);
HAS_FIELDS(hdrfs_checked, 8);

IS_NUMBER(hdrfs_repaired, refusal, 0);
IS_NUMBER(hdrfs_repaired, text, 1);
IS_NUMBER(hdrfs_repaired, start, 2);
IS_NUMBER(hdrfs_repaired, length, 3);
HAS_FIELDS(hdrfs_repaired, 4);

IS_NUMBER(hdrfs_place, refusal, 0);
IS_NUMBER(hdrfs_place, text, 1);
IS_NUMBER(hdrfs_place, start, 2);
IS_NUMBER(hdrfs_place, kind, 3);
IS_NUMBER(hdrfs_place, volume, 4);
IS_NUMBER(hdrfs_place, offset, 5);
HAS_FIELDS(hdrfs_place, 6);

IS_NUMBER(hdrfs_run_count, refusal, 0);
IS_NUMBER(hdrfs_run_count, text, 1);
IS_NUMBER(hdrfs_run_count, start, 2);
IS_NUMBER(hdrfs_run_count, count, 3);
HAS_FIELDS(hdrfs_run_count, 4);

IS_NUMBER(hdrfs_heading, refusal, 0);
IS_NUMBER(hdrfs_heading, text, 1);
IS_NUMBER(hdrfs_heading, start, 2);
IS_NUMBER(hdrfs_heading, sequence, 3);
IS_NUMBER(hdrfs_heading, next, 4);
IS_NUMBER(hdrfs_heading, due, 5);
IS_NUMBER(hdrfs_heading, id, 6);
IS_NUMBER(hdrfs_heading, previous, 7);
HAS_FIELDS(hdrfs_heading, 8);

IS_NUMBER(hdrfs_block, refusal, 0);
IS_NUMBER(hdrfs_block, text, 1);
IS_NUMBER(hdrfs_block, start, 2);
IS_NUMBER(hdrfs_block, end, 3);
IS_NUMBER(hdrfs_block, id, 4);
IS_NUMBER(hdrfs_block, number, 5);
IS_NUMBER(hdrfs_block, next, 6);
IS_NUMBER(hdrfs_block, due, 7);
IS_NUMBER(hdrfs_block, timed, 8);
IS_NUMBER(hdrfs_block, last, 9);
IS_NUMBER(hdrfs_block, next_number, 10);
IS_NUMBER(hdrfs_block, time, 11);
IS_NUMBER(hdrfs_block, inode, 12);
IS_NUMBER(hdrfs_block, child, 13);
IS_NUMBER(hdrfs_block, parent, 14);
IS_NUMBER(hdrfs_block, mode, 15);
IS_NUMBER(hdrfs_block, uid, 16);
IS_NUMBER(hdrfs_block, gid, 17);
IS_NUMBER(hdrfs_block, atime, 18);
IS_NUMBER(hdrfs_block, mtime, 19);
IS_NUMBER(hdrfs_block, ctime, 20);
IS_NUMBER(hdrfs_block, btime, 21);
IS_NUMBER(hdrfs_block, size, 22);
IS_NUMBER(hdrfs_block, count, 23);
IS_NUMBER(hdrfs_block, part, 24);
IS_NUMBER(hdrfs_block, part_len, 25);
IS_NUMBER(hdrfs_block, second, 26);
IS_NUMBER(hdrfs_block, second_len, 27);
HAS_FIELDS(hdrfs_block, 28);

IS_NUMBER(hdrfs_link_entry, missing, 0);
IS_NUMBER(hdrfs_link_entry, child, 1);
IS_NUMBER(hdrfs_link_entry, parent, 2);
IS_NUMBER(hdrfs_link_entry, name, 3);
IS_NUMBER(hdrfs_link_entry, name_len, 4);
IS_NUMBER(hdrfs_link_entry, next, 5);
HAS_FIELDS(hdrfs_link_entry, 6);

IS_NUMBER(hdrfs_lines, refusal, 0);
IS_NUMBER(hdrfs_lines, text, 1);
IS_NUMBER(hdrfs_lines, start, 2);
IS_NUMBER(hdrfs_lines, lines, 3);
HAS_FIELDS(hdrfs_lines, 4);

IS_NUMBER(hdrfs_extent_entry, volume, 0);
IS_NUMBER(hdrfs_extent_entry, start, 1);
IS_NUMBER(hdrfs_extent_entry, size, 2);
IS_NUMBER(hdrfs_extent_entry, multiplicity, 3);
IS_NUMBER(hdrfs_extent_entry, count, 4);
IS_NUMBER(hdrfs_extent_entry, pre, 5);
IS_NUMBER(hdrfs_extent_entry, post, 6);
IS_NUMBER(hdrfs_extent_entry, logical, 7);
HAS_FIELDS(hdrfs_extent_entry, 8);

IS_NUMBER(hdrfs_source, refusal, 0);
IS_NUMBER(hdrfs_source, text, 1);
IS_NUMBER(hdrfs_source, start, 2);
IS_NUMBER(hdrfs_source, which, 3);
HAS_FIELDS(hdrfs_source, 4);

IS_NUMBER(hdrfs_paired, refusal, 0);
IS_NUMBER(hdrfs_paired, text, 1);
IS_NUMBER(hdrfs_paired, start, 2);
IS_NUMBER(hdrfs_paired, which, 3);
IS_NUMBER(hdrfs_paired, offset, 4);
HAS_FIELDS(hdrfs_paired, 5);

IS_NUMBER(hdrfs_written, refusal, 0);
IS_NUMBER(hdrfs_written, text, 1);
IS_NUMBER(hdrfs_written, start, 2);
IS_NUMBER(hdrfs_written, next, 3);
IS_NUMBER(hdrfs_written, due, 4);
IS_NUMBER(hdrfs_written, timed, 5);
IS_NUMBER(hdrfs_written, last, 6);
IS_NUMBER(hdrfs_written, number, 7);
HAS_FIELDS(hdrfs_written, 8);

/* A slice is a pointer and a length that fit the registers of a call. */
_Static_assert(sizeof(size_t) == 8 && sizeof(void *) == 8, "a length or an address has not 8 bytes");

/* ---- The volumes, and their lengths as lookups take them. */

/* Volume 0: one data block, whose payload stands at 97. */
const uint8_t V[104] = {
    0xd3, 0x48, 0x44, 0x52, 0x46, 0x53, 0x0d, 0x0a, 0x1a, 0x0a, 0x00, 0x48, 0x44, 0x52, 0x46, 0x53,
    0x00, 0x00, 0x00, 0x01, 0x02, 0x03, 0x04, 0x05, 0x06, 0x07, 0x08, 0x09, 0x0a, 0x0b, 0x0c, 0x0d,
    0x0e, 0x0f, 0x00, 0x00, 0x00, 0x00, 0x00, 0x00, 0x00, 0x00, 0x00, 0x00, 0x00, 0x00, 0x00, 0x00,
    0x00, 0x00, 0x00, 0x00, 0x00, 0x00, 0x00, 0x00, 0x00, 0x00, 0x00, 0x00, 0x00, 0x00, 0x00, 0x00,
    0x00, 0x00, 0x00, 0x00, 0x00, 0x00, 0x00, 0x00, 0x00, 0x00, 0x00, 0x00, 0x1a, 0xbc, 0x19, 0x0b,
    0x06, 0x07, 0x00, 0x00, 0x00, 0x00, 0x00, 0x00, 0x00, 0x03, 0x00, 0x00, 0x00, 0x00, 0x00, 0x00,
    0x00, 0x31, 0x2c, 0x35, 0x38, 0xcb, 0x01, 0x12,
};

/* Volume 1: a link table, inodes of a regular file, a symbolic link and a folder, and a block of each other kind. The
 * regular file keeps the positions 0 to 3 and 4 to 11 of 14; its inode block stands at FILE_AT. */
const uint8_t ALL[659] = {
    0xd3, 0x48, 0x44, 0x52, 0x46, 0x53, 0x0d, 0x0a, 0x1a, 0x0a, 0x00, 0x48, 0x44, 0x52, 0x46, 0x53,
    0x00, 0x00, 0x00, 0x01, 0x02, 0x03, 0x04, 0x05, 0x06, 0x07, 0x08, 0x09, 0x0a, 0x0b, 0x0c, 0x0d,
    0x0e, 0x0f, 0x00, 0x00, 0x01, 0x00, 0x00, 0x00, 0x00, 0x00, 0x00, 0x00, 0x09, 0x09, 0x09, 0x09,
    0x09, 0x09, 0x09, 0x09, 0x09, 0x09, 0x09, 0x09, 0x09, 0x09, 0x09, 0x09, 0x09, 0x09, 0x09, 0x09,
    0x09, 0x09, 0x09, 0x09, 0x09, 0x09, 0x09, 0x09, 0x09, 0x09, 0x09, 0x09, 0xb6, 0xbb, 0x5a, 0xb0,
    0x08, 0x02, 0x00, 0x00, 0x00, 0x00, 0x00, 0x00, 0x00, 0x08, 0x00, 0x00, 0x00, 0x00, 0x00, 0x00,
    0x00, 0x01, 0x00, 0x00, 0x00, 0x00, 0x00, 0x00, 0x00, 0x05, 0x00, 0x67, 0x61, 0x75, 0x67, 0x65,
    0x09, 0x00, 0x00, 0x00, 0x00, 0x00, 0x00, 0x00, 0x01, 0x00, 0x00, 0x00, 0x00, 0x00, 0x00, 0x00,
    0x03, 0x00, 0x6c, 0x6f, 0x67, 0x8e, 0x23, 0x9b, 0xc8, 0x01, 0x07, 0x00, 0x00, 0x00, 0x00, 0x00,
    0x00, 0x00, 0x01, 0x00, 0x00, 0x00, 0x00, 0x00, 0x00, 0x00, 0xa4, 0x81, 0x01, 0x00, 0x02, 0x00,
    0x03, 0x00, 0x00, 0x00, 0x00, 0x00, 0x00, 0x00, 0x04, 0x00, 0x00, 0x00, 0x00, 0x00, 0x00, 0x00,
    0x05, 0x00, 0x00, 0x00, 0x00, 0x00, 0x00, 0x00, 0x06, 0x00, 0x00, 0x00, 0x00, 0x00, 0x00, 0x00,
    0x0e, 0x00, 0x00, 0x00, 0x00, 0x00, 0x00, 0x00, 0x72, 0x00, 0x00, 0x00, 0x00, 0x00, 0x00, 0x00,
    0x00, 0x00, 0x00, 0x00, 0x00, 0x00, 0x00, 0x00, 0x61, 0x00, 0x00, 0x00, 0x00, 0x00, 0x00, 0x00,
    0x03, 0x00, 0x00, 0x00, 0x00, 0x00, 0x00, 0x00, 0x43, 0x01, 0x00, 0x00, 0x00, 0x00, 0x00, 0x00,
    0x00, 0x00, 0x00, 0x00, 0x00, 0x00, 0x00, 0x00, 0x00, 0x00, 0x00, 0x00, 0x00, 0x00, 0x00, 0x00,
    0x00, 0x00, 0x00, 0x00, 0x00, 0x00, 0x00, 0x00, 0x00, 0x00, 0x00, 0x00, 0x00, 0x00, 0x00, 0x00,
    0x00, 0x61, 0x00, 0x00, 0x00, 0x00, 0x00, 0x00, 0x00, 0x03, 0x00, 0x00, 0x00, 0x00, 0x00, 0x00,
    0x00, 0x52, 0x03, 0x00, 0x00, 0x00, 0x00, 0x00, 0x00, 0x00, 0x01, 0x00, 0x00, 0x00, 0x00, 0x00,
    0x00, 0x00, 0x01, 0x00, 0x00, 0x00, 0x00, 0x00, 0x00, 0x00, 0x04, 0x00, 0x00, 0x00, 0x00, 0x00,
    0x00, 0x00, 0xcb, 0x8a, 0x60, 0x14, 0x01, 0x07, 0x00, 0x00, 0x00, 0x00, 0x00, 0x00, 0x00, 0x02,
    0x00, 0x00, 0x00, 0x00, 0x00, 0x00, 0x00, 0xff, 0xa1, 0x01, 0x00, 0x02, 0x00, 0x03, 0x00, 0x00,
    0x00, 0x00, 0x00, 0x00, 0x00, 0x04, 0x00, 0x00, 0x00, 0x00, 0x00, 0x00, 0x00, 0x05, 0x00, 0x00,
    0x00, 0x00, 0x00, 0x00, 0x00, 0x06, 0x00, 0x00, 0x00, 0x00, 0x00, 0x00, 0x00, 0x4b, 0x00, 0x00,
    0x00, 0x00, 0x00, 0x00, 0x00, 0x05, 0x00, 0x00, 0x00, 0x00, 0x00, 0x00, 0x00, 0x67, 0x61, 0x75,
    0x67, 0x65, 0x58, 0x16, 0x03, 0x98, 0x01, 0x07, 0x00, 0x00, 0x00, 0x00, 0x00, 0x00, 0x00, 0x03,
    0x00, 0x00, 0x00, 0x00, 0x00, 0x00, 0x00, 0xed, 0x41, 0x01, 0x00, 0x02, 0x00, 0x03, 0x00, 0x00,
    0x00, 0x00, 0x00, 0x00, 0x00, 0x04, 0x00, 0x00, 0x00, 0x00, 0x00, 0x00, 0x00, 0x05, 0x00, 0x00,
    0x00, 0x00, 0x00, 0x00, 0x00, 0x06, 0x00, 0x00, 0x00, 0x00, 0x00, 0x00, 0x00, 0x46, 0x00, 0x00,
    0x00, 0x00, 0x00, 0x00, 0x00, 0x00, 0x00, 0x00, 0x00, 0x00, 0x00, 0x00, 0x00, 0x91, 0x20, 0x63,
    0xb5, 0x02, 0x04, 0x00, 0x00, 0x00, 0x00, 0x00, 0x00, 0x00, 0x08, 0x00, 0x00, 0x00, 0x00, 0x00,
    0x00, 0x00, 0x01, 0x00, 0x00, 0x00, 0x00, 0x00, 0x00, 0x00, 0x05, 0x00, 0x67, 0x61, 0x75, 0x67,
    0x65, 0xa2, 0xb5, 0xfc, 0x1c, 0x03, 0x05, 0x00, 0x00, 0x00, 0x00, 0x00, 0x00, 0x00, 0x08, 0x00,
    0x00, 0x00, 0x00, 0x00, 0x00, 0x00, 0x01, 0x00, 0x00, 0x00, 0x00, 0x00, 0x00, 0x00, 0x03, 0x00,
    0x6c, 0x6f, 0x67, 0xac, 0xbb, 0x76, 0xbf, 0x04, 0x06, 0x00, 0x00, 0x00, 0x00, 0x00, 0x00, 0x00,
    0x07, 0x00, 0x00, 0x00, 0x00, 0x00, 0x00, 0x00, 0x04, 0x02, 0x00, 0x75, 0x6e, 0x69, 0x74, 0x6d,
    0xff, 0x4c, 0xb9, 0x92, 0x44, 0x05, 0x07, 0x00, 0x00, 0x00, 0x00, 0x00, 0x00, 0x00, 0x07, 0x00,
    0x00, 0x00, 0x00, 0x00, 0x00, 0x00, 0x04, 0x75, 0x6e, 0x69, 0x74, 0xaf, 0xb3, 0x4b, 0xff, 0x06,
    0x08, 0x00, 0x00, 0x00, 0x00, 0x00, 0x00, 0x00, 0x03, 0x00, 0x00, 0x00, 0x00, 0x00, 0x00, 0x00,
    0x31, 0x2c, 0x35, 0xf6, 0x5d, 0x9e, 0x51, 0x07, 0x09, 0x00, 0x00, 0x00, 0x00, 0x00, 0x00, 0x00,
    0x05, 0x00, 0x06, 0x00, 0x67, 0x61, 0x75, 0x67, 0x65, 0x70, 0xc3, 0xa9, 0x67, 0x65, 0x6c, 0x0d,
    0x33, 0xcd, 0xe0,
};

enum { TABLE_AT = 80, FILE_AT = 137, LINKS_AT = 89, EXTENTS_AT = 208 };

const uint8_t LENGTHS[16] = {sizeof V, 0, 0, 0, 0, 0, 0, 0, sizeof ALL & 255, sizeof ALL / 256, 0, 0, 0, 0, 0, 0};

/* ---- Printing. */

void show(const char *call, const void *numbers, size_t size)
{
    const uint64_t *number = numbers;
    printf("%s:", call);
    for (size_t i = 0; i < size / 8; i++)
        printf(" %" PRIu64, number[i]);
    putchar('\n');
}

/* ---- The calls. */

static void check(void)
{
    SHOW(hdrfs_checked, hdrfs_check(V, sizeof V));
    SHOW(uint64_t, hdrfs_check_refusal(V, sizeof V));
    SHOW(uint64_t, hdrfs_check_text(V, sizeof V));
    SHOW(uint64_t, hdrfs_check_start(V, sizeof V));
    SHOW(uint64_t, hdrfs_check_sequence(V, sizeof V));
    SHOW(uint64_t, hdrfs_check_blocks(V, sizeof V));
    SHOW(uint64_t, hdrfs_check_offset(V, sizeof V));
    SHOW(uint64_t, hdrfs_check_timed(V, sizeof V));
    SHOW(uint64_t, hdrfs_check_time(V, sizeof V));
    SHOW(hdrfs_checked, hdrfs_check(ALL, sizeof ALL));
    SHOW(uint64_t, hdrfs_check_sequence(ALL, sizeof ALL));
    SHOW(hdrfs_checked, hdrfs_check(V, 80));
    SHOW(hdrfs_checked, hdrfs_check(ALL, sizeof ALL - 1));
    SHOW(uint64_t, hdrfs_check_refusal(ALL, sizeof ALL - 1));
    SHOW(uint64_t, hdrfs_check_blocks(ALL, sizeof ALL - 1));
    SHOW(uint64_t, hdrfs_check_offset(ALL, sizeof ALL - 1));
    SHOW(hdrfs_checked, hdrfs_check(NULL, 0));
    SHOW(uint64_t, hdrfs_check_refusal(NULL, 0));
    SHOW(uint64_t, hdrfs_check_text(NULL, 0));
    SHOW(uint64_t, hdrfs_check_start(NULL, 0));
    SHOW(uint64_t, hdrfs_check_sequence(NULL, 0));
    SHOW(uint64_t, hdrfs_check_blocks(NULL, 0));
    SHOW(uint64_t, hdrfs_check_offset(NULL, 0));
    SHOW(uint64_t, hdrfs_check_timed(NULL, 0));
    SHOW(uint64_t, hdrfs_check_time(NULL, 0));
}

static void look_up(void)
{
    SHOW(hdrfs_place, hdrfs_lookup(ALL, sizeof ALL, FILE_AT, LENGTHS, sizeof LENGTHS, 2));
    SHOW(hdrfs_place, hdrfs_lookup(ALL, sizeof ALL, FILE_AT, LENGTHS, sizeof LENGTHS, 3));
    SHOW(hdrfs_place, hdrfs_lookup(ALL, sizeof ALL, FILE_AT, LENGTHS, sizeof LENGTHS, 4));
    SHOW(uint64_t, hdrfs_lookup_refusal(ALL, sizeof ALL, FILE_AT, LENGTHS, sizeof LENGTHS, 4));
    SHOW(uint64_t, hdrfs_lookup_text(ALL, sizeof ALL, FILE_AT, LENGTHS, sizeof LENGTHS, 4));
    SHOW(uint64_t, hdrfs_lookup_start(ALL, sizeof ALL, FILE_AT, LENGTHS, sizeof LENGTHS, 4));
    SHOW(uint64_t, hdrfs_lookup_kind(ALL, sizeof ALL, FILE_AT, LENGTHS, sizeof LENGTHS, 4));
    SHOW(uint64_t, hdrfs_lookup_volume(ALL, sizeof ALL, FILE_AT, LENGTHS, sizeof LENGTHS, 4));
    SHOW(uint64_t, hdrfs_lookup_offset(ALL, sizeof ALL, FILE_AT, LENGTHS, sizeof LENGTHS, 4));
    SHOW(hdrfs_place, hdrfs_lookup(ALL, sizeof ALL, FILE_AT, LENGTHS, sizeof LENGTHS, 14));
    SHOW(uint64_t, hdrfs_lookup_kind(ALL, sizeof ALL, FILE_AT, LENGTHS, sizeof LENGTHS, TOP));
    SHOW(hdrfs_place, hdrfs_lookup(ALL, sizeof ALL, FILE_AT, LENGTHS, 7, 4));
    SHOW(hdrfs_place, hdrfs_lookup(ALL, sizeof ALL, FILE_AT, NULL, 0, 4));
    SHOW(hdrfs_place, hdrfs_lookup(ALL, sizeof ALL, TABLE_AT, LENGTHS, sizeof LENGTHS, 4));
    SHOW(hdrfs_place, hdrfs_lookup(V, sizeof V, 80, LENGTHS, sizeof LENGTHS, 0));
    SHOW(uint64_t, hdrfs_lookup_refusal(V, sizeof V, 80, LENGTHS, sizeof LENGTHS, 0));
    SHOW(uint64_t, hdrfs_lookup_text(V, sizeof V, 80, LENGTHS, sizeof LENGTHS, 0));
    SHOW(uint64_t, hdrfs_lookup_start(V, sizeof V, 80, LENGTHS, sizeof LENGTHS, 0));
    SHOW(uint64_t, hdrfs_lookup_volume(V, sizeof V, 80, LENGTHS, sizeof LENGTHS, 0));
    SHOW(uint64_t, hdrfs_lookup_offset(V, sizeof V, 80, LENGTHS, sizeof LENGTHS, 0));
    SHOW(hdrfs_place, hdrfs_lookup(V, sizeof V, TOP, LENGTHS, sizeof LENGTHS, 0));
    SHOW(hdrfs_place, hdrfs_lookup(NULL, 0, 80, NULL, 0, 0));
    SHOW(hdrfs_place, hdrfs_lookup(NULL, 0, 0, NULL, 0, 0));
}

/* The list is filled with 9s before a call, so that it shows which numbers were stored. */
static void query(uint64_t from, uint64_t to, size_t room)
{
    uint64_t out[35];
    for (size_t i = 0; i < 35; i++)
        out[i] = 9;
    printf("from %" PRIu64 " to %" PRIu64 ", room %zu, ", from, to, room);
    SHOW(hdrfs_run_count, hdrfs_runs(ALL, sizeof ALL, FILE_AT, LENGTHS, sizeof LENGTHS, from, to, out, room));
    show("out", out, sizeof out);
}

static void ask_for_runs(void)
{
    query(0, 14, 35);
    query(0, 14, 30);
    query(0, 14, 29);
    query(5, TOP, 35);
    query(1, 3, 5);
    query(3, 3, 0);
    query(9, 2, 35);
    SHOW(hdrfs_run_count, hdrfs_runs(ALL, sizeof ALL, FILE_AT, LENGTHS, sizeof LENGTHS, 14, 14, NULL, 0));
    SHOW(hdrfs_run_count, hdrfs_runs(ALL, sizeof ALL, FILE_AT, LENGTHS, sizeof LENGTHS, 0, 1, NULL, 0));
    SHOW(hdrfs_run_count, hdrfs_runs(V, sizeof V, 80, LENGTHS, sizeof LENGTHS, 0, 1, NULL, 0));
    SHOW(hdrfs_run_count, hdrfs_runs(NULL, 0, 80, NULL, 0, 0, 1, NULL, 0));
}

/* From the header to the end, each time with the bookmark last handed out. */
static void walk(const uint8_t *volume, size_t volume_len)
{
    hdrfs_heading heading = hdrfs_header(volume, volume_len);
    show("heading", &heading, sizeof heading);
    hdrfs_block block = hdrfs_read(volume, volume_len, heading.next, heading.due, 0, 0, 0);
    show("block", &block, sizeof block);
    while (block.refusal == 0 && block.end == 0) {
        block = hdrfs_read(volume, volume_len, block.next, block.due, block.timed, block.last, block.next_number);
        show("block", &block, sizeof block);
    }
}

static void read_blocks(void)
{
    walk(V, sizeof V);
    walk(ALL, sizeof ALL);
    walk(NULL, 0);
    SHOW(hdrfs_heading, hdrfs_header(V, 79));
    SHOW(hdrfs_block, hdrfs_read(V, sizeof V, 80, 2, 0, 0, 0));
    SHOW(hdrfs_block, hdrfs_read(V, sizeof V, 80, 0, 0, 7, 0));
    SHOW(hdrfs_block, hdrfs_read(V, sizeof V, 80, 0, 1, 6, 0));
    SHOW(hdrfs_block, hdrfs_read(V, sizeof V, 80, 0, 2, 7, 0));
    SHOW(hdrfs_block, hdrfs_read(V, sizeof V, 80, 0, 2, 8, 0));
    SHOW(hdrfs_block, hdrfs_read(V, sizeof V, 79, 0, 0, 0, 0));
    SHOW(hdrfs_block, hdrfs_read(V, sizeof V, TOP, 0, 0, 0, 0));
    SHOW(hdrfs_block, hdrfs_read(V, sizeof V, sizeof V, 1, 0, 0, 0));
    SHOW(hdrfs_block, hdrfs_read(ALL, sizeof ALL, TABLE_AT, TOP, TOP, TOP, 0));
    SHOW(hdrfs_block, hdrfs_read(NULL, 0, 80, 0, 0, 0, 0));
}

static void read_links(void)
{
    const uint8_t *links = ALL + LINKS_AT;
    SHOW(hdrfs_link_entry, hdrfs_link(links, 44, 0));
    SHOW(hdrfs_link_entry, hdrfs_link(links, 44, 23));
    SHOW(hdrfs_link_entry, hdrfs_link(links, 44, 44));
    SHOW(hdrfs_link_entry, hdrfs_link(links, 43, 23));
    SHOW(hdrfs_link_entry, hdrfs_link(links, 22, 0));
    SHOW(hdrfs_link_entry, hdrfs_link(links, 44, TOP));
    SHOW(hdrfs_link_entry, hdrfs_link(NULL, 0, 0));
}

static void read_extents(void)
{
    const uint8_t *extents = ALL + EXTENTS_AT;
    SHOW(hdrfs_extent_entry, hdrfs_extent(extents, 114, 0));
    SHOW(hdrfs_extent_entry, hdrfs_extent(extents, 114, 1));
    SHOW(hdrfs_extent_entry, hdrfs_extent(extents, 114, 2));
    SHOW(hdrfs_extent_entry, hdrfs_extent(extents, 106, 1));
    SHOW(hdrfs_extent_entry, hdrfs_extent(extents, 114, TOP));
    SHOW(hdrfs_extent_entry, hdrfs_extent(NULL, 0, 0));
}

static void fetch(void)
{
    SHOW(hdrfs_source, hdrfs_fetch(V, sizeof V, ALL, sizeof ALL, 0, 97, 3));
    SHOW(hdrfs_source, hdrfs_fetch(V, sizeof V, ALL, sizeof ALL, 1, 97, 3));
    SHOW(hdrfs_source, hdrfs_fetch(ALL, sizeof ALL, V, sizeof V, 0, 97, 3));
    SHOW(hdrfs_source, hdrfs_fetch(V, sizeof V, V, sizeof V, 0, 104, 0));
    SHOW(hdrfs_source, hdrfs_fetch(V, sizeof V, ALL, sizeof ALL, 0, 102, 3));
    SHOW(hdrfs_source, hdrfs_fetch(V, sizeof V, ALL, sizeof ALL, 0, TOP, TOP));
    SHOW(hdrfs_source, hdrfs_fetch(V, sizeof V, ALL, sizeof ALL, 2, 0, 0));
    SHOW(hdrfs_source, hdrfs_fetch(V, sizeof V, NULL, 0, 0, 97, 3));
    SHOW(hdrfs_source, hdrfs_fetch(NULL, 0, NULL, 0, 0, 0, 0));
}

/* A buffer with room for one byte more than the second volume, and the bookmark in it. */
static uint8_t buf[sizeof ALL + 1];
static hdrfs_written mark;

/* A call that writes at the bookmark: it is printed with what it answers, which is the bookmark from then on. */
#define WRITE(call)                                                                                         \
    do {                                                                                                    \
        mark = call;                                                                                        \
        show(#call, &mark, sizeof mark);                                                                    \
    } while (0)

/* The second volume anew, block by block: the same bytes, and none behind them. */
static void write_all(void)
{
    memset(buf, 9, sizeof buf);
    WRITE(hdrfs_write_header(buf, sizeof buf, ALL + 18, 16, 1, ALL + 44, 32));
    WRITE(hdrfs_append_table(AT_MARK, 2, ALL + LINKS_AT, 44));
    WRITE(hdrfs_append_inode(AT_MARK, 7, 1, 33188, 1, 2, 3, 4, 5, 6, 14, ALL + 208, 114));
    WRITE(hdrfs_append_inode(AT_MARK, 7, 2, 41471, 1, 2, 3, 4, 5, 6, 75, TEXT("gauge")));
    WRITE(hdrfs_append_inode(AT_MARK, 7, 3, 16877, 1, 2, 3, 4, 5, 6, 70, NULL, 0));
    WRITE(hdrfs_append_link(AT_MARK, 4, 8, 1, TEXT("gauge")));
    WRITE(hdrfs_append_unlink(AT_MARK, 5, 8, 1, TEXT("log")));
    WRITE(hdrfs_append_xattr(AT_MARK, 6, 7, TEXT("unit"), TEXT("m\xff")));
    WRITE(hdrfs_append_removed_xattr(AT_MARK, 7, 7, TEXT("unit")));
    WRITE(hdrfs_append_data(AT_MARK, 8, ALL + 624, 3));
    WRITE(hdrfs_append_rename(AT_MARK, 9, ALL + 644, 5, ALL + 649, 6));
    printf("same bytes: %d\n", memcmp(buf, ALL, sizeof ALL) == 0 && buf[sizeof ALL] == 9);
}

/* Each is refused, and the buffer keeps all of its bytes. */
static void write_refused(void)
{
    uint8_t before[sizeof buf];
    memcpy(before, buf, sizeof buf);
    SHOW(hdrfs_written, hdrfs_write_header(buf, sizeof buf, ALL + 18, 15, 1, ALL + 44, 32));
    SHOW(hdrfs_written, hdrfs_write_header(buf, sizeof buf, ALL + 18, 16, 1, NULL, 0));
    SHOW(hdrfs_written, hdrfs_write_header(buf, sizeof buf, ALL + 18, 16, 0, ALL + 44, 32));
    SHOW(hdrfs_written, hdrfs_write_header(buf, 79, ALL + 18, 16, 1, ALL + 44, 32));
    SHOW(hdrfs_written, hdrfs_write_header(NULL, 0, NULL, 0, 0, NULL, 0));
    SHOW(hdrfs_written, hdrfs_append_inode(buf, sizeof buf, 80, 0, 0, 0, 0, TOP, TOP, 16877, 65535, 65535, 0, 0, 0, 0, 69, NULL, 0));
    SHOW(hdrfs_written, hdrfs_append_inode(buf, sizeof buf, 80, 0, 0, 0, 0, 7, 1, 65535, 0, 0, 0, 0, 0, 0, 0, TEXT("gauge")));
    SHOW(hdrfs_written, hdrfs_append_link(buf, sizeof buf, 80, 1, 0, 0, 0, 4, 8, 1, TEXT("gauge")));
    SHOW(hdrfs_written, hdrfs_append_unlink(buf, sizeof buf, 80, 0, 0, 0, 0, 4, 8, 1, TEXT("\xff")));
    SHOW(hdrfs_written, hdrfs_append_xattr(buf, sizeof buf, 80, 0, 0, 0, 0, 6, 7, TEXT("\xff"), NULL, 0));
    SHOW(hdrfs_written, hdrfs_append_removed_xattr(buf, sizeof buf, 80, 0, 0, 0, 0, 6, 7, ALL, 256));
    SHOW(hdrfs_written, hdrfs_append_data(buf, sizeof buf, 79, 0, 0, 0, 0, 8, NULL, 0));
    SHOW(hdrfs_written, hdrfs_append_data(buf, sizeof buf, 80, 0, 2, 9, 0, 8, NULL, 0));
    SHOW(hdrfs_written, hdrfs_append_data(buf, sizeof buf, 640, 0, 0, 8, 0, 8, NULL, 0));
    SHOW(hdrfs_written, hdrfs_append_data(buf, sizeof buf, TOP, 0, 0, 0, 0, 8, NULL, 0));
    SHOW(hdrfs_written, hdrfs_append_data(NULL, 0, 80, 0, 0, 0, 0, 8, NULL, 0));
    SHOW(hdrfs_written, hdrfs_append_rename(buf, sizeof buf, 80, 0, 0, 0, 0, 9, TEXT("old"), TEXT("\xff")));
    SHOW(hdrfs_written, hdrfs_append_table(buf, sizeof buf, 80, 0, 0, 0, 0, 2, ALL + LINKS_AT, 44));
    SHOW(hdrfs_written, hdrfs_append_table(buf, sizeof buf, 80, TOP, 0, 0, 0, 1, ALL + LINKS_AT, 44));
    SHOW(hdrfs_written, hdrfs_append_table(buf, sizeof buf, 80, 1, 0, 0, 0, TOP, NULL, 0));
    printf("same bytes: %d\n", memcmp(buf, before, sizeof buf) == 0);
}

/* The last times 0 and 2^64 - 1, and a buffer that is filled to its end. */
static void write_edges(void)
{
    SHOW(hdrfs_written, hdrfs_append_table(buf, sizeof buf, 80, TOP, TOP, TOP, 0, 0, NULL, 0));
    SHOW(hdrfs_written, hdrfs_append_data(buf, sizeof buf, 80, 0, 0, TOP, 0, 0, NULL, 0));
    SHOW(hdrfs_written, hdrfs_append_data(buf, sizeof buf, sizeof buf - 21, 0, 1, TOP - 1, 0, TOP, NULL, 0));
}

/* Two data blocks in volume 0, of 24 bytes each. The second is written as if no time stood before it, so that any two times can
 * be checked. */
static void check_times(uint64_t first, uint64_t second)
{
    mark = hdrfs_write_header(buf, sizeof buf, V + 18, 16, 0, V + 44, 32);
    mark = hdrfs_append_data(AT_MARK, first, TEXT("1,5"));
    mark = hdrfs_append_data(buf, sizeof buf, mark.next, 0, 0, 0, 0, second, TEXT("1,5"));
    printf("times %" PRIu64 " and %" PRIu64 ", ", first, second);
    SHOW(hdrfs_checked, hdrfs_check(buf, mark.next));
}

static void check_two_times(void)
{
    check_times(7, 7);
    check_times(7, 6);
    check_times(0, 0);
    check_times(TOP, TOP);
    check_times(TOP, 0);
}

/* A block may have the last time before it, and not a lower one: then it is refused, and the buffer keeps its bytes. */
static void write_at_one_time(void)
{
    uint8_t before[sizeof buf];
    WRITE(hdrfs_write_header(buf, sizeof buf, V + 18, 16, 0, V + 44, 32));
    WRITE(hdrfs_append_data(AT_MARK, 7, TEXT("1,5")));
    memcpy(before, buf, sizeof buf);
    SHOW(hdrfs_written, hdrfs_append_data(AT_MARK, 6, TEXT("1,5")));
    printf("same bytes: %d\n", memcmp(buf, before, sizeof buf) == 0);
    WRITE(hdrfs_append_data(AT_MARK, 7, TEXT("1,5")));
    WRITE(hdrfs_write_header(buf, sizeof buf, V + 18, 16, 0, V + 44, 32));
    WRITE(hdrfs_append_link(AT_MARK, 5, 8, 1, TEXT("a")));
    WRITE(hdrfs_append_inode(AT_MARK, 8, 5, 16877, 1, 2, 3, 4, 5, 6, 70, NULL, 0));
    SHOW(hdrfs_checked, hdrfs_check(buf, mark.next));
}

/* A table has no time and leaves the last one as it was. No last time and a last time of 0 let the same times follow. */
static void times_behind_a_table(void)
{
    WRITE(hdrfs_write_header(buf, sizeof buf, V + 18, 16, 1, V + 44, 32));
    WRITE(hdrfs_append_table(AT_MARK, 0, NULL, 0));
    SHOW(hdrfs_written, hdrfs_append_data(AT_MARK, 0, NULL, 0));
    SHOW(hdrfs_written, hdrfs_append_data(buf, sizeof buf, 93, 0, 1, 0, 0, 0, NULL, 0));
    SHOW(hdrfs_checked, hdrfs_check(buf, 114));
    SHOW(hdrfs_block, hdrfs_read(buf, 114, 93, 0, 0, 0, 0));
    SHOW(hdrfs_block, hdrfs_read(buf, 114, 93, 0, 1, 0, 0));
    WRITE(hdrfs_append_data(AT_MARK, 7, NULL, 0));
    SHOW(hdrfs_block, hdrfs_read(buf, 114, 80, 1, 1, 7, 0));
    SHOW(hdrfs_block, hdrfs_read(buf, 114, 93, 0, 1, 7, 0));
    SHOW(hdrfs_block, hdrfs_read(buf, 114, 80, 1, 1, 8, 0));
    SHOW(hdrfs_block, hdrfs_read(buf, 114, 93, 0, 1, 8, 0));
}

/* The highest number of blocks before a bookmark: one more cannot be counted, and the end of a volume is still the end. All other
 * checks of a block come first. */
static void read_at_the_top(void)
{
    uint8_t damaged[sizeof V];
    memcpy(damaged, V, sizeof V);
    damaged[sizeof V - 1] ^= 1;
    SHOW(hdrfs_block, hdrfs_read(V, sizeof V, 80, 0, 0, 0, TOP));
    SHOW(hdrfs_block, hdrfs_read(V, sizeof V, 80, 0, 0, 0, TOP - 1));
    SHOW(hdrfs_block, hdrfs_read(V, sizeof V, 104, 0, 1, 7, TOP));
    SHOW(hdrfs_block, hdrfs_read(V, sizeof V, 80, 0, 1, 8, TOP));
    SHOW(hdrfs_block, hdrfs_read(damaged, sizeof V, 80, 0, 1, 8, TOP));
    SHOW(hdrfs_block, hdrfs_read(V, sizeof V, 80, 1, 0, 0, TOP));
    SHOW(hdrfs_block, hdrfs_read(V, sizeof V, 79, 0, 0, 0, TOP));
    SHOW(hdrfs_block, hdrfs_read(V, sizeof V, 105, 0, 0, 0, TOP));
}

/* The same in writing: the last block that can be counted, and then none. Only a block in the wrong place is refused before that,
 * and the buffer keeps its bytes. */
static void write_at_the_top(void)
{
    uint8_t before[sizeof buf];
    memcpy(buf, V, sizeof V);
    WRITE(hdrfs_append_data(buf, sizeof buf, 104, 0, 1, 7, TOP - 1, 7, TEXT("1,5")));
    memcpy(before, buf, sizeof buf);
    SHOW(hdrfs_written, hdrfs_append_data(AT_MARK, 7, TEXT("1,5")));
    SHOW(hdrfs_block, hdrfs_read(buf, 128, mark.next, mark.due, mark.timed, mark.last, mark.number));
    SHOW(hdrfs_written, hdrfs_append_data(buf, sizeof buf, 104, 0, 1, 7, TOP, 7, TEXT("1,5")));
    SHOW(hdrfs_written, hdrfs_append_data(buf, sizeof buf, 104, 1, 1, 7, TOP, 7, TEXT("1,5")));
    SHOW(hdrfs_written, hdrfs_append_link(buf, sizeof buf, 104, 0, 1, 7, TOP, 7, 8, 1, TEXT("\xff")));
    SHOW(hdrfs_written, hdrfs_append_table(buf, sizeof buf, 104, 1, 1, 7, TOP, 1, ALL + LINKS_AT, 44));
    printf("same bytes: %d\n", memcmp(buf, before, sizeof buf) == 0);
}

int main(void)
{
    check();
    look_up();
    ask_for_runs();
    read_blocks();
    read_links();
    read_extents();
    fetch();
    write_all();
    write_refused();
    write_edges();
    check_two_times();
    write_at_one_time();
    times_behind_a_table();
    read_at_the_top();
    write_at_the_top();
    try_texts();
    try_digests();
    try_repair();
    try_tree();
    return 0;
}
