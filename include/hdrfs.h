/* Calls of the proved HDRFS library for programs in C, Rust and other languages.
 *
 * A slice is a pointer and a length; the pointer may be null where the length is 0. Every call takes any bytes and any
 * numbers, ends, and writes nothing but the list lent to hdrfs_runs or hdrfs_tree, the buffer lent to a writing call, and the state
 * and the room for a digest lent to a SHA-256 call. A refusal number of 0 means that nothing is refused; docs/REFUSALS.md says what
 * the others mean. Beside a refusal every other value is 0, except the offset and the number of blocks that the check of a whole
 * volume hands out, which volume of a pair is refused by itself and the offset in it, and the two numbers of a 10.
 *
 * Refusal 10, a text that is not UTF-8, has `text` and `start` beside it, which are 0 beside every other number. `text` says which
 * text of the block is the first that is not UTF-8, counted from 0 in the order of the layout; `start` says where in that text,
 * counted from its own first byte, the first ill-formed sequence begins: all bytes before it are UTF-8. The texts of a block are a
 * symbolic link's target; the name of a link, unlink, xattr or removed xattr; the old path (0) and the new path (1) of a rename;
 * and the names of a link table, one for each link. An xattr's value is no text. Headers and fetching never give a 10.
 *
 * Reading and writing go from bookmark to bookmark. The `number` of a bookmark says how many blocks stand before it, and so is the
 * number of the block that is read or appended there: the first one behind a header, a link table too, is block 0. A number that
 * was made up is taken as it is. At 2^64 - 1 one more block cannot be counted: the next reading or append is refused with 9. The
 * end of a volume is still answered there.
 *
 * What is lent for writing, the list of hdrfs_runs or hdrfs_tree, the buffer of a writing call, and the state and the room for a
 * digest of a SHA-256 call, must not overlap any other slice of the same call. Nothing checks this: what a call answers is fixed
 * only where it holds.
 *
 * `lengths` has the lengths of the volumes, 8 bytes for each, lowest byte first; entry i is that of sequence number i.
 */
#ifndef HDRFS_H
#define HDRFS_H

#include <stddef.h>
#include <stdint.h>

#ifdef __cplusplus
extern "C" {
#endif

/* What stands at a position of a file, and the kinds of runs. */
enum { HDRFS_HOLE = 0, HDRFS_STORED = 1, HDRFS_PAST_END = 2 };

/* ---- The check of a whole volume. */

typedef struct {
    uint64_t refusal;  /* 0: accepted */
    uint64_t text;     /* of a 10: which text of the block is not UTF-8, and where in it that begins */
    uint64_t start;
    uint64_t sequence; /* the sequence number */
    uint64_t blocks;   /* blocks after the header that were accepted, the link table included: the end bookmark's number, or
                        * that of the block at fault; 0 where the header is at fault */
    uint64_t offset;   /* where the volume ends, or where the header or block at fault begins */
    uint64_t timed;    /* 1: the end bookmark has a last time, and `time` is it */
    uint64_t time;
} hdrfs_checked;

/* All of it in one pass. */
hdrfs_checked hdrfs_check(const uint8_t *volume, size_t volume_len);

/* The same, one number a call. */
uint64_t hdrfs_check_refusal(const uint8_t *volume, size_t volume_len);
uint64_t hdrfs_check_text(const uint8_t *volume, size_t volume_len);
uint64_t hdrfs_check_start(const uint8_t *volume, size_t volume_len);
uint64_t hdrfs_check_sequence(const uint8_t *volume, size_t volume_len);
uint64_t hdrfs_check_blocks(const uint8_t *volume, size_t volume_len);
uint64_t hdrfs_check_offset(const uint8_t *volume, size_t volume_len);
uint64_t hdrfs_check_timed(const uint8_t *volume, size_t volume_len);
uint64_t hdrfs_check_time(const uint8_t *volume, size_t volume_len);

/* ---- How much is left of a volume whose end was cut off within a block, as when power is lost during an append: the length of its
 * longest beginning that hdrfs_check accepts. That is all of an accepted volume. Where the first fault is a 2 at a block other than
 * the link table, it ends where that block begins. Any other fault is refused with its number, a 2 in the header or in the table
 * too. Nothing is changed: keep the bytes, for a damaged length in the middle of a volume gives a 2 as well, and sound blocks behind
 * it are not in the beginning. */

typedef struct {
    uint64_t refusal;
    uint64_t text;   /* of a 10, as in hdrfs_checked */
    uint64_t start;
    uint64_t length; /* of the beginning */
} hdrfs_repaired;

hdrfs_repaired hdrfs_repair(const uint8_t *volume, size_t volume_len);

/* ---- Where a position of a file is stored. `offset` is that of an inode block in `volume`. */

typedef struct {
    uint64_t refusal;
    uint64_t text;   /* of a 10, as in hdrfs_checked */
    uint64_t start;
    uint64_t kind;   /* HDRFS_HOLE, HDRFS_STORED or HDRFS_PAST_END */
    uint64_t volume; /* the sequence number of the volume that has the byte */
    uint64_t offset; /* where the byte stands in that volume */
} hdrfs_place;

hdrfs_place hdrfs_lookup(const uint8_t *volume, size_t volume_len, uint64_t offset,
                         const uint8_t *lengths, size_t lengths_len, uint64_t position);

uint64_t hdrfs_lookup_refusal(const uint8_t *volume, size_t volume_len, uint64_t offset,
                              const uint8_t *lengths, size_t lengths_len, uint64_t position);
uint64_t hdrfs_lookup_text(const uint8_t *volume, size_t volume_len, uint64_t offset,
                           const uint8_t *lengths, size_t lengths_len, uint64_t position);
uint64_t hdrfs_lookup_start(const uint8_t *volume, size_t volume_len, uint64_t offset,
                            const uint8_t *lengths, size_t lengths_len, uint64_t position);
uint64_t hdrfs_lookup_kind(const uint8_t *volume, size_t volume_len, uint64_t offset,
                           const uint8_t *lengths, size_t lengths_len, uint64_t position);
uint64_t hdrfs_lookup_volume(const uint8_t *volume, size_t volume_len, uint64_t offset,
                             const uint8_t *lengths, size_t lengths_len, uint64_t position);
uint64_t hdrfs_lookup_offset(const uint8_t *volume, size_t volume_len, uint64_t offset,
                             const uint8_t *lengths, size_t lengths_len, uint64_t position);

/* ---- The runs of the positions `from` to below `to`: five numbers each in `out`, namely logical start, length, kind,
 * volume and offset. `out_len` counts numbers, not bytes. Numbers past the runs keep their values. */

typedef struct {
    uint64_t refusal; /* 17: `out` has room for fewer runs than there are */
    uint64_t text;    /* of a 10, as in hdrfs_checked */
    uint64_t start;
    uint64_t count;   /* how many runs there are */
} hdrfs_run_count;

hdrfs_run_count hdrfs_runs(const uint8_t *volume, size_t volume_len, uint64_t offset,
                           const uint8_t *lengths, size_t lengths_len, uint64_t from, uint64_t to,
                           uint64_t *out, size_t out_len);

/* ---- Walking a volume: the header, and then block by block, each time with the bookmark last handed out. */

typedef struct {
    uint64_t refusal;
    uint64_t text;     /* always 0, and so is start */
    uint64_t start;
    uint64_t sequence;
    uint64_t next;     /* the bookmark after the header: its offset, and 1 where a link table is due there; its number is 0 */
    uint64_t due;
    uint64_t id;       /* where the file system ID begins in the volume, 16 bytes */
    uint64_t previous; /* where the hash of the previous volume begins, 32 bytes */
} hdrfs_heading;

hdrfs_heading hdrfs_header(const uint8_t *volume, size_t volume_len);

/* One block. What a kind of block does not have is 0. */
typedef struct {
    uint64_t refusal;
    uint64_t text;        /* of a 10, as in hdrfs_checked */
    uint64_t start;
    uint64_t end;         /* 1: the bookmark stands at the end of the volume, and there is no block */
    uint64_t id;          /* 1 inode, 2 link, 3 unlink, 4 xattr, 5 removed xattr, 6 data, 7 rename, 8 link table */
    uint64_t number;      /* the block's own number: that of the bookmark at which it was read */
    uint64_t next;        /* the bookmark after the block: its offset, whether a table is due, its last time if `timed` is 1, and
                           * its number, one more than the block's */
    uint64_t due;
    uint64_t timed;
    uint64_t last;
    uint64_t next_number;
    uint64_t time;   /* the block's time; a link table has none */
    uint64_t inode;  /* inode, xattr, removed xattr */
    uint64_t child;  /* link, unlink */
    uint64_t parent; /* link, unlink */
    uint64_t mode;   /* inode, and so on down to size */
    uint64_t uid;
    uint64_t gid;
    uint64_t atime;
    uint64_t mtime;
    uint64_t ctime;
    uint64_t btime;
    uint64_t size;
    uint64_t count;      /* link table: how many links it has */
    uint64_t part;       /* where the first variable part begins in the volume: target or extents, name, payload, old path, links */
    uint64_t part_len;
    uint64_t second;     /* xattr: the value; rename: the new path */
    uint64_t second_len;
} hdrfs_block;

/* The block at a bookmark: `due` is 0 where no link table is due; `timed` is 0 where there is no last time. */
hdrfs_block hdrfs_read(const uint8_t *volume, size_t volume_len, uint64_t offset, uint64_t due, uint64_t timed, uint64_t time,
                       uint64_t number);

/* ---- The links of a table, one after the other: the link that begins `at` bytes into the links, which are the table's
 * first variable part. Begin at 0 and go on at `next`, `count` times. */

typedef struct {
    uint64_t missing; /* 1: no whole link begins there */
    uint64_t child;
    uint64_t parent;
    uint64_t name; /* where the name begins, counted from the beginning of the links */
    uint64_t name_len;
    uint64_t next;
} hdrfs_link_entry;

hdrfs_link_entry hdrfs_link(const uint8_t *links, size_t links_len, uint64_t at);

/* ---- The tree below a folder, out of the link table at a bookmark: for each link whose parent is `root`, in the order of the
 * table, a line, and right behind it the lines of what its child holds, and so on down. A line has two numbers in `out`: its depth,
 * and the place of its link among the table's links, both counted from 0. A link is listed once for each path that reaches it.
 * A root that is no link's parent has no lines, and they take no room.
 *
 * `out_len` counts numbers, not bytes. Numbers past the lines keep their values, and so do all on refusal.
 *
 * The table is due at the bookmark whatever was handed out with it, so that there is no `due` here; `timed` and the rest are those
 * of hdrfs_read. First come the refusals of reading a table there. Then the first line, in the order of the listing, that cannot be
 * given decides: 24 if its depth is 32, else 17 if `out` has no room for its two numbers. Links that lead around in a loop have
 * lines without end, and so one of the two comes. Where folders have more than one link, a short table can have more lines than any
 * memory holds; nothing is looked at behind the first line that has no room. */

typedef struct {
    uint64_t refusal; /* 24: a line at depth 32; 17: `out` has room for fewer lines than there are */
    uint64_t text;    /* of a 10, as in hdrfs_checked */
    uint64_t start;
    uint64_t lines;   /* how many there are */
} hdrfs_lines;

hdrfs_lines hdrfs_tree(const uint8_t *volume, size_t volume_len, uint64_t offset, uint64_t timed, uint64_t last, uint64_t number,
                       uint64_t root, uint64_t *out, size_t out_len);

/* ---- The extents of a regular file, by their numbers, counted from 0: `list` is the inode's first variable part, which has
 * 57 bytes for each extent. What lies past the end of the list is 0. */

typedef struct {
    uint64_t volume;       /* the sequence number of the volume that has the bytes */
    uint64_t start;        /* where the first block begins in that volume */
    uint64_t size;         /* how long a block is */
    uint64_t multiplicity; /* 67: `count` blocks in a row, 82: one block read `count` times */
    uint64_t count;
    uint64_t pre;          /* how many bytes are left out at the beginning, and at the end */
    uint64_t post;
    uint64_t logical;      /* the first position of the file that is kept */
} hdrfs_extent_entry;

hdrfs_extent_entry hdrfs_extent(const uint8_t *list, size_t list_len, uint64_t index);

/* ---- Which part of which of two volumes holds `len` bytes at `offset` of the volume with this sequence number. */

typedef struct {
    uint64_t refusal;
    uint64_t text;  /* always 0, and so is start */
    uint64_t start;
    uint64_t which; /* 0: the first volume has them, 1: the second */
} hdrfs_source;

hdrfs_source hdrfs_fetch(const uint8_t *first, size_t first_len, const uint8_t *second, size_t second_len,
                         uint64_t number, uint64_t offset, uint64_t len);

/* ---- SHA-256 (FIPS 180-4) of any bytes, up to 16,777,216, whether they are a sound volume or not. Each call answers a refusal
 * number, 0 where it is done. `out` gets the digest, 32 bytes. Bytes that a call does not write keep their values, and so do all
 * on refusal: 17 where fewer than 104 bytes are lent for the state, 1 where the bytes are too many, 17 where fewer than 32 are
 * lent for the digest, in this order. */

/* All bytes at once. */
uint64_t hdrfs_sha256(const uint8_t *bytes, size_t bytes_len, uint8_t *out, size_t out_len);

/* The same in parts, cut anywhere. The state has 104 bytes: eight words of 4 bytes and the number of bytes fed in 8, all lowest
 * byte first, and then 64 held bytes, of which the first are in use, as many as the remainder of that number by 64. A state that
 * was made up is taken as it is. Feeding is as if byte by byte, so that held bytes to whose places nothing is fed keep their
 * values. A number above 16,777,216 is refused with 1, also where nothing is fed. Finishing leaves the state as it is. */
uint64_t hdrfs_sha256_start(uint8_t *state, size_t state_len);
uint64_t hdrfs_sha256_feed(uint8_t *state, size_t state_len, const uint8_t *part, size_t part_len);
uint64_t hdrfs_sha256_finish(const uint8_t *state, size_t state_len, uint8_t *out, size_t out_len);

/* ---- Whether the second of two volumes follows the first: both are accepted, they have the same file system ID, the second's
 * sequence number is one above the first's, and its hash of the previous volume is the SHA-256 digest of the first. */

typedef struct {
    uint64_t refusal; /* the first volume's own, else the second's own, else 23; 0: the second follows the first */
    uint64_t text;    /* of a 10, as in hdrfs_checked */
    uint64_t start;
    uint64_t which;   /* 1: the first volume is refused by itself, 2: the second; 0 beside 23 */
    uint64_t offset;  /* where the header or block at fault begins in that volume, as in hdrfs_checked; 0 beside 23 */
} hdrfs_paired;

hdrfs_paired hdrfs_pair(const uint8_t *first, size_t first_len, const uint8_t *second, size_t second_len);

/* ---- Writing: a header at the beginning of a buffer, and then block by block, each time with the bookmark last handed out.
 * `buf` must not overlap the other slices. Bytes that a call does not write keep their values, and so do all on refusal. */

/* The bookmark after what was written: its offset, whether a table is due, its last time if `timed` is 1, its number. The next
 * block may have that time or a higher one; at a lower time it is refused with 14. */
typedef struct {
    uint64_t refusal; /* 17: the buffer has too little room */
    uint64_t text;    /* of a 10, as in hdrfs_checked: which text of the block that is not written */
    uint64_t start;
    uint64_t next;
    uint64_t due;
    uint64_t timed;
    uint64_t last;
    uint64_t number;  /* 0 after a header */
} hdrfs_written;

/* A header has 80 bytes. `id` has 16 and `previous`, the hash of the previous volume, 32. */
hdrfs_written hdrfs_write_header(uint8_t *buf, size_t buf_len, const uint8_t *id, size_t id_len, uint64_t sequence,
                                 const uint8_t *previous, size_t previous_len);

/* `rest`: a symbolic link's target, a regular file's extents; nothing for other kinds of files. */
hdrfs_written hdrfs_append_inode(uint8_t *buf, size_t buf_len, uint64_t offset, uint64_t due, uint64_t timed, uint64_t last,
                                 uint64_t number, uint64_t inode, uint64_t time, uint16_t mode, uint16_t uid, uint16_t gid,
                                 uint64_t atime, uint64_t mtime, uint64_t ctime, uint64_t btime, uint64_t size,
                                 const uint8_t *rest, size_t rest_len);
hdrfs_written hdrfs_append_link(uint8_t *buf, size_t buf_len, uint64_t offset, uint64_t due, uint64_t timed, uint64_t last,
                                uint64_t number, uint64_t time, uint64_t child, uint64_t parent,
                                const uint8_t *name, size_t name_len);
hdrfs_written hdrfs_append_unlink(uint8_t *buf, size_t buf_len, uint64_t offset, uint64_t due, uint64_t timed, uint64_t last,
                                  uint64_t number, uint64_t time, uint64_t child, uint64_t parent,
                                  const uint8_t *name, size_t name_len);
hdrfs_written hdrfs_append_xattr(uint8_t *buf, size_t buf_len, uint64_t offset, uint64_t due, uint64_t timed, uint64_t last,
                                 uint64_t number, uint64_t time, uint64_t inode, const uint8_t *name, size_t name_len,
                                 const uint8_t *value, size_t value_len);
hdrfs_written hdrfs_append_removed_xattr(uint8_t *buf, size_t buf_len, uint64_t offset, uint64_t due, uint64_t timed,
                                         uint64_t last, uint64_t number, uint64_t time, uint64_t inode,
                                         const uint8_t *name, size_t name_len);
hdrfs_written hdrfs_append_data(uint8_t *buf, size_t buf_len, uint64_t offset, uint64_t due, uint64_t timed, uint64_t last,
                                uint64_t number, uint64_t time, const uint8_t *payload, size_t payload_len);
/* `old_path` and `new_path` are the path before and the path after. */
hdrfs_written hdrfs_append_rename(uint8_t *buf, size_t buf_len, uint64_t offset, uint64_t due, uint64_t timed, uint64_t last,
                                  uint64_t number, uint64_t time, const uint8_t *old_path, size_t old_path_len,
                                  const uint8_t *new_path, size_t new_path_len);
/* `links`: for each link 8 bytes of child, 8 of parent, 2 of the name's length, lowest byte first, and the name. */
hdrfs_written hdrfs_append_table(uint8_t *buf, size_t buf_len, uint64_t offset, uint64_t due, uint64_t timed, uint64_t last,
                                 uint64_t number, uint64_t count, const uint8_t *links, size_t links_len);

#ifdef __cplusplus
}
#endif

#endif
