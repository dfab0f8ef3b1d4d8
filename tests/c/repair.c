/* Volumes that end within a block, as when power is lost during an append, and volumes that are at fault in another way: what the
 * check says of them, and how much is left of them. Texts that are not UTF-8 are in texts.c.
 */
#include "calls.h"

/* In an inode block, where the length of its rest stands and where that begins; in a data block, where the length stands. */
enum { INODE_LEN_AT = 63, INODE_REST_AT = 71, DATA_LEN_AT = 9 };

/* A table's one link, 19 bytes. */
#define ONE_LINK TEXT("\x08\0\0\0\0\0\0\0" "\x01\0\0\0\0\0\0\0" "\x01\0" "g")

/* The first fields of a data block at time 8, before its length, which has 8 bytes. */
#define DATA_AT_8 "\x06" "\x08\0\0\0\0\0\0\0"

/* A buffer with room for all that is written, and the bookmark in it. */
static uint8_t buf[300];
static hdrfs_written mark;

static void show_repair(const char *row, const uint8_t *volume, size_t volume_len)
{
    hdrfs_checked checked = hdrfs_check(volume, volume_len);
    hdrfs_repaired repaired = hdrfs_repair(volume, volume_len);
    printf("%s, ", row);
    show("check", &checked, sizeof checked);
    printf("%s, ", row);
    show("repair", &repaired, sizeof repaired);
}

/* Ends a volume after each number of bytes from `from` to below `to`. It has to be refused with 2 at `offset` after `blocks`, and
 * the repair to answer `left`; wherever this is not so, both answers are printed. */
static void cut(const char *row, const uint8_t *volume, size_t from, size_t to, uint64_t offset, uint64_t blocks,
                hdrfs_repaired left)
{
    const hdrfs_checked fault = {.refusal = 2, .blocks = blocks, .offset = offset};
    size_t right = 0;
    for (size_t len = from; len < to; len++) {
        hdrfs_checked checked = hdrfs_check(volume, len);
        hdrfs_repaired repaired = hdrfs_repair(volume, len);
        if (memcmp(&checked, &fault, sizeof fault) == 0 && memcmp(&repaired, &left, sizeof left) == 0) {
            right++;
            continue;
        }
        printf("%zu bytes, ", len);
        show_repair(row, volume, len);
    }
    printf("%s, %zu of %zu cuts are refused with 2 at %" PRIu64, row, right, to - from, offset);
    printf(" after %" PRIu64 ", ", blocks);
    show("repair", &left, sizeof left);
}

/* The same within a block other than the table: all before it is left. */
static void cut_block(const char *row, const uint8_t *volume, uint64_t at, uint64_t end, uint64_t number)
{
    cut(row, volume, at + 1, end, at, number, (hdrfs_repaired){.length = at});
}

/* V, and the bookmark at its end. */
static void begin_with_v(void)
{
    memcpy(buf, V, sizeof V);
    mark = (hdrfs_written){.next = sizeof V, .timed = 1, .last = 7, .number = 1};
}

/* A block appended to V, after each of its bytes. */
#define APPEND_AND_CUT(row, append)                                                                         \
    do {                                                                                                    \
        begin_with_v();                                                                                     \
        mark = append;                                                                                      \
        cut_block(row, buf, sizeof V, mark.next, 1);                                                        \
        show_repair(row, buf, mark.next);                                                                   \
    } while (0)

static void every_kind(void)
{
    APPEND_AND_CUT("data", hdrfs_append_data(AT_MARK, 8, TEXT("1,5")));
    APPEND_AND_CUT("inode with one extent", hdrfs_append_inode(AT_MARK, 7, 8, 33188, 1, 2, 3, 4, 5, 6, 3, ALL + 208, 57));
    APPEND_AND_CUT("symbolic link", hdrfs_append_inode(AT_MARK, 7, 8, 41471, 1, 2, 3, 4, 5, 6, 75, TEXT("gauge")));
    APPEND_AND_CUT("folder", hdrfs_append_inode(AT_MARK, 7, 8, 16877, 1, 2, 3, 4, 5, 6, 70, NULL, 0));
    APPEND_AND_CUT("link", hdrfs_append_link(AT_MARK, 8, 8, 1, TEXT("gauge")));
    APPEND_AND_CUT("unlink", hdrfs_append_unlink(AT_MARK, 8, 8, 1, TEXT("g")));
    APPEND_AND_CUT("xattr", hdrfs_append_xattr(AT_MARK, 8, 7, TEXT("unit"), TEXT("m")));
    APPEND_AND_CUT("removed xattr", hdrfs_append_removed_xattr(AT_MARK, 8, 7, TEXT("unit")));
    APPEND_AND_CUT("rename", hdrfs_append_rename(AT_MARK, 8, TEXT("ab"), TEXT("c")));
}

/* All blocks of a volume but its table, the first: the number of blocks before the fault rises. */
static void every_block_of_all(void)
{
    hdrfs_block block = hdrfs_read(ALL, sizeof ALL, 80, 1, 0, 0, 0);
    while (block.next < sizeof ALL) {
        uint64_t at = block.next;
        block = hdrfs_read(ALL, sizeof ALL, at, block.due, block.timed, block.last, block.next_number);
        cut_block("ALL", ALL, at, block.next, block.number);
    }
    show_repair("ALL", ALL, sizeof ALL);
}

/* Of a header that is cut nothing is left, nor of a volume whose table is. */
static void headers_and_tables(void)
{
    const hdrfs_repaired nothing = {.refusal = 2};
    SHOW(hdrfs_repaired, hdrfs_repair(NULL, 0));
    cut("header", V, 0, 80, 0, 0, nothing);
    show_repair("header", V, 80);
    memcpy(buf, V, 80);
    buf[80] = 6;
    show_repair("header and 06", buf, 81);
    mark = hdrfs_write_header(buf, sizeof buf, V + 18, 16, 1, ALL + 44, 32);
    show_repair("header of volume 1", buf, 80);
    mark = hdrfs_append_table(AT_MARK, 1, ONE_LINK);
    cut("table", buf, 80, 112, 80, 0, nothing);
    show_repair("table", buf, 112);
    mark = hdrfs_append_data(AT_MARK, 8, TEXT("1,5"));
    cut_block("data behind a table", buf, 112, 136, 1);
    show_repair("table and 5 bytes of data", buf, 117);
}

/* V with some bytes behind it. */
static void behind(const char *row, const uint8_t *bytes, size_t len)
{
    memcpy(buf, V, sizeof V);
    memcpy(buf + sizeof V, bytes, len);
    show_repair(row, buf, sizeof V + len);
}

/* Other faults than 2, of which the first decides. A limit is judged before it is seen that the bytes end. */
static void other_faults(void)
{
    static const uint8_t zeros[100];
    behind("V and 00", TEXT("\0"));
    behind("V and zeros", zeros, sizeof zeros);
    behind("V and 09", TEXT("\x09"));
    behind("V and 08", TEXT("\x08"));
    behind("length 2^64 - 1", TEXT(DATA_AT_8 "\xff\xff\xff\xff\xff\xff\xff\xff"));
    begin_with_v();
    buf[98] ^= 1;
    show_repair("damaged payload", buf, sizeof V);
    buf[sizeof V] = 6;
    show_repair("damaged payload and 06", buf, sizeof V + 1);
    begin_with_v();
    mark = hdrfs_append_inode(AT_MARK, 7, 8, 33188, 1, 2, 3, 4, 5, 6, 3, NULL, 0);
    memcpy(buf + sizeof V + INODE_LEN_AT, "\x00\xe4", 2);
    show_repair("58368 bytes of extents", buf, sizeof V + INODE_REST_AT);
    memcpy(buf + sizeof V + INODE_LEN_AT, "\x01\xe4", 2);
    show_repair("58369 bytes of extents", buf, sizeof V + INODE_REST_AT);
    show_repair("the same without the last length byte", buf, sizeof V + INODE_REST_AT - 1);
    mark = hdrfs_append_data(buf, sizeof buf, sizeof V, 0, 0, 0, 1, 6, TEXT("1,5"));
    show_repair("lower time", buf, mark.next);
    show_repair("lower time, cut", buf, mark.next - 1);
}

/* A damaged length that goes beyond the end, if only by a byte, looks like a cut: the sound block behind it is lost too. By one
 * that does not, the checksum is wrong. */
static void damaged_lengths(void)
{
    begin_with_v();
    mark = hdrfs_append_data(AT_MARK, 8, TEXT("x"));
    mark = hdrfs_append_data(AT_MARK, 9, TEXT("1,5"));
    show_repair("two blocks", buf, mark.next);
    buf[sizeof V + DATA_LEN_AT] = 200;
    show_repair("length 200", buf, mark.next);
    buf[sizeof V + DATA_LEN_AT] = 26;
    show_repair("length 26", buf, mark.next);
    buf[sizeof V + DATA_LEN_AT] = 25;
    show_repair("length 25", buf, mark.next);
}

/* V and a block that ends one byte beyond the greatest length. Cut there it is repaired; with that byte the volume is too long. */
static void long_volumes(void)
{
    static uint8_t volume[LIMIT + 1];
    uint64_t payload = LIMIT + 1 - sizeof V - 21;
    memcpy(volume, V, sizeof V);
    hdrfs_append_data(volume, sizeof V + 21, sizeof V, 0, 1, 7, 1, 8, NULL, 0);
    for (unsigned i = 0; i < 8; i++)
        volume[sizeof V + DATA_LEN_AT + i] = (uint8_t)(payload >> 8 * i);
    show_repair("greatest length", volume, LIMIT);
    show_repair("too long", volume, LIMIT + 1);
}

void try_repair(void)
{
    every_kind();
    every_block_of_all();
    headers_and_tables();
    other_faults();
    damaged_lengths();
    long_volumes();
}
