/* Texts that are not UTF-8, read and written: every refusal with 10 says which text of the block it is and where in it. No call
 * writes a block with such a text, so volumes with one are put together here: a header, and a block at 80.
 */
#include "calls.h"

static uint8_t made[41000];
static size_t made_len;

static void put(const uint8_t *bytes, size_t len)
{
    memcpy(made + made_len, bytes, len);
    made_len += len;
}

/* A number, lowest byte first. */
static void put_number(uint64_t number, unsigned width)
{
    for (unsigned i = 0; i < width; i++)
        made[made_len++] = (uint8_t)(number >> 8 * i);
}

/* The header of another volume, and the ID of the block behind it. */
static void begin(const uint8_t *volume, uint8_t id)
{
    made_len = 0;
    put(volume, 80);
    put_number(id, 1);
}

/* The checksum of the block that begins at an offset, bit by bit. */
static void seal(size_t from)
{
    uint32_t sum = UINT32_MAX;
    for (size_t i = from; i < made_len; i++) {
        sum ^= made[i];
        for (int bit = 0; bit < 8; bit++)
            sum = sum >> 1 ^ (sum & 1 ? 0xedb88320 : 0);
    }
    put_number((uint32_t)~sum, 4);
}

static const char *name_made;

/* A call, printed behind the name of what was made. */
#define SHOW_MADE(type, call)                                                                               \
    do {                                                                                                    \
        type answer = call;                                                                                 \
        printf("%s, ", name_made);                                                                          \
        show(#call, &answer, sizeof answer);                                                                \
    } while (0)

/* What the calls that read say of the block at 80, in one answer and number by number. No volume has a length here. */
static void judge(uint64_t due)
{
    uint64_t out[5] = {9, 9, 9, 9, 9};
    SHOW_MADE(hdrfs_checked, hdrfs_check(made, made_len));
    SHOW_MADE(uint64_t, hdrfs_check_refusal(made, made_len));
    SHOW_MADE(uint64_t, hdrfs_check_text(made, made_len));
    SHOW_MADE(uint64_t, hdrfs_check_start(made, made_len));
    SHOW_MADE(hdrfs_repaired, hdrfs_repair(made, made_len));
    SHOW_MADE(hdrfs_block, hdrfs_read(made, made_len, 80, due, 0, 0, 0));
    SHOW_MADE(hdrfs_place, hdrfs_lookup(made, made_len, 80, NULL, 0, 0));
    SHOW_MADE(uint64_t, hdrfs_lookup_refusal(made, made_len, 80, NULL, 0, 0));
    SHOW_MADE(uint64_t, hdrfs_lookup_text(made, made_len, 80, NULL, 0, 0));
    SHOW_MADE(uint64_t, hdrfs_lookup_start(made, made_len, 80, NULL, 0, 0));
    SHOW_MADE(hdrfs_run_count, hdrfs_runs(made, made_len, 80, NULL, 0, 0, 1, out, 5));
    SHOW_MADE(hdrfs_lines, hdrfs_tree(made, made_len, 80, 0, 0, 0, 1, out, 5));
    show("out", out, sizeof out);
}

/* A buffer with room for all that is made. What is written to it must be what was made; on refusal it keeps its bytes. */
static uint8_t room[sizeof made];

static void show_append(hdrfs_written answer)
{
    size_t changed = 0;
    for (size_t i = 0; i < sizeof room; i++)
        changed += room[i] != 9;
    printf("%s, ", name_made);
    show("append", &answer, sizeof answer);
    int is_right = answer.refusal == 0 ? memcmp(room + 80, made + 80, made_len - 80) == 0 : changed == 0;
    printf("%s, right bytes: %d\n", name_made, is_right);
    memset(room, 9, sizeof room);
}

#define ROOM_AT_80 room, sizeof room, 80, 0, 0, 0, 0

/* The same block, read and appended: a link, a rename and so on, of which the texts are given. */

static void make_link(const uint8_t *name, size_t name_len)
{
    begin(V, 2);
    put_number(1, 8);
    put_number(8, 8);
    put_number(1, 8);
    put_number(name_len, 2);
    put(name, name_len);
    seal(80);
}

static void try_link(const char *row, const uint8_t *name, size_t name_len)
{
    name_made = row;
    make_link(name, name_len);
    judge(0);
    show_append(hdrfs_append_link(ROOM_AT_80, 1, 8, 1, name, name_len));
}

static void try_unlink(const char *row, const uint8_t *name, size_t name_len)
{
    name_made = row;
    make_link(name, name_len);
    made[80] = 3;
    made_len -= 4;
    seal(80);
    judge(0);
    show_append(hdrfs_append_unlink(ROOM_AT_80, 1, 8, 1, name, name_len));
}

static void try_xattr(const char *row, const uint8_t *name, size_t name_len, const uint8_t *value, size_t value_len)
{
    name_made = row;
    begin(V, 4);
    put_number(1, 8);
    put_number(7, 8);
    put_number(name_len, 1);
    put_number(value_len, 2);
    put(name, name_len);
    put(value, value_len);
    seal(80);
    judge(0);
    show_append(hdrfs_append_xattr(ROOM_AT_80, 1, 7, name, name_len, value, value_len));
}

static void try_removed_xattr(const char *row, const uint8_t *name, size_t name_len)
{
    name_made = row;
    begin(V, 5);
    put_number(1, 8);
    put_number(7, 8);
    put_number(name_len, 1);
    put(name, name_len);
    seal(80);
    judge(0);
    show_append(hdrfs_append_removed_xattr(ROOM_AT_80, 1, 7, name, name_len));
}

static void try_rename(const char *row, const uint8_t *old_path, size_t old_len, const uint8_t *new_path, size_t new_len)
{
    name_made = row;
    begin(V, 7);
    put_number(1, 8);
    put_number(old_len, 2);
    put_number(new_len, 2);
    put(old_path, old_len);
    put(new_path, new_len);
    seal(80);
    judge(0);
    show_append(hdrfs_append_rename(ROOM_AT_80, 1, old_path, old_len, new_path, new_len));
}

static void try_inode(const char *row, uint16_t mode, uint64_t size, const uint8_t *rest, size_t rest_len)
{
    name_made = row;
    begin(V, 1);
    put_number(7, 8);
    put_number(1, 8);
    put_number(mode, 2);
    for (uint64_t number = 1; number <= 2; number++)
        put_number(number, 2);
    for (uint64_t number = 3; number <= 6; number++)
        put_number(number, 8);
    put_number(size, 8);
    put_number(rest_len, 8);
    put(rest, rest_len);
    seal(80);
    judge(0);
    show_append(hdrfs_append_inode(ROOM_AT_80, 7, 1, mode, 1, 2, 3, 4, 5, 6, size, rest, rest_len));
}

/* One link of a table, in the folder 1. */
static void put_link(uint64_t child, const uint8_t *name, size_t name_len)
{
    put_number(child, 8);
    put_number(1, 8);
    put_number(name_len, 2);
    put(name, name_len);
}

/* The links stand at 89 in what was made, and the checksum behind them. */
static void try_table(const char *row, uint64_t count)
{
    name_made = row;
    seal(80);
    judge(1);
    show_append(hdrfs_append_table(room, sizeof room, 80, 1, 0, 0, 0, count, made + 89, made_len - 4 - 89));
}

/* The first ill-formed sequence begins behind the last whole character, whether a byte follows there that no text has, a character
 * that is cut, a surrogate or a byte that belongs to no character. An xattr's value is no text. */
static void bad_names(void)
{
    try_link("link a FF b", TEXT("a\xff" "b"));
    try_link("link E2 28", TEXT("\xe2\x28"));
    try_link("link C3 A9 80", TEXT("\xc3\xa9\x80"));
    try_link("link a FF", TEXT("a\xff"));
    try_link("link F0 9F 92", TEXT("\xf0\x9f\x92"));
    try_link("link ED A0 80", TEXT("\xed\xa0\x80"));
    try_unlink("unlink a FF b", TEXT("a\xff" "b"));
    try_xattr("xattr unit, value FF", TEXT("unit"), TEXT("\xff"));
    try_xattr("xattr un E2 28, value FF", TEXT("un\xe2\x28"), TEXT("\xff"));
    try_removed_xattr("removed xattr F0 9F 92", TEXT("\xf0\x9f\x92"));
}

/* A path of 40,010 bytes with one that is bad at 39,999. */
static void bad_paths(void)
{
    static uint8_t path[40010];
    memset(path, 'p', sizeof path);
    path[39999] = 0xff;
    try_rename("rename gauge, x C0 80", TEXT("gauge"), TEXT("x\xc0\x80"));
    try_rename("rename ab 80, FF", TEXT("ab\x80"), TEXT("\xff"));
    try_rename("rename from a long path", path, sizeof path, TEXT("gauge"));
    try_rename("rename to a long path", TEXT("gauge"), path, sizeof path);
}

/* The target of a symbolic link is looked at before the size. Any other inode has no text. */
static void bad_targets(void)
{
    try_inode("symbolic link ab ED A0 80", 41471, 75, TEXT("ab\xed\xa0\x80"));
    try_inode("symbolic link ab ED A0 80, size 74", 41471, 74, TEXT("ab\xed\xa0\x80"));
    try_inode("folder FF", 16877, 70, TEXT("\xff"));
}

/* The names of a table are looked at before it is seen that a link stands there twice. */
static void bad_tables(void)
{
    begin(ALL, 8);
    put_number(3, 8);
    put_link(8, TEXT("ok"));
    put_link(9, TEXT("\xc3\xa9\x80"));
    put_link(10, TEXT("\xff"));
    try_table("table ok, C3 A9 80, FF", 3);
    name_made = "table of 3 links, 2 stated";
    show_append(hdrfs_append_table(room, sizeof room, 80, 1, 0, 0, 0, 2, made + 89, made_len - 4 - 89));
    begin(ALL, 8);
    put_number(2, 8);
    put_link(8, TEXT("\xff"));
    put_link(8, TEXT("\xff"));
    try_table("table FF, FF", 2);
}

/* What is looked at before the text, and what after it, in reading. Beside another number than 10 both numbers are 0. */
static void read_bad_text(void)
{
    name_made = "link a FF b";
    make_link(TEXT("a\xff" "b"));
    SHOW_MADE(hdrfs_block, hdrfs_read(made, made_len, 80, 1, 0, 0, 0));
    SHOW_MADE(hdrfs_block, hdrfs_read(made, made_len, 80, 0, 1, TOP, TOP));
    SHOW_MADE(hdrfs_place, hdrfs_lookup(made, made_len, 80, LENGTHS, 7, 0));
    SHOW_MADE(uint64_t, hdrfs_lookup_text(made, made_len, 80, LENGTHS, 7, 0));
    SHOW_MADE(uint64_t, hdrfs_lookup_start(made, made_len, 80, LENGTHS, 7, 0));
    SHOW_MADE(hdrfs_run_count, hdrfs_runs(made, made_len, 80, LENGTHS, 7, 0, 1, NULL, 0));
    made[made_len - 1] ^= 1;
    name_made = "link a FF b, wrong checksum";
    judge(0);
}

/* The second block has a lower time than the first, and a name that is not UTF-8. */
static void bad_second_block(void)
{
    name_made = "data, link ab FF";
    begin(V, 6);
    put_number(9, 8);
    put_number(0, 8);
    seal(80);
    put_number(2, 1);
    put_number(1, 8);
    put_number(8, 8);
    put_number(1, 8);
    put_number(3, 2);
    put(TEXT("ab\xff"));
    seal(101);
    judge(0);
    SHOW_MADE(hdrfs_block, hdrfs_read(made, made_len, 101, 0, 1, 9, 1));
}

/* The same in writing: the place, the number of blocks and the lengths come before the text; time and room after it. */
static void write_bad_text(void)
{
    static uint8_t name[65536];
    memset(name, 0xff, sizeof name);
    name_made = "table due";
    show_append(hdrfs_append_link(room, sizeof room, 80, 1, 0, 0, 0, 1, 8, 1, TEXT("a\xff" "b")));
    name_made = "highest number";
    show_append(hdrfs_append_link(room, sizeof room, 80, 0, 0, 0, TOP, 1, 8, 1, TEXT("a\xff" "b")));
    name_made = "name too long";
    show_append(hdrfs_append_link(ROOM_AT_80, 1, 8, 1, name, sizeof name));
    name_made = "longest name";
    show_append(hdrfs_append_link(ROOM_AT_80, 1, 8, 1, name, sizeof name - 1));
    name_made = "lower time, no room";
    show_append(hdrfs_append_link(room, 80, 80, 0, 1, 9, 0, 1, 8, 1, TEXT("ab\xff")));
}

void try_texts(void)
{
    memset(room, 9, sizeof room);
    bad_names();
    bad_paths();
    bad_targets();
    bad_tables();
    read_bad_text();
    bad_second_block();
    write_bad_text();
}
