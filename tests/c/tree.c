/* The trees below folders: which lines they have, in how much room, and what is refused. The whole list is compared each time, and
 * numbers behind it that are not lent. Names that are not UTF-8 are in texts.c.
 */
#include "calls.h"

/* The most links of a table here, and the most numbers that are lent. */
enum { LINKS = 40, ROOM = 1000 };

/* Volume 1 with a table, and the bookmark behind it. */
static uint8_t buf[80 + 13 + 20 * LINKS];
static hdrfs_written mark;

/* The list, and what stands in it beforehand: at each place another number, and none that a line has. */
static uint64_t out[ROOM + 8];
enum { BEFORE = 5000 };

static void fill(void)
{
    for (size_t i = 0; i < ROOM + 8; i++)
        out[i] = BEFORE + i;
}

/* An answer, the numbers of its lines, and how many others are not as they were. */
static void show_lines(hdrfs_lines answer)
{
    size_t changed = 0, used = answer.lines <= ROOM / 2 ? 2 * answer.lines : 0;
    show("tree", &answer, sizeof answer);
    if (used > 0)
        show("out", out, used * sizeof *out);
    for (size_t i = used; i < ROOM + 8; i++)
        changed += out[i] != BEFORE + i;
    if (changed > 0)
        printf("changed past the lines: %zu\n", changed);
}

/* The tree below a folder, out of the table at 80. */
static void list(const char *row, uint64_t root, size_t room)
{
    fill();
    printf("%s, root %" PRIu64 ", room %zu, ", row, root, room);
    show_lines(hdrfs_tree(buf, mark.next, 80, 0, 0, 0, root, out, room));
}

static size_t put_number(uint8_t *bytes, uint64_t number, unsigned width)
{
    for (unsigned i = 0; i < width; i++)
        bytes[i] = (uint8_t)(number >> 8 * i);
    return width;
}

/* Volume 1 with a table of links, child and parent of each. All names differ: they have two bytes, the second from the place. */
static void make(const uint64_t links[][2], size_t count)
{
    uint8_t bytes[20 * LINKS];
    size_t len = 0;
    for (size_t i = 0; i < count; i++) {
        len += put_number(bytes + len, links[i][0], 8);
        len += put_number(bytes + len, links[i][1], 8);
        len += put_number(bytes + len, 2, 2);
        bytes[len++] = 'n';
        bytes[len++] = (uint8_t)('A' + i);
    }
    mark = hdrfs_write_header(buf, sizeof buf, V + 18, 16, 1, ALL + 44, 32);
    mark = hdrfs_append_table(AT_MARK, count, bytes, len);
}

#define MAKE(...)                                                                                           \
    do {                                                                                                    \
        const uint64_t links[][2] = {__VA_ARGS__};                                                          \
        make(links, sizeof links / sizeof *links);                                                          \
    } while (0)

static void small_trees(void)
{
    const char *row = "2 in 1, 3 in 2, 4 in 1";
    MAKE({2, 1}, {3, 2}, {4, 1});
    list(row, 1, ROOM);
    for (size_t room = 0; room <= 7; room++)
        list(row, 1, room);
    for (size_t room = 0; room <= 3; room++)
        list(row, 2, room);
    for (size_t room = 0; room <= 2; room++)
        list(row, 9, room);
    list(row, 0, 6);
    list(row, TOP, 6);
    SHOW(hdrfs_lines, hdrfs_tree(buf, mark.next, 80, 0, 0, 0, 9, NULL, 0));
    SHOW(hdrfs_lines, hdrfs_tree(buf, mark.next, 80, 0, 0, 0, 1, NULL, 0));
    row = "2 in 1 under two names, 3 in 2";
    MAKE({2, 1}, {2, 1}, {3, 2});
    for (size_t room = 6; room <= 9; room++)
        list(row, 1, room);
    row = "3 in 2, 2 in 1";
    MAKE({3, 2}, {2, 1});
    for (size_t room = 2; room <= 5; room++)
        list(row, 1, room);
    row = "0 in the highest, the one below it in 0";
    MAKE({0, TOP}, {TOP - 1, 0});
    list(row, TOP, 4);
    list(row, 0, 4);
    make(NULL, 0);
    list("no links", 1, 0);
    list("no links", 0, 4);
}

/* One line after the other until the depth decides, or before that the room. */
static void loops(void)
{
    const size_t rooms[] = {0, 1, 2, 62, 63, 64, 65, 66, ROOM};
    MAKE({1, 1});
    for (size_t i = 0; i < sizeof rooms / sizeof *rooms; i++)
        list("1 in 1", 1, rooms[i]);
    list("1 in 1", 2, 0);
    MAKE({2, 1}, {1, 2});
    for (size_t i = 0; i < sizeof rooms / sizeof *rooms; i++)
        list("2 in 1, 1 in 2", 1, rooms[i]);
    /* Three lines in two steps down: 48 before depth 32. */
    MAKE({2, 1}, {7, 2}, {1, 2});
    for (size_t room = 94; room <= 98; room++)
        list("2 in 1, 7 and 1 in 2", 2, room);
}

static void chains(void)
{
    uint64_t links[33][2];
    for (uint64_t i = 0; i < 33; i++) {
        links[i][0] = i + 2;
        links[i][1] = i + 1;
    }
    make(links, 32);
    for (size_t room = 62; room <= 66; room++)
        list("a chain of 32", 1, room);
    list("a chain of 32", 1, ROOM);
    make(links, 33);
    for (size_t room = 62; room <= 66; room++)
        list("a chain of 33", 1, room);
    list("a chain of 33", 1, ROOM);
    list("a chain of 33", 2, 64);
}

/* What is refused where the table is read comes before all else, and the list stays as it is. A table is due wherever it is asked
 * for: the volume's end is never answered, and a table is read also at a bookmark at which none was due. */
#define LIST_AT(...)                                                                                        \
    do {                                                                                                    \
        fill();                                                                                             \
        printf("%s, ", #__VA_ARGS__);                                                                       \
        show_lines(hdrfs_tree(__VA_ARGS__, 1, out, 6));                                                     \
    } while (0)

static void bookmarks(void)
{
    MAKE({2, 1}, {3, 2}, {4, 1});
    LIST_AT(V, sizeof V, 80, 0, 0, 0);
    LIST_AT(V, sizeof V, 104, 0, 0, 0);
    LIST_AT(V, sizeof V, 104, 1, 7, 1);
    LIST_AT(V, sizeof V, 105, 0, 0, 0);
    LIST_AT(V, sizeof V, 79, 0, 0, 0);
    LIST_AT(V, sizeof V, 0, 0, 0, 0);
    LIST_AT(V, sizeof V, TOP, 0, 0, 0);
    LIST_AT(V, 80, 80, 0, 0, 0);
    LIST_AT(NULL, 0, 80, 0, 0, 0);
    LIST_AT(NULL, 0, 0, 0, 0, 0);
    LIST_AT(V, sizeof V, 80, 0, 0, TOP);
    LIST_AT(buf, mark.next, 80, 0, 0, TOP);
    LIST_AT(buf, mark.next, 80, 0, 0, TOP - 1);
    LIST_AT(buf, mark.next, 80, 1, TOP, 17);
    LIST_AT(buf, mark.next, 80, 0, TOP, 0);
    LIST_AT(buf, mark.next, 80, TOP, 0, 0);
    LIST_AT(buf, mark.next, mark.next, 0, 0, 1);
    LIST_AT(buf, mark.next - 1, 80, 0, 0, 0);
    LIST_AT(ALL, sizeof ALL, 80, 0, 0, 0);
    LIST_AT(ALL, sizeof ALL, 137, 0, 0, 1);
    buf[100] ^= 1;
    printf("a damaged byte, ");
    LIST_AT(buf, mark.next, 80, 0, 0, 0);
    buf[80] = 9;
    printf("another ID, ");
    LIST_AT(buf, mark.next, 80, 0, 0, 0);
}

/* A table is read where it stands, and the header is not looked at. */
static void elsewhere(void)
{
    memset(buf, 0, sizeof buf);
    memcpy(buf, V, sizeof V);
    mark = (hdrfs_written){.next = sizeof V, .due = 1, .timed = 1, .last = 7, .number = 1};
    mark = hdrfs_append_table(AT_MARK, 2, ALL + 89, 44);
    printf("behind V, ");
    LIST_AT(buf, mark.next, 104, 1, 7, 1);
    memset(buf, 0, 80);
    printf("without a header, ");
    LIST_AT(buf, mark.next, 104, 1, 7, 1);
}

void try_tree(void)
{
    small_trees();
    loops();
    chains();
    bookmarks();
    elsewhere();
}
