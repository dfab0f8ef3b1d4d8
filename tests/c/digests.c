/* SHA-256 digests, of whole messages and in parts, with states that are made up, and with too little room; and pairs of volumes.
 * What is lent for writing is filled with 9s before a call, and shown or compared to its end, so that nothing else is written.
 */
#include "calls.h"

enum { STATE_LEN = 104, DIGEST_LEN = 32, FED_AT = 32, HELD_AT = 40 };

/* The words of a digest to which nothing was fed. */
static const uint32_t FIRST[8] = {
    0x6a09e667, 0xbb67ae85, 0x3c6ef372, 0xa54ff53a, 0x510e527f, 0x9b05688c, 0x1f83d9ab, 0x5be0cd19,
};

/* A state and room for a digest, each with some bytes behind it. */
static uint8_t state[STATE_LEN + 6], out[DIGEST_LEN + 8];

/* As many zeros as are taken, and one more. */
static uint8_t zeros[LIMIT + 1];

static void show_bytes(const char *name, const uint8_t *bytes, size_t len)
{
    printf("%s: ", name);
    for (size_t i = 0; i < len; i++)
        printf("%02x", bytes[i]);
    putchar('\n');
}

/* A call, what it answers, and all of what it was lent for a digest, which is filled anew. */
#define SHOW_OUT(call)                                                                                      \
    do {                                                                                                    \
        uint64_t answer = call;                                                                             \
        show(#call, &answer, sizeof answer);                                                                \
        show_bytes("out", out, sizeof out);                                                                 \
        memset(out, 9, sizeof out);                                                                         \
    } while (0)

/* A call on the state, and whether the state and the room are as they were. */
#define SHOW_KEPT(call)                                                                                     \
    do {                                                                                                    \
        uint8_t before[sizeof state], before_out[sizeof out];                                               \
        memcpy(before, state, sizeof state);                                                                \
        memcpy(before_out, out, sizeof out);                                                                \
        uint64_t answer = call;                                                                             \
        show(#call, &answer, sizeof answer);                                                                \
        int is_kept = memcmp(before, state, sizeof state) == 0 && memcmp(before_out, out, sizeof out) == 0; \
        printf("same bytes: %d\n", is_kept);                                                                \
    } while (0)

/* A state that is made up, and shown: its held bytes begin with some and go on with another one. */
static void make_state(const uint32_t *words, uint64_t fed, const uint8_t *held, size_t held_len, uint8_t rest)
{
    memset(state, 9, sizeof state);
    for (size_t i = 0; i < FED_AT; i++)
        state[i] = (uint8_t)(words[i / 4] >> 8 * (i % 4));
    for (size_t i = 0; i < 8; i++)
        state[FED_AT + i] = (uint8_t)(fed >> 8 * i);
    memset(state + HELD_AT, rest, 64);
    memcpy(state + HELD_AT, held, held_len);
    show_bytes("made up", state, sizeof state);
}

/* Messages whose digests are known, and those round the length of a block. */
static void whole_messages(void)
{
    uint8_t letters[65];
    memset(letters, 'a', sizeof letters);
    SHOW_OUT(hdrfs_sha256(NULL, 0, out, sizeof out));
    SHOW_OUT(hdrfs_sha256(TEXT("abc"), out, sizeof out));
    SHOW_OUT(hdrfs_sha256(TEXT("abcdbcdecdefdefgefghfghighijhijkijkljklmklmnlmnomnopnopq"), out, DIGEST_LEN));
    SHOW_OUT(hdrfs_sha256(letters, 55, out, sizeof out));
    SHOW_OUT(hdrfs_sha256(letters, 56, out, sizeof out));
    SHOW_OUT(hdrfs_sha256(letters, 63, out, sizeof out));
    SHOW_OUT(hdrfs_sha256(letters, 64, out, sizeof out));
    SHOW_OUT(hdrfs_sha256(letters, 65, out, sizeof out));
    SHOW_OUT(hdrfs_sha256(zeros, LIMIT, out, sizeof out));
    SHOW_OUT(hdrfs_sha256(zeros, LIMIT + 1, out, sizeof out));
    SHOW_OUT(hdrfs_sha256(V, sizeof V, out, sizeof out));
}

/* A message in parts, and what the state is on the way: bytes that were held stay until others are fed to their places. */
static void parts(void)
{
    uint8_t letters[64];
    memset(letters, 'a', sizeof letters);
    memset(state, 9, sizeof state);
    SHOW(uint64_t, hdrfs_sha256_start(state, sizeof state));
    show_bytes("state", state, sizeof state);
    SHOW(uint64_t, hdrfs_sha256_feed(state, sizeof state, TEXT("a")));
    SHOW(uint64_t, hdrfs_sha256_feed(state, sizeof state, NULL, 0));
    SHOW(uint64_t, hdrfs_sha256_feed(state, STATE_LEN, TEXT("b")));
    SHOW(uint64_t, hdrfs_sha256_feed(state, sizeof state, TEXT("c")));
    SHOW_OUT(hdrfs_sha256_finish(state, sizeof state, out, sizeof out));
    SHOW_OUT(hdrfs_sha256_finish(state, STATE_LEN, out, DIGEST_LEN));
    show_bytes("state", state, sizeof state);
    SHOW(uint64_t, hdrfs_sha256_start(state, STATE_LEN));
    SHOW(uint64_t, hdrfs_sha256_feed(state, STATE_LEN, letters, sizeof letters));
    SHOW(uint64_t, hdrfs_sha256_feed(state, STATE_LEN, TEXT("bc")));
    show_bytes("state", state, sizeof state);
}

/* Every message up to 200 bytes, cut in two at every place: the digest is that of the whole one. */
static void every_cut(void)
{
    uint8_t message[200], whole[DIGEST_LEN];
    size_t cuts = 0, others = 0;
    for (size_t i = 0; i < sizeof message; i++)
        message[i] = (uint8_t)(i * 7 + i / 3);
    for (size_t len = 0; len <= sizeof message; len++) {
        uint64_t refusals = hdrfs_sha256(message, len, whole, sizeof whole);
        for (size_t cut = 0; cut <= len; cut++, cuts++) {
            refusals += hdrfs_sha256_start(state, sizeof state);
            refusals += hdrfs_sha256_feed(state, sizeof state, message, cut);
            refusals += hdrfs_sha256_feed(state, sizeof state, message + cut, len - cut);
            refusals += hdrfs_sha256_finish(state, sizeof state, out, sizeof out);
            others += refusals != 0 || memcmp(out, whole, sizeof whole) != 0;
        }
    }
    printf("%zu cuts, other digests: %zu\n", cuts, others);
    memset(out, 9, sizeof out);
}

/* A state that is made up is taken as it is: only the held bytes that are in use count. */
static void made_up(void)
{
    static const uint32_t none[8];
    make_state(none, 3, TEXT("abc"), 0);
    SHOW_OUT(hdrfs_sha256_finish(state, sizeof state, out, sizeof out));
    make_state(none, 3, TEXT("abc"), 255);
    SHOW_OUT(hdrfs_sha256_finish(state, sizeof state, out, sizeof out));
    make_state(FIRST, 67, TEXT("abc"), 255);
    SHOW_OUT(hdrfs_sha256_finish(state, sizeof state, out, sizeof out));
    SHOW(uint64_t, hdrfs_sha256_feed(state, sizeof state, TEXT("d")));
    show_bytes("state", state, sizeof state);
}

/* The highest number of bytes, and numbers above it, at which even nothing cannot be fed. */
static void at_the_limit(void)
{
    make_state(FIRST, LIMIT, TEXT(""), 7);
    SHOW_KEPT(hdrfs_sha256_feed(state, sizeof state, NULL, 0));
    SHOW_KEPT(hdrfs_sha256_feed(state, sizeof state, TEXT("a")));
    SHOW_OUT(hdrfs_sha256_finish(state, sizeof state, out, sizeof out));
    make_state(FIRST, LIMIT - 1, TEXT(""), 7);
    SHOW_KEPT(hdrfs_sha256_feed(state, sizeof state, TEXT("ab")));
    SHOW_KEPT(hdrfs_sha256_feed(state, sizeof state, zeros, LIMIT + 1));
    make_state(FIRST, LIMIT + 1, TEXT(""), 7);
    SHOW_KEPT(hdrfs_sha256_feed(state, sizeof state, NULL, 0));
    SHOW_KEPT(hdrfs_sha256_finish(state, sizeof state, out, sizeof out));
    make_state(FIRST, TOP, TEXT(""), 7);
    SHOW_KEPT(hdrfs_sha256_feed(state, sizeof state, NULL, 0));
    SHOW_KEPT(hdrfs_sha256_feed(state, sizeof state, TEXT("a")));
    SHOW_KEPT(hdrfs_sha256_finish(state, sizeof state, out, sizeof out));
}

/* Too little room: that of the state is judged first, then the number of bytes, then the room for the digest. */
static void rooms(void)
{
    SHOW_KEPT(hdrfs_sha256_start(state, STATE_LEN - 1));
    SHOW_KEPT(hdrfs_sha256_start(NULL, 0));
    SHOW_KEPT(hdrfs_sha256_feed(state, STATE_LEN - 1, TEXT("a")));
    SHOW_KEPT(hdrfs_sha256_feed(NULL, 0, NULL, 0));
    SHOW_KEPT(hdrfs_sha256_finish(state, STATE_LEN - 1, out, DIGEST_LEN - 1));
    SHOW_KEPT(hdrfs_sha256_finish(state, STATE_LEN, out, DIGEST_LEN - 1));
    SHOW_KEPT(hdrfs_sha256(zeros, LIMIT + 1, out, DIGEST_LEN - 1));
    SHOW_KEPT(hdrfs_sha256(TEXT("abc"), out, DIGEST_LEN - 1));
    SHOW_KEPT(hdrfs_sha256(NULL, 0, NULL, 0));
    make_state(FIRST, 3, TEXT("abc"), 7);
    SHOW_KEPT(hdrfs_sha256_finish(state, STATE_LEN, out, DIGEST_LEN - 1));
    SHOW_KEPT(hdrfs_sha256_finish(state, STATE_LEN, NULL, 0));
}

/* A volume of 93 bytes: a header and an empty table. */
static uint8_t second[93];

static void make_second(const uint8_t *id, uint64_t sequence, const uint8_t *previous)
{
    hdrfs_written mark = hdrfs_write_header(second, sizeof second, id, 16, sequence, previous, 32);
    hdrfs_append_table(second, sizeof second, mark.next, mark.due, mark.timed, mark.last, mark.number, 0, NULL, 0);
}

static void show_pair(const char *row, const uint8_t *first, size_t first_len, const uint8_t *next, size_t next_len)
{
    hdrfs_paired answer = hdrfs_pair(first, first_len, next, next_len);
    show(row, &answer, sizeof answer);
}

#define PAIR(row, first, next) show_pair("pair, " row, first, sizeof first, next, sizeof next)

/* A volume that follows, and for each reason one that does not. Behind the highest number there is none. */
static void pairs(void)
{
    uint8_t id[16], digest[DIGEST_LEN], highest[sizeof second];
    memcpy(id, V + 18, sizeof id);
    hdrfs_sha256(V, sizeof V, digest, sizeof digest);
    make_second(id, TOP, digest);
    memcpy(highest, second, sizeof highest);
    make_second(id, 1, digest);
    PAIR("the next one", V, second);
    PAIR("the same twice", V, V);
    PAIR("exchanged", second, V);
    PAIR("0 behind the highest number", highest, V);
    PAIR("the highest number twice", highest, highest);
    PAIR("some other hash", V, ALL);
    make_second(id, 2, digest);
    PAIR("number 2", V, second);
    digest[31] ^= 1;
    make_second(id, 1, digest);
    PAIR("one byte of the hash", V, second);
    digest[31] ^= 1;
    id[15] ^= 1;
    make_second(id, 1, digest);
    PAIR("one byte of the ID", V, second);
}

/* Volumes that are refused by themselves: the first one's fault is told, and else the second's. */
static void refused_pairs(void)
{
    uint8_t damaged[sizeof V], digest[DIGEST_LEN], bad_text[sizeof ALL];
    memcpy(damaged, V, sizeof V);
    damaged[98] ^= 1;
    hdrfs_sha256(V, sizeof V, digest, sizeof digest);
    make_second(V + 18, 1, digest);
    second[0] ^= 1;
    PAIR("payload and magic", damaged, second);
    PAIR("magic of the second", V, second);
    PAIR("magic and payload", second, damaged);
    PAIR("payload of the second", ALL, damaged);
    show_pair("pair, the second cut", V, sizeof V, ALL, sizeof ALL - 1);
    show_pair("pair, too long and nothing", zeros, LIMIT + 1, NULL, 0);
    show_pair("pair, too long behind a sound one", V, sizeof V, zeros, LIMIT + 1);
    show_pair("pair, nothing behind a sound one", V, sizeof V, NULL, 0);
    show_pair("pair, nothing twice", NULL, 0, NULL, 0);
    /* A rename whose new path ends in a byte that no text has, and the checksum that goes with it. */
    memcpy(bad_text, ALL, sizeof ALL);
    memcpy(bad_text + sizeof ALL - 5, "\xff\xf3\xf1\xcb\x89", 5);
    PAIR("text of the first", bad_text, second);
    PAIR("text of the second", V, bad_text);
}

/* A volume whose file system ID is all zeros, and the one that follows it. */
static void pair_without_id(void)
{
    uint8_t first[104], digest[DIGEST_LEN];
    hdrfs_written mark = hdrfs_write_header(first, sizeof first, zeros, 16, 0, zeros, 32);
    hdrfs_append_data(first, sizeof first, mark.next, mark.due, mark.timed, mark.last, mark.number, 7, TEXT("1,5"));
    hdrfs_sha256(first, sizeof first, digest, sizeof digest);
    show_bytes("digest", digest, sizeof digest);
    make_second(zeros, 1, digest);
    PAIR("ID of zeros", first, second);
}

void try_digests(void)
{
    memset(state, 9, sizeof state);
    memset(out, 9, sizeof out);
    whole_messages();
    parts();
    every_cut();
    made_up();
    at_the_limit();
    rooms();
    pairs();
    refused_pairs();
    pair_without_id();
}
