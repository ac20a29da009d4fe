/*
 * The library from C: each call once on its happy path and once for each number that it answers, and all again with each request for memory
 * refused in turn. What is expected is typed from docs/RULES.md and docs/FORMATS.md.
 *
 * It is linked with -Wl,--wrap=malloc,--wrap=realloc,--wrap=free, so that the library's requests for memory come here first.
 */
#include "onu.h"

#include <stdio.h>
#include <stdlib.h>
#include <string.h>

#define CHECK(holds) check((holds), #holds, __LINE__)

static unsigned checked, failed;

static void check(bool holds, const char *text, int line) {
    checked++;
    if (holds)
        return;
    failed++;
    printf("FAILED: library_test.c:%d: %s\n", line, text);
}

/* ---- memory: the request of the number `refused`, from 1, is refused; `blocks` are held */

static unsigned long requests, refused;
static long blocks;

void *__real_malloc(size_t size);
void *__real_realloc(void *block, size_t size);
void __real_free(void *block);
void *__wrap_malloc(size_t size);
void *__wrap_realloc(void *block, size_t size);
void __wrap_free(void *block);

void *__wrap_malloc(size_t size) {
    void *block = ++requests == refused ? NULL : __real_malloc(size);
    blocks += block != NULL;
    return block;
}

void *__wrap_realloc(void *block, size_t size) {
    return ++requests == refused ? NULL : __real_realloc(block, size);
}

void __wrap_free(void *block) {
    blocks -= block != NULL;
    __real_free(block);
}

/* Counts requests anew, and refuses one of them, or none with 0. */
static void refuse(unsigned long number) {
    requests = 0;
    refused = number;
}

/* ---- bytes by their hexadecimal digits */

static uint8_t bytes[20000];

static size_t put_hex(const char *digits, uint8_t *room) {
    size_t n = 0;
    while (*digits != 0) {
        char pair[3] = {digits[0], digits[1], 0};
        if (*digits == ' ') {
            digits++;
            continue;
        }
        room[n++] = (uint8_t)strtoul(pair, NULL, 16);
        digits += 2;
    }
    return n;
}

/* A message of 48 bytes: these, zeros up to byte 40, and a trailer. */
static const uint8_t *message_of(const char *digits) {
    memset(bytes, 0, 48);
    put_hex(digits, bytes);
    bytes[43] = 0x28;
    return bytes;
}

static bool are_hex(const uint8_t *room, size_t n, const char *digits) {
    uint8_t expected[20000];
    return put_hex(digits, expected) == n && memcmp(room, expected, n) == 0;
}

/* ---- what is sent */

#define AD "020000000001020000000002"
#define U AD "08004500"

/* Create a GEM port, an interworking point, a mapper of port 257 and its table. */
static const char *const set_up[] = {
    "0001440a010c0401 0400 8001 03 00",
    "0002440a010a0501 0401 05 0601",
    "0003440a00820601 0101 0501050105010501 0501050105010501 01 0001",
    "0004440a00ab0701 02 0101",
};

/* Entries of the table: no tag becomes VID 100; VID 100 becomes VID 200. */
#define TO_100 "0005480a00ab0701 0400 f8000000f8000000 000f000000000324"
#define TO_200 "0006480a00ab0701 0400 f800000080320000 400f000000080644"

/* The entry for no tag, deleted, and set again to VID 200; frames of one tag are dropped; and the table's input TPID becomes 0x9100. */
#define DELETED "0006480a00ab0701 0400 f8000000f8000000 ffffffffffffffff"
#define TO_200_AGAIN "0007480a00ab0701 0400 f8000000f8000000 000f000000000644"
#define ONE_TAG_DROPPED "0005480a00ab0701 0400 f8000000e8000000 c00f0000000f0000"
#define INPUT_9100 "0006480a00ab0701 2000 9100"
/* The mapper's pointer for priority 5 becomes one to nothing. */
#define POINTER_5 "0006480a00820601 0200 0599"

/* The digits of a message and of its trailer, as a line of a script or of a history spells them. */
static void put_line(char *text, const char *front, const char *digits) {
    char line[128];
    size_t n = 0;
    for (; *digits != 0; digits++)
        if (*digits != ' ')
            line[n++] = *digits;
    while (n < 80)
        line[n++] = '0';
    line[n] = 0;
    sprintf(text + strlen(text), "%s %s0000002800000000\n", front, line);
}

/* The number that a message is answered by, with the digits of the reply if there is one. */
static int32_t send_message(onu *cell, const char *digits, const char *reply) {
    uint8_t room[48 + 2];
    memset(room, 0xee, sizeof room);
    int32_t number = onu_message(cell, message_of(digits), 48, room + 1);
    CHECK(room[0] == 0xee && room[49] == 0xee);
    if (number == 1 && reply != NULL) {
        CHECK(memcmp(room + 1, message_of(reply), 48) == 0);
    } else if (number != 1) {
        for (int i = 0; i < 50; i++)
            CHECK(room[i] == 0xee);
    }
    return number;
}

static void open_set_up(onu *cell) {
    static const char *const replies[] = {"0001240a010c0401", "0002240a010a0501", "0003240a00820601", "0004240a00ab0701"};
    CHECK(onu_open(cell) == 0);
    for (int i = 0; i < 4; i++)
        CHECK(send_message(cell, set_up[i], replies[i]) == 1);
}

/* Whether a frame leaves port 257 by GEM port 1024 with these bytes. */
static bool leaves(onu *cell, const char *digits, const char *leaving) {
    uint8_t frame[2000], left[2000];
    size_t n = put_hex(digits, frame), m = 12;
    onu_verdict said;
    if (onu_forward(cell, 257, frame, n, &said) != 1 || said.gem != 1024 || said.reason != 0 || said.count > 4 || said.rest > n)
        return false;
    memcpy(left, frame, 12);
    for (int i = 0; i < said.count; i++)
        for (int shift = 24; shift >= 0; shift -= 8)
            left[m++] = (uint8_t)(said.tags[i] >> shift);
    for (int i = said.count; i < 4; i++)
        if (said.tags[i] != 0)
            return false;
    memcpy(left + m, frame + said.rest, n - said.rest);
    return are_hex(left, m + n - said.rest, leaving);
}

/* The reason for which a frame into port 257 is dropped; 0 where it leaves. */
static int dropped(onu *cell, const char *digits) {
    uint8_t frame[2000];
    size_t n = put_hex(digits, frame);
    onu_verdict said;
    if (onu_forward(cell, 257, frame, n, &said) != 0)
        return 0;
    CHECK(said.gem == 0 && said.count == 0 && said.rest == 0 && said.tags[0] == 0 && said.tags[3] == 0);
    return said.reason;
}

/* ---- calls over texts */

typedef int32_t make_call(const uint8_t *text, size_t n, uint8_t *room, size_t size, size_t *written);
typedef int32_t look_call(const uint8_t *text, size_t n, uint8_t *room, size_t size, size_t *written, uint64_t *line);

static int32_t encode_from_1(const uint8_t *text, size_t n, uint8_t *room, size_t size, size_t *written) {
    return onu_encode(text, n, 1, room, size, written);
}

static int32_t rules_at_257(const uint8_t *text, size_t n, uint8_t *room, size_t size, size_t *written, uint64_t *line) {
    return onu_rules(text, n, 257, room, size, written, line);
}

static int32_t cover_named(const uint8_t *text, size_t n, uint8_t *room, size_t size, size_t *written, uint64_t *line) {
    return onu_cover(text, n, NULL, 0, room, size, written, line);
}

static int32_t differences_from_0(const uint8_t *text, size_t n, uint8_t *room, size_t size, size_t *written, uint64_t *line) {
    return onu_differences(text, n, 0, NULL, 0, ONU_AT_END, NULL, 0, room, size, written, line);
}

static int32_t differences_of_same(const uint8_t *text, size_t n, uint8_t *room, size_t size, size_t *written, uint64_t *line) {
    return onu_differences(text, n, ONU_AT_END, text, n, ONU_AT_END, NULL, 0, room, size, written, line);
}

static int32_t hitless_from_0(const uint8_t *text, size_t n, uint8_t *room, size_t size, size_t *written, uint64_t *line) {
    return onu_hitless(text, n, 0, ONU_AT_END, NULL, 0, room, size, written, line);
}

/* What is expected of the frames that come in at port 257: that each leaves, by the last version; and something with mistakes. */
#define LEAVE "257 any -> leave\n"
#define MISTAKEN "257 tags=1 vid=5000 -> leave\n\n257 any -> laeve\n"

static int32_t expect_leaving(const uint8_t *text, size_t n, uint8_t *room, size_t size, size_t *written, uint64_t *line) {
    return onu_expect(text, n, (const uint8_t *)LEAVE, strlen(LEAVE), ONU_AT_END, ONU_AT_END, 0, room, size, written, line);
}

static int32_t expect_from_0(const uint8_t *text, size_t n, uint8_t *room, size_t size, size_t *written, uint64_t *line) {
    return onu_expect(text, n, (const uint8_t *)LEAVE, strlen(LEAVE), 0, ONU_AT_END, 0, room, size, written, line);
}

static int32_t expect_mistaken(const uint8_t *text, size_t n, uint8_t *room, size_t size, size_t *written, uint64_t *line) {
    return onu_expect(text, n, (const uint8_t *)MISTAKEN, strlen(MISTAKEN), ONU_AT_END, ONU_AT_END, 0, room, size, written, line);
}

static make_call *const makes[] = {encode_from_1, onu_decode};
static look_call *const looks[] = {onu_mib,        onu_lint,      rules_at_257,   cover_named, differences_from_0, differences_of_same,
                                   hitless_from_0, expect_leaving, expect_from_0, expect_mistaken};
enum { LOOKS = sizeof looks / sizeof looks[0] };

/* ---- tests */

static void null_pointers_are_answered(void) {
    onu cell = ONU_CELL;
    uint8_t room[64] = {0};
    size_t written = 7;
    uint64_t line = 7;
    onu_verdict said;
    CHECK(onu_open(NULL) == ONU_NULL && onu_close(NULL) == ONU_NULL);
    CHECK(onu_open(&cell) == 0);
    CHECK(onu_message(NULL, room, 48, room) == ONU_NULL);
    CHECK(onu_message(&cell, NULL, 48, room) == ONU_NULL);
    CHECK(onu_message(&cell, room, 48, NULL) == ONU_NULL);
    CHECK(onu_forward(NULL, 257, room, 14, &said) == ONU_NULL);
    CHECK(onu_forward(&cell, 257, NULL, 14, &said) == ONU_NULL);
    CHECK(onu_forward(&cell, 257, room, 14, NULL) == ONU_NULL);
    CHECK(onu_explain(NULL, 257, room, 14, room + 20, 9, &written) == ONU_NULL);
    CHECK(onu_explain(&cell, 257, NULL, 14, room + 20, 9, &written) == ONU_NULL);
    CHECK(onu_explain(&cell, 257, room, 14, NULL, 9, &written) == ONU_NULL);
    CHECK(onu_explain(&cell, 257, room, 14, room + 20, 9, NULL) == ONU_NULL);
    CHECK(onu_replay(NULL, 9, room, 64, &written, &line) == ONU_NULL);
    CHECK(onu_replay(room, 9, NULL, 64, &written, &line) == ONU_NULL);
    CHECK(onu_replay(room, 9, room + 20, 40, NULL, &line) == ONU_NULL);
    CHECK(onu_replay(room, 9, room + 20, 40, &written, NULL) == ONU_NULL);
    CHECK(onu_judge(NULL, 9, 0, room, 64, &written, &line) == ONU_NULL);
    CHECK(onu_judge(room, 9, 0, NULL, 64, &written, &line) == ONU_NULL);
    CHECK(onu_judge(room, 9, 0, room + 20, 40, NULL, &line) == ONU_NULL);
    CHECK(onu_judge(room, 9, 0, room + 20, 40, &written, NULL) == ONU_NULL);
    CHECK(onu_judge_all(NULL, 9, room, 9, 0, 1, room + 20, 40, &written, &line) == ONU_NULL);
    CHECK(onu_judge_all(room, 9, NULL, 9, 0, 1, room + 20, 40, &written, &line) == ONU_NULL);
    CHECK(onu_judge_all(room, 9, room, 9, 0, 1, NULL, 40, &written, &line) == ONU_NULL);
    CHECK(onu_judge_all(room, 9, room, 9, 0, 1, room + 20, 40, NULL, &line) == ONU_NULL);
    CHECK(onu_judge_all(room, 9, room, 9, 0, 1, room + 20, 40, &written, NULL) == ONU_NULL);
    CHECK(onu_judge_coverage(NULL, 9, room, 9, 0, 0, 0, room + 20, 40, &written, &line) == ONU_NULL);
    CHECK(onu_judge_coverage(room, 9, NULL, 9, 0, 0, 0, room + 20, 40, &written, &line) == ONU_NULL);
    CHECK(onu_judge_coverage(room, 9, room, 9, 0, 0, 0, NULL, 40, &written, &line) == ONU_NULL);
    CHECK(onu_judge_coverage(room, 9, room, 9, 0, 0, 0, room + 20, 40, NULL, &line) == ONU_NULL);
    CHECK(onu_judge_coverage(room, 9, room, 9, 0, 0, 0, room + 20, 40, &written, NULL) == ONU_NULL);
    for (int i = 0; i < 2; i++) {
        CHECK(makes[i](NULL, 9, room, 64, &written) == ONU_NULL);
        CHECK(makes[i](room, 9, NULL, 64, &written) == ONU_NULL);
        CHECK(makes[i](room, 9, room + 20, 40, NULL) == ONU_NULL);
    }
    for (int i = 0; i < LOOKS; i++) {
        CHECK(looks[i](NULL, 9, room, 64, &written, &line) == ONU_NULL);
        CHECK(looks[i](room, 9, NULL, 64, &written, &line) == ONU_NULL);
        CHECK(looks[i](room, 9, room + 20, 40, NULL, &line) == ONU_NULL);
        CHECK(looks[i](room, 9, room + 20, 40, &written, NULL) == ONU_NULL);
    }
    /* A trace after a change that isn't there has no bytes. */
    CHECK(onu_differences(room, 9, 0, NULL, 9, 0, NULL, 0, room + 20, 40, &written, &line) == ONU_NULL);
    CHECK(onu_differences(NULL, 9, 0, room, 9, 0, NULL, 0, room + 20, 40, &written, &line) == ONU_NULL);
    CHECK(onu_expect(room, 9, NULL, 9, 0, 0, 0, room + 20, 40, &written, &line) == ONU_NULL);
    CHECK(written == 7 && line == 7);
    for (size_t i = 0; i < sizeof room; i++)
        CHECK(room[i] == 0);
    CHECK(onu_close(&cell) == 0);
}

/* No bytes have no address: an empty message, frame, script and history, and a room of no bytes. */
static void no_bytes_may_be_null(void) {
    onu cell = ONU_CELL;
    uint8_t room[400];
    size_t written = 0;
    uint64_t line = 7;
    onu_verdict said;
    CHECK(onu_open(&cell) == 0);
    CHECK(onu_message(&cell, NULL, 0, room) == -1);
    CHECK(onu_forward(&cell, 257, NULL, 0, &said) == 0 && said.reason == 1);
    CHECK(onu_explain(&cell, 257, NULL, 0, NULL, 0, &written) == ONU_SMALL && written > 0);
    CHECK(onu_replay(NULL, 0, NULL, 0, &written, &line) == 0 && written == 0 && line == 0);
    CHECK(onu_judge(NULL, 0, 0, room, sizeof room, &written, &line) == 2 && line == 0);
    written = line = 7;
    CHECK(onu_judge_all(NULL, 0, NULL, 0, 0, 1, NULL, 0, &written, &line) == ONU_SMALL && written > 7 && line == 0);
    written = line = 7;
    CHECK(onu_judge_coverage(NULL, 0, NULL, 0, 0, 0, 0, NULL, 0, &written, &line) == ONU_SMALL && written > 7 && line == 0);
    for (int i = 0; i < 2; i++) {
        written = 7;
        CHECK(makes[i](NULL, 0, NULL, 0, &written) == 0 && written == 0);
    }
    for (int i = 0; i < LOOKS; i++) {
        written = line = 7;
        CHECK(looks[i](NULL, 0, NULL, 0, &written, &line) == ONU_SMALL && written > 7 && line == 0);
    }
    written = line = 7;
    CHECK(onu_expect(NULL, 0, NULL, 0, 0, 0, 0, NULL, 0, &written, &line) == ONU_SMALL && written > 7 && line == 0);
    CHECK(onu_close(&cell) == 0);
}

static void a_closed_cell_is_answered(void) {
    onu cell = ONU_CELL;
    uint8_t room[64];
    size_t written = 7;
    onu_verdict said;
    for (int round = 0; round < 2; round++) {
        memset(room, 0xee, sizeof room);
        memset(&said, 0xee, sizeof said);
        CHECK(onu_close(&cell) == ONU_CLOSED);
        CHECK(onu_message(&cell, message_of(set_up[0]), 48, room) == ONU_CLOSED);
        CHECK(onu_forward(&cell, 257, bytes, 48, &said) == ONU_CLOSED);
        CHECK(onu_explain(&cell, 257, bytes, 48, room, sizeof room, &written) == ONU_CLOSED);
        CHECK(written == 7 && room[0] == 0xee && room[63] == 0xee && said.gem == 0xeeee && said.rest == (size_t)0xeeeeeeeeeeeeeeeeu);
        /* And once more behind a unit. */
        if (round == 0)
            CHECK(onu_open(&cell) == 0 && onu_close(&cell) == 0);
    }
}

static void a_cell_is_opened_once(void) {
    onu cell = ONU_CELL;
    open_set_up(&cell);
    CHECK(onu_open(&cell) == ONU_OPEN);
    CHECK(leaves(&cell, U, U));
    CHECK(onu_close(&cell) == 0);
    /* What is opened again is new: the port has no mapper. */
    CHECK(onu_open(&cell) == 0);
    CHECK(dropped(&cell, U) == 5);
    CHECK(onu_close(&cell) == 0);
}

static void messages_are_answered(void) {
    onu cell = ONU_CELL;
    uint8_t reply[48];
    open_set_up(&cell);
    /* It exists: result 7. The sync, attribute 1 of ONU data: four were accepted. */
    CHECK(send_message(&cell, set_up[0], "0001240a010c0401 07") == 1);
    CHECK(send_message(&cell, "0009490a00020000 8000", "0009290a00020000 00 8000 04") == 1);
    /* 44 bytes are a message as well, and are answered by 48. */
    memset(reply, 0xee, sizeof reply);
    CHECK(onu_message(&cell, message_of("0009490a00020000 8000"), 44, reply) == 1);
    CHECK(memcmp(reply, message_of("0009290a00020000 00 8000 04"), 48) == 0);
    /* No answer is wanted, and the request is carried out: the sync is 5 then. */
    CHECK(send_message(&cell, "0005080a00ab0701 0400 f8000000f8000000 000f000000000324", NULL) == 0);
    CHECK(send_message(&cell, "0009490a00020000 8000", "0009290a00020000 00 8000 05") == 1);
    CHECK(leaves(&cell, U, AD "81000064 08004500"));
    /* Faults, of which none is carried out. */
    CHECK(onu_message(&cell, message_of(set_up[0]), 47, reply) == -1);
    CHECK(send_message(&cell, "0001c40a010c0402", NULL) == -2);
    CHECK(send_message(&cell, "0001640a010c0402", NULL) == -3);
    CHECK(send_message(&cell, "0001440b010c0402", NULL) == -4);
    CHECK(send_message(&cell, "0009490a00020000 8000", "0009290a00020000 00 8000 05") == 1);
    CHECK(onu_close(&cell) == 0);
}

static void frames_are_forwarded(void) {
    onu cell = ONU_CELL;
    open_set_up(&cell);
    /* By the entries that a new table has, each frame leaves as it came. */
    CHECK(leaves(&cell, U, U));
    CHECK(leaves(&cell, AD "8100a064 08004500", AD "8100a064 08004500"));
    CHECK(leaves(&cell, AD "88a80064 810000c8 08004500", AD "88a80064 810000c8 08004500"));
    CHECK(leaves(&cell, AD "0800", AD "0800"));
    CHECK(dropped(&cell, AD "08") == 1);
    CHECK(dropped(&cell, AD "8100") == 2 && dropped(&cell, AD "81000064 8100") == 2);
    /* A tag is added, and one takes the place of another. */
    CHECK(send_message(&cell, TO_100, "0005280a00ab0701") == 1);
    CHECK(leaves(&cell, U, AD "81000064 08004500"));
    CHECK(send_message(&cell, TO_200, "0006280a00ab0701") == 1);
    CHECK(leaves(&cell, AD "8100a064 08004500", AD "8100a0c8 08004500"));
    /* Both tags go, and what looks like a third belongs to the rest. */
    CHECK(send_message(&cell, "0007480a00ab0701 0400 8800000088000000 800f0000000f0000", "0007280a00ab0701") == 1);
    CHECK(leaves(&cell, AD "88a80064 810000c8 8100e12c 08004500", AD "8100e12c 08004500"));
    /* The discarding entry for two tags, and then no entry for them. */
    CHECK(send_message(&cell, "0008480a00ab0701 0400 8800000088000000 ffffffffffffffff", "0008280a00ab0701") == 1);
    CHECK(send_message(&cell, "0009480a00ab0701 0400 e0000000e0000000 c00f0000000f0000", "0009280a00ab0701") == 1);
    CHECK(dropped(&cell, AD "88a80064 810000c8 08004500") == 4);
    CHECK(send_message(&cell, "000a480a00ab0701 0400 e0000000e0000000 ffffffffffffffff", "000a280a00ab0701") == 1);
    CHECK(dropped(&cell, AD "88a80064 810000c8 08004500") == 3);
    /* Another port has no table and no mapper. */
    onu_verdict said;
    size_t n = put_hex(U, bytes);
    CHECK(onu_forward(&cell, 258, bytes, n, &said) == 0 && said.reason == 5);
    CHECK(onu_close(&cell) == 0);
}

static void a_frame_is_explained(void) {
    static uint8_t room[8192], other[8192];
    onu cell = ONU_CELL;
    size_t written = 0, needed = 0;
    open_set_up(&cell);
    CHECK(send_message(&cell, TO_100, NULL) == 1);
    size_t n = put_hex(U, bytes);
    memset(room, 0xee, sizeof room);
    CHECK(onu_explain(&cell, 257, bytes, n, room, sizeof room - 1, &written) == 0 && written < sizeof room - 1);
    CHECK(room[written] == 0xee);
    room[written] = 0;
    CHECK(strstr((char *)room, "\"step\":\"table\"") != NULL);
    CHECK(strstr((char *)room, "\"answer\":\"g 1024 " AD "8100006408004500\"") != NULL);
    /* In a room of just its size, and in one that is a byte too small. */
    memset(other, 0xee, sizeof other);
    CHECK(onu_explain(&cell, 257, bytes, n, other, written, &needed) == 0 && needed == written);
    CHECK(memcmp(other, room, written) == 0 && other[written] == 0xee);
    memset(other, 0xee, sizeof other);
    CHECK(onu_explain(&cell, 257, bytes, n, other, written - 1, &needed) == ONU_SMALL && needed == written);
    for (size_t i = 0; i <= written; i++)
        CHECK(other[i] == 0xee);
    CHECK(leaves(&cell, U, AD "81000064 08004500"));
    CHECK(onu_close(&cell) == 0);
}

/* A script with its answers, as docs/FORMATS.md has them. */
static void put_script(char *script, char *answers) {
    static const char *const replies[] = {"0001240a010c0401", "0002240a010a0501", "0003240a00820601", "0004240a00ab0701"};
    script[0] = answers[0] = 0;
    for (int i = 0; i < 4; i++) {
        put_line(script, "o", set_up[i]);
        put_line(answers, "r", replies[i]);
    }
    put_line(script, "o", "0005080a00ab0701 0400 f8000000f8000000 000f000000000324");
    strcat(answers, "-\n");
    strcat(script, "f 257 " U "\nf 258 " U "\n# nothing\n");
    strcat(answers, "g 1024 " AD "8100006408004500\nd 5\n");
}

static void a_script_is_answered(void) {
    static char script[4096], answers[4096];
    static uint8_t room[4096];
    size_t written = 0;
    uint64_t line = 7;
    put_script(script, answers);
    size_t n = strlen(answers);
    memset(room, 0xee, sizeof room);
    CHECK(onu_replay((uint8_t *)script, strlen(script), room, n, &written, &line) == 0);
    CHECK(written == n && line == 0 && memcmp(room, answers, n) == 0 && room[n] == 0xee);
    memset(room, 0xee, sizeof room);
    CHECK(onu_replay((uint8_t *)script, strlen(script), room, n - 1, &written, &line) == ONU_SMALL && written == n && line == 0);
    for (size_t i = 0; i <= n; i++)
        CHECK(room[i] == 0xee);
    /* A bad line: the answers to those before it are there. */
    strcat(script, "x\nf 257 " U "\n");
    CHECK(onu_replay((uint8_t *)script, strlen(script), room, sizeof room, &written, &line) == ONU_BAD_LINE);
    CHECK(line == 9 && written == n && memcmp(room, answers, n) == 0 && room[n] == 0xee);
    CHECK(onu_replay((uint8_t *)script, strlen(script), room, n - 1, &written, &line) == ONU_SMALL && line == 9);
}

/* The set-up with its replies, and then a table that is filled while frames are sent. */
static void put_history(char *history, const char *seen) {
    static const char *const replies[] = {"0001240a010c0401", "0002240a010a0501", "0003240a00820601", "0004240a00ab0701"};
    history[0] = 0;
    for (int i = 0; i < 4; i++) {
        put_line(history, "o", set_up[i]);
        put_line(history, "r", replies[i]);
    }
    put_line(history, "o", TO_100);
    strcat(history, "f 257 " U "\nf 257 " U "\n");
    strcat(history, seen);
}

/* Whether a text is another but for white space. */
static bool says(const uint8_t *text, size_t n, const char *expected) {
    for (size_t i = 0; i < n; i++)
        if (text[i] != '\n' && text[i] != ' ' && text[i] != (uint8_t)*expected++)
            return false;
    return *expected == 0;
}

/* How a history is judged by flags, with its line. */
static int32_t judged(const char *history, uint32_t flags, uint64_t *line) {
    static uint8_t room[4096];
    size_t written = 0;
    return onu_judge((const uint8_t *)history, strlen(history), flags, room, sizeof room, &written, line);
}

/* Whether a history deviates at a line, and is explained with a flag. */
static bool is_for(uint32_t flag, const char *history, uint64_t deviation) {
    uint64_t line = 7;
    if (judged(history, ~flag & 63, &line) != 0 || line != deviation || judged(history, 0, &line) != 0 || line != deviation)
        return false;
    return judged(history, flag, &line) == 1 && line == 0;
}

static void a_history_is_judged(void) {
    static char history[4096];
    static uint8_t room[4096];
    size_t written = 0, needed = 0;
    uint64_t line = 7;
    CHECK(onu_judge(bytes, 0, 0, room, sizeof room, &written, &line) == 2 && line == 0);
    CHECK(says(room, written, "{\"format\":2,\"explained\":false,\"finished\":false,\"evidence\":false,\"messages\":0,\"accepted\":0,"
                              "\"replies\":0,\"frames\":{\"forwarded\":0,\"dropped\":0,\"open\":0,\"strays\":0,\"doubtful\":0,"
                              "\"lost\":0,\"cut\":0},\"versions\":[]}"));
    /* The first frame has the new tag, and the second hasn't: no right unit goes back. */
    put_history(history, "g 0 1024 " AD "8100006408004500\ng 1 1024 " U "\ne\n");
    memset(room, 0xee, sizeof room);
    CHECK(onu_judge((uint8_t *)history, strlen(history), 0, room, sizeof room, &written, &line) == 0 && line == 13);
    CHECK(says(room, written, "{\"format\":2,\"explained\":false,\"line\":13,\"frame\":{\"number\":1,\"port\":257,\"sent_line\":11,"
                              "\"seen\":{\"gem\":1024,\"frame\":\"" U "\"},\"at_least\":5,\"at_most\":5,\"versions\":["
                              "{\"from\":5,\"to\":5,\"gem\":1024,\"frame\":\"" AD "8100006408004500\"}]}}"));
    CHECK(room[written] == 0xee);
    memset(room, 0xee, sizeof room);
    CHECK(onu_judge((uint8_t *)history, strlen(history), 0, room, written - 1, &needed, &line) == ONU_SMALL && line == 13);
    CHECK(needed == written && room[0] == 0xee && room[written - 1] == 0xee);
    /* Each frame by itself, it is right. */
    CHECK(is_for(ONU_UNORDERED, history, 13));
    needed = line = 7;
    CHECK(onu_judge((uint8_t *)history, strlen(history), 64, room, sizeof room, &needed, &line) == ONU_FLAGS && needed == 7 && line == 7);
    CHECK(judged(history, 65, &line) == ONU_FLAGS && judged(history, UINT32_MAX, &line) == ONU_FLAGS && line == 7);
    /* A frame leaves again. */
    put_history(history, "g 0 1024 " U "\ns 1024 " U "\ne\n");
    CHECK(is_for(ONU_ALLOW_STRAYS, history, 13));
    /* A frame has zeros behind it: it is padded. */
    put_history(history, "g 0 1024 " U "0000\ne\n");
    CHECK(is_for(ONU_PADDED, history, 12));
    /* No line ends it. */
    put_history(history, "g 0 1024 " U "\n");
    CHECK(judged(history, 0, &line) == 2 && line == 0 && judged(history, ~ONU_ALLOW_UNFINISHED & 63, &line) == 2);
    CHECK(judged(history, ONU_ALLOW_UNFINISHED, &line) == 1 && line == 0);
    /* Frames were sent, and nothing is said of them. */
    put_history(history, "e\n");
    CHECK(judged(history, 0, &line) == 2 && judged(history, 63, &line) == 2 && line == 0);
    /* A class that the model has not: its reply is compared but where asked for modelled classes alone. */
    history[0] = 0;
    put_line(history, "o", "0001440a002d0001");
    put_line(history, "r", "0001240a002d0001");
    strcat(history, "e\n");
    CHECK(is_for(ONU_MODELLED, history, 2));
    /* A message and its reply stand twice. */
    history[0] = 0;
    for (int i = 0; i < 2; i++) {
        put_line(history, "o", set_up[0]);
        put_line(history, "r", "0001240a010c0401");
    }
    strcat(history, "e\n");
    CHECK(is_for(ONU_REPEATS, history, 4));
    /* A frame that nobody sent. */
    strcpy(history, "# nothing\ng 0 1 00\n");
    CHECK(onu_judge((uint8_t *)history, strlen(history), 0, room, sizeof room, &written, &line) == ONU_BAD_LINE && line == 2 && written == 0);
}

/* How a history is judged behind a script, with its line and its text. */
static int32_t judged_behind(const char *start, const char *history, uint32_t flags, uint64_t most, const char *text, uint64_t *line) {
    static uint8_t room[4096];
    size_t written = 0;
    int32_t number = onu_judge_all((const uint8_t *)start, strlen(start), (const uint8_t *)history, strlen(history), flags, most, room,
                                   sizeof room, &written, line);
    CHECK(says(room, written, text));
    return number;
}

/* The counts of a history in which one frame leaves. */
#define ONE_LEFT                                                                                                                         \
    "\"finished\":true,\"evidence\":true,\"messages\":0,\"accepted\":0,\"replies\":0,\"frames\":{\"forwarded\":1,\"dropped\":0,"               \
    "\"open\":0,\"strays\":0,\"doubtful\":0,\"lost\":0,\"cut\":0},\"versions\":[]}"

static void a_history_is_judged_behind_a_script(void) {
    static const char left[] = "w\nf 257 " U "\ng 0 1024 " U "\ne\n";
    static char script[4096];
    static uint8_t room[4096];
    size_t written = 7;
    uint64_t line = 7;
    script[0] = 0;
    for (int i = 0; i < 4; i++)
        put_line(script, "o", set_up[i]);
    /* The script sets the port up, and its frames are passed over. */
    strcat(script, "f 257 " U "\n");
    CHECK(judged_behind(script, left, 0, 9, "{\"format\":2,\"start\":4,\"explained\":true," ONE_LEFT, &line) == 1 && line == 0);
    CHECK(onu_judge((const uint8_t *)left, strlen(left), 0, room, sizeof room, &written, &line) == 0 && line == 3);
    /* Without a byte there is no script. */
    CHECK(judged_behind("", "s 7 " U "\n", ONU_ALLOW_UNFINISHED, 0,
                        "{\"format\":2,\"explained\":false,\"line\":1,\"stray\":{\"gem\":7,\"frame\":\"" U "\"}}", &line) == 0 && line == 1);
    /* Two deviations, of which one or both are listed. */
    CHECK(judged_behind(script, "s 7 00\ns 8 00\n", 0, 1,
                        "{\"format\":2,\"start\":4,\"explained\":false,\"deviations\":["
                        "{\"line\":1,\"stray\":{\"gem\":7,\"frame\":\"00\"}}],\"more\":true}", &line) == 0 && line == 1);
    CHECK(judged_behind(script, "\ns 7 00\ns 8 00\n", 0, UINT64_MAX,
                        "{\"format\":2,\"start\":4,\"explained\":false,\"deviations\":["
                        "{\"line\":2,\"stray\":{\"gem\":7,\"frame\":\"00\"}},"
                        "{\"line\":3,\"stray\":{\"gem\":8,\"frame\":\"00\"}}],\"more\":false}", &line) == 0 && line == 2);
    /* No line ends it. */
    CHECK(judged_behind(script, "", 0, 9,
                        "{\"format\":2,\"start\":4,\"explained\":false,\"finished\":false,\"evidence\":false,\"messages\":0,\"accepted\":0,"
                        "\"replies\":0,\"frames\":{\"forwarded\":0,\"dropped\":0,\"open\":0,\"strays\":0,\"doubtful\":0,"
                        "\"lost\":0,\"cut\":0},\"versions\":[]}", &line) == 2 && line == 0);
    /* A bad line of the script is named before one of the history; and flags without a meaning before both. */
    strcat(script, "r 00\n");
    memset(room, 0xee, sizeof room);
    CHECK(judged_behind(script, "x\n", 0, 1, "", &line) == ONU_BAD_START && line == 6);
    CHECK(judged_behind("# remark\n", "\nx\n", 0, 1, "", &line) == ONU_BAD_LINE && line == 2);
    line = 7;
    CHECK(onu_judge_all((uint8_t *)script, strlen(script), bytes, 1, 64, 1, room, sizeof room, &written, &line) == ONU_FLAGS && line == 7);
    CHECK(room[0] == 0xee);
    CHECK(onu_judge_all(NULL, 0, (const uint8_t *)left, strlen(left), 0, 1, room, 4, &written, &line) == ONU_SMALL && written > 4 && line == 3);
    CHECK(room[0] == 0xee);
}

/* How a history is judged behind a script with its coverage, and whether its text has these words. */
static int32_t covered_behind(const char *start, const char *history, uint32_t flags, uint64_t most, uint16_t least, const char *words, uint64_t *line) {
    static uint8_t room[8192];
    size_t written = 0;
    memset(room, 0, sizeof room);
    int32_t number = onu_judge_coverage((const uint8_t *)start, strlen(start), (const uint8_t *)history, strlen(history), flags, most, least, room,
                                        sizeof room - 1, &written, line);
    CHECK(strlen((const char *)room) == written && strstr((const char *)room, words) != NULL);
    return number;
}

static void what_was_tried_is_listed(void) {
    /* The port's frames leave as they came, whatever their tags, but for those that can't be read: two classes, and one for each predefined entry. */
    static const char left[] = "w\nf 257 " U "\ng 0 1024 " U "\ne\n";
    static const char of_all[] = "\"coverage\":[\n{\"port\":257,\"version\":0,\"seen\":1,\"classes\":5,\"unseen\":[{\"use\":\"unread\",\"reason\":1,";
    static const char of_long[] = "\"coverage\":[\n{\"port\":257,\"version\":0,\"seen\":1,\"classes\":3,\"unseen\":[{\"use\":\"entry\",\"entry\":1,\"gem\":1024,";
    static char script[4096];
    uint64_t line = 7;
    script[0] = 0;
    for (int i = 0; i < 4; i++)
        put_line(script, "o", set_up[i]);
    CHECK(covered_behind(script, left, 0, 0, 0, of_all, &line) == 1 && line == 0);
    CHECK(covered_behind(script, left, 0, 9, 60, of_long, &line) == 1 && line == 0);
    /* Where nothing was judged, nothing was tried. */
    CHECK(covered_behind(script, "", 0, 0, 0, "\"coverage\":[\n]}", &line) == 2 && line == 0);
    /* A history that deviates is listed as without coverage. */
    CHECK(covered_behind(script, "s 7 00\n", 0, 0, 0, "\"explained\":false,\"line\":1,\"stray\":{\"gem\":7,\"frame\":\"00\"}}", &line) == 0 && line == 1);
    CHECK(covered_behind(script, "s 7 00\n", 0, 9, 0, "\"stray\":{\"gem\":7,\"frame\":\"00\"}}\n],\"more\":false}", &line) == 0 && line == 1);
    CHECK(covered_behind(script, "\nx\n", 0, 0, 0, "", &line) == ONU_BAD_LINE && line == 2);
    CHECK(covered_behind("x\n", left, 0, 0, 0, "", &line) == ONU_BAD_START && line == 1);
    /* No frame has a least version where each is judged by itself. */
    line = 7;
    CHECK(covered_behind(script, left, ONU_UNORDERED, 0, 0, "", &line) == ONU_FLAGS && line == 7);
    CHECK(covered_behind(script, left, 64, 0, 0, "", &line) == ONU_FLAGS && line == 7);
}

/* A text that a call makes: in a room of just its size, and in one that is a byte too small. */
static void is_made(make_call *call, const char *text, int32_t number, const char *made) {
    static uint8_t room[4096];
    size_t n = strlen(made), written = 7;
    memset(room, 0xee, sizeof room);
    CHECK(call((const uint8_t *)text, strlen(text), room, n, &written) == number && written == n);
    CHECK(memcmp(room, made, n) == 0 && room[n] == 0xee);
    memset(room, 0xee, sizeof room);
    CHECK(call((const uint8_t *)text, strlen(text), room, n - 1, &written) == ONU_SMALL && written == n);
    for (size_t i = 0; i <= n; i++)
        CHECK(room[i] == 0xee);
}

static void words_become_a_script(void) {
    static char script[4096];
    uint8_t room[200];
    size_t written;
    script[0] = 0;
    for (int i = 0; i < 4; i++)
        put_line(script, "o", set_up[i]);
    strcat(script, "# a frame\nf 257 " U "\n");
    is_made(encode_from_1,
            "create gem-port 0x0401 port-id=1024 tcont=0x8001 direction=both\n"
            "create interwork 0x0501 gem-port=0x0401 option=mapper service-profile=0x0601\n"
            "create mapper 0x0601 tp=0x0101 p0-7=0x0501 unmarked=default tp-type=pptp\n"
            "create vlan 0x0701 association=pptp pointer=0x0101\n"
            "# a frame\nframe 257 type=ipv4 payload=4500\n",
            0, script);
    /* The identifiers of messages count from the one that is said. */
    script[0] = 0;
    put_line(script, "o", "01004f0a00020000");
    CHECK(onu_encode((const uint8_t *)"reset", 5, 256, room, sizeof room, &written) == 0);
    CHECK(written == strlen(script) && memcmp(room, script, written) == 0);
    is_made(encode_from_1, "# remark\nget onu-data 0 vid\nf 257 0O\n", 1,
            "line 2, column 16: onu-data has no attribute `vid`, expected sync\n"
            "line 3, column 8: found `O`, expected a hexadecimal digit\n");
}

static void a_script_is_decoded(void) {
    is_made(onu_decode, "# remark\nd 5\n-\n", 0,
            "{\"format\":1,\"line\":1,\"kind\":\"remark\",\"text\":\"# remark\"}\n"
            "{\"format\":1,\"line\":2,\"kind\":\"dropped\",\"reason\":5,\"words\":\"the port has no mapper\"}\n"
            "{\"format\":1,\"line\":3,\"kind\":\"no_answer\"}\n");
    is_made(onu_decode, "# remark\nf 257 0g\nx\n", 1, "line 2, column 8: found 'g', expected a hexadecimal digit\n");
}

/* What a call answers and shows after a trace, but for white space: in a room of just its size, and in one that is a byte too small. */
static void is_answered(look_call *call, const char *trace, int32_t number, const char *shown) {
    static uint8_t room[8192], other[8192];
    size_t written = 7, needed = 7;
    uint64_t line = 7;
    CHECK(call((const uint8_t *)trace, strlen(trace), room, sizeof room, &written, &line) == number && line == 0);
    CHECK(says(room, written, shown));
    memset(other, 0xee, sizeof other);
    line = 7;
    CHECK(call((const uint8_t *)trace, strlen(trace), other, written, &needed, &line) == number && needed == written && line == 0);
    CHECK(memcmp(other, room, written) == 0 && other[written] == 0xee);
    memset(other, 0xee, sizeof other);
    line = 7;
    CHECK(call((const uint8_t *)trace, strlen(trace), other, written - 1, &needed, &line) == ONU_SMALL && needed == written && line == 0);
    for (size_t i = 0; i <= written; i++)
        CHECK(other[i] == 0xee);
}

static void is_shown(look_call *call, const char *trace, const char *shown) {
    is_answered(call, trace, 0, shown);
}

static void what_a_trace_leaves_is_shown(void) {
    static char trace[4096];
    is_shown(onu_mib, "f 257 00\n",
             "{\"format\":1,\"mib_data_sync\":0,\"entities\":["
             "{\"class\":2,\"class_name\":\"ONUdata\",\"instance\":0,\"attributes\":{\"MIBdatasync\":0}}]}");
    is_shown(onu_lint, "",
             "{\"format\":1,\"findings\":[{\"kind\":\"empty-trace\",\"severity\":\"warning\",\"words\":\"ithasnomessage\"}]}");
    is_shown(rules_at_257, "", "{\"format\":1,\"port\":257,\"table\":{\"points_to\":\"none\"},\"entries\":[]}");
    /* Each message counts: four are accepted, and one more is refused. */
    trace[0] = 0;
    for (int i = 0; i < 5; i++)
        put_line(trace, "o", set_up[i % 4]);
    uint8_t room[8192];
    size_t written = 0;
    uint64_t line = 7;
    CHECK(onu_mib((uint8_t *)trace, strlen(trace), room, sizeof room - 1, &written, &line) == 0 && line == 0);
    room[written] = 0;
    CHECK(strstr((char *)room, "\"mib_data_sync\":4,") != NULL && strstr((char *)room, "\"Port-ID\":1024") != NULL);
    CHECK(onu_lint((uint8_t *)trace, strlen(trace), room, sizeof room - 1, &written, &line) == 0 && line == 0);
    room[written] = 0;
    CHECK(strstr((char *)room, "\"line\":5,\"kind\":\"message-refused\"") != NULL);
    CHECK(rules_at_257((uint8_t *)trace, strlen(trace), room, sizeof room - 1, &written, &line) == 0 && line == 0);
    room[written] = 0;
    CHECK(strstr((char *)room, "\"points_to\":\"port\",\"instance\":1793") != NULL);
    for (int i = 0; i < LOOKS; i++) {
        memset(room, 0xee, sizeof room);
        CHECK(looks[i]((const uint8_t *)"#\nx\ny\n", 6, room, sizeof room, &written, &line) == ONU_BAD_LINE && line == 2 && written == 0);
        CHECK(room[0] == 0xee);
    }
}

/* ---- every frame */

static const uint16_t port_257 = 257, port_258 = 258;

/* A trace that sets the port up, with more messages behind. It stands until the trace behind the next one is made. */
static const char *trace_of(const char *const *more, int n) {
    static char traces[2][4096];
    static int next;
    char *trace = traces[next ^= 1];
    trace[0] = 0;
    for (int i = 0; i < 4; i++)
        put_line(trace, "o", set_up[i]);
    for (int i = 0; i < n; i++)
        put_line(trace, "o", more[i]);
    return trace;
}

#define TRACE_OF(...) trace_of((const char *const[]){__VA_ARGS__}, sizeof((const char *const[]){__VA_ARGS__}) / sizeof(char *))
#define SET_UP trace_of(NULL, 0)

/* The text of what was found. */
static char found[16384];

/* Whether what was found has so many frames that come in at a port, and these parts in this order. */
static bool has(int count, const char *const *parts, int n) {
    const char *at = found;
    int ports = 0;
    for (const char *port = found; (port = strstr(port, "\"port\":")) != NULL; port++)
        ports++;
    for (int i = 0; i < n && at != NULL; i++) {
        at = strstr(at, parts[i]);
        at = at == NULL ? NULL : at + strlen(parts[i]);
    }
    return ports == count && at != NULL;
}

#define HAS(count, ...) has(count, (const char *const[]){__VA_ARGS__}, sizeof((const char *const[]){__VA_ARGS__}) / sizeof(char *))

static int32_t covered(const char *trace, const uint16_t *port, uint16_t least) {
    size_t written = 0;
    uint64_t line = 7;
    int32_t number = onu_cover((const uint8_t *)trace, strlen(trace), port, least, (uint8_t *)found, sizeof found - 1, &written, &line);
    found[written] = 0;
    CHECK(line == 0);
    return number;
}

static int32_t differing(const char *before, uint64_t from, const char *after, uint64_t until, const uint16_t *port, uint16_t least) {
    size_t written = 0;
    uint64_t line = 7;
    int32_t number = onu_differences((const uint8_t *)before, strlen(before), from, (const uint8_t *)after, after == NULL ? 0 : strlen(after), until,
                                     port, least, (uint8_t *)found, sizeof found - 1, &written, &line);
    found[written] = 0;
    CHECK(line == 0);
    return number;
}

static int32_t tearing(const char *trace, uint64_t from, uint64_t until, const uint16_t *port) {
    size_t written = 0;
    uint64_t line = 7;
    int32_t number = onu_hitless((const uint8_t *)trace, strlen(trace), from, until, port, 0, (uint8_t *)found, sizeof found - 1, &written, &line);
    found[written] = 0;
    CHECK(line == 0);
    return number;
}

static int32_t expecting(const char *trace, const char *expectations, uint64_t from, uint64_t until, uint16_t least) {
    size_t written = 0;
    uint64_t line = 7;
    int32_t number = onu_expect((const uint8_t *)trace, strlen(trace), (const uint8_t *)expectations, strlen(expectations), from, until, least,
                                (uint8_t *)found, sizeof found - 1, &written, &line);
    found[written] = 0;
    CHECK(line == 0);
    return number;
}

/* What stands in a class, and on a side of a difference or of a tear. */
#define UNREAD(reason) "\"use\":\"unread\",\"reason\":" #reason ","
#define ENTRY(number) "\"use\":\"entry\",\"entry\":" #number ",\"gem\":1024,"
#define DROPPING(number) "\"use\":\"entry\",\"entry\":" #number ",\"reason\":4,"
#define NO_MAPPER "\"use\":\"no-table\",\"reason\":5,"
#define LOST(number) "\"use\":\"entry\",\"entry\":" #number ",\"reason\":7,"
#define BEFORE(class) "\"before\":{" class
#define HERE(class) "\"here\":{" class
#define AFTER(class) "\"after\":{" class
#define SAME "{\"format\":1,\"differences\":[]}"
#define HITLESS "{\"format\":1,\"torn\":[]}"
#define HOLDS(number) "{\"line\":" #number ",\"port\":257,\"outcome\":\"holds\"}"
#define FAILS(port, number) "{\"line\":" #number ",\"port\":" #port ",\"outcome\":\"fails\","
#define VOID(number) "{\"line\":" #number ",\"port\":257,\"outcome\":\"void\"}"
#define NOTHING_EXPECTED "{\"format\":1,\"expectations\":[],\"fail\":0}"

static void classes_are_listed(void) {
    /* Without entities a port has no table and no mapper, and none is named. */
    CHECK(covered("", &port_257, 0) == 0 && HAS(3, UNREAD(1), UNREAD(2), NO_MAPPER));
    is_shown(cover_named, "", "{\"format\":1,\"classes\":[]}");
    CHECK(covered(SET_UP, NULL, 0) == 0 && HAS(5, UNREAD(1), UNREAD(2), ENTRY(0), ENTRY(1), ENTRY(2)));
    CHECK(covered(SET_UP, &port_257, 60) == 0 && HAS(3, ENTRY(0), ENTRY(1), ENTRY(2)) && strstr(found, "unread") == NULL);
    CHECK(covered(SET_UP, &port_258, 0) == 0 && HAS(3, UNREAD(1), UNREAD(2), "\"port\":258,\"use\":\"no-table\",\"reason\":5,"));
    /* The predefined entry for no tag, entry 1, is used for no frame then. */
    CHECK(covered(TRACE_OF(TO_100), NULL, 0) == 0 && HAS(5, UNREAD(1), UNREAD(2), ENTRY(0), ENTRY(2), ENTRY(3)));
    CHECK(strstr(found, "\"entry\":1,") == NULL);
    /* Entries 2 and 3 keep the frames' priorities, and entry 0 adds a tag of priority 0. */
    CHECK(covered(TRACE_OF(TO_100, POINTER_5), NULL, 0) == 0);
    CHECK(HAS(7, UNREAD(1), UNREAD(2), ENTRY(0), ENTRY(2), LOST(2), ENTRY(3), LOST(3)));
}

static void differences_are_listed(void) {
    is_shown(differences_from_0, "f 257 00\n", SAME);
    is_shown(differences_of_same, SET_UP, SAME);
    const char *tagged = TRACE_OF(TO_100);
    /* Frames without a tag leave with one. */
    CHECK(differing(tagged, 4, NULL, ONU_AT_END, NULL, 0) == 1);
    CHECK(HAS(1, "\"port\":257,\"frame\":\"" AD "0800", BEFORE(ENTRY(0)) "\"frame\":\"" AD "0800", AFTER(ENTRY(0)) "\"frame\":\"" AD "810000640800"));
    CHECK(differing(SET_UP, ONU_AT_END, tagged, ONU_AT_END, &port_257, 0) == 1 && HAS(1, BEFORE(ENTRY(0)), AFTER(ENTRY(0))));
    CHECK(differing(tagged, ONU_AT_END, tagged, 4, NULL, 0) == 1 && HAS(1, BEFORE(ENTRY(0)), AFTER(ENTRY(0))));
    CHECK(differing(tagged, 4, tagged, 4, NULL, 0) == 0 && says((uint8_t *)found, strlen(found), SAME));
    CHECK(differing(tagged, 5, NULL, ONU_AT_END, NULL, 0) == 0 && differing(tagged, ONU_AT_END, NULL, ONU_AT_END, NULL, 0) == 0);
    CHECK(differing(tagged, 4, NULL, ONU_AT_END, &port_258, 0) == 0 && says((uint8_t *)found, strlen(found), SAME));
    /* By another input TPID frames are cut that were long enough; all others leave with the same bytes. */
    const char *with_9100 = TRACE_OF(INPUT_9100);
    CHECK(differing(with_9100, 4, NULL, ONU_AT_END, NULL, 0) == 1);
    CHECK(HAS(2, BEFORE(ENTRY(0)), AFTER(UNREAD(2)), BEFORE(ENTRY(1)), AFTER(UNREAD(2))));
    CHECK(differing(with_9100, 4, NULL, ONU_AT_END, NULL, 60) == 0 && says((uint8_t *)found, strlen(found), SAME));
    /* What was a type behind one tag is a second tag then, and what was a type is a tag. */
    CHECK(differing(TRACE_OF(ONE_TAG_DROPPED, INPUT_9100), 5, NULL, ONU_AT_END, NULL, 0) == 1);
    CHECK(HAS(4, BEFORE(DROPPING(0)), AFTER(UNREAD(2)), BEFORE(DROPPING(0)), AFTER(ENTRY(3)), BEFORE(ENTRY(1)), AFTER(UNREAD(2)),
              BEFORE(ENTRY(1)), AFTER(DROPPING(0))));
}

static void torn_moments_are_listed(void) {
    is_shown(hitless_from_0, SET_UP, HITLESS);
    /* An entry is deleted, and set again: frames without a tag leave without one in between. */
    const char *torn = TRACE_OF(TO_100, DELETED, TO_200_AGAIN);
    CHECK(tearing(torn, 5, ONU_AT_END, NULL) == 1);
    CHECK(HAS(1, "\"version\":6,\"line\":6,\"port\":257,\"frame\":\"" AD "0800", BEFORE(ENTRY(0)) "\"frame\":\"" AD "810000640800",
              HERE(ENTRY(0)) "\"frame\":\"" AD "0800", AFTER(ENTRY(0)) "\"frame\":\"" AD "810000c80800"));
    CHECK(tearing(torn, 5, 7, &port_257) == 1 && HAS(1, "\"version\":6,"));
    CHECK(tearing(torn, 5, ONU_AT_END, &port_258) == 0 && says((uint8_t *)found, strlen(found), HITLESS));
    CHECK(tearing(torn, 5, 6, NULL) == 0 && tearing(torn, 6, ONU_AT_END, NULL) == 0 && tearing(torn, 7, 7, NULL) == 0);
    /* One that is overwritten is hitless. */
    CHECK(tearing(TRACE_OF(TO_100, TO_200_AGAIN), 5, ONU_AT_END, NULL) == 0 && says((uint8_t *)found, strlen(found), HITLESS));
    /* Frames that are dropped for one reason and then for another are no tear: all is set up in another order, the GEM port last. */
    static const int order[] = {2, 3, 1, 0};
    static char another[4096];
    another[0] = 0;
    for (int i = 0; i < 4; i++)
        put_line(another, "o", set_up[order[i]]);
    CHECK(tearing(another, 0, ONU_AT_END, NULL) == 0 && says((uint8_t *)found, strlen(found), HITLESS));
}

static void expectations_are_checked(void) {
    is_shown(expect_leaving, SET_UP, "{\"format\":1,\"expectations\":[" HOLDS(1) "],\"fail\":0}");
    is_answered(expect_mistaken, "f 257 00\n", 2,
                "line1,column16:aVIDisatmost4095,found`5000`"
                "line3,column12:found`laeve`,expectedany,leave,drop,gem,unchanged,remove,outerorinner;didyoumean`leave`?");
    CHECK(expecting("", "", ONU_AT_END, ONU_AT_END, 0) == 0 && says((uint8_t *)found, strlen(found), NOTHING_EXPECTED));
    CHECK(expecting("", "# remark\n", 0, ONU_AT_END, 0) == 0 && says((uint8_t *)found, strlen(found), NOTHING_EXPECTED));
    /* One holds, a frame fails another, one admits no frame, and at a port without a mapper frames are dropped. */
    const char *tagged = TRACE_OF(TO_100), *lines = "257 tags=0 -> gem 1024 inner(pcp=0 vid=100 tpid=8100)\n# remark\n257 tags=0 -> drop\n"
                                                    "257 tags=1 outer(vid=5) -> leave\n258 any -> leave\n";
    CHECK(expecting(tagged, lines, ONU_AT_END, ONU_AT_END, 0) == 1);
    CHECK(HAS(4, HOLDS(1) ",", FAILS(257, 3) "\"frame\":\"" AD, HERE(ENTRY(0)) "\"frame\":\"" AD "81000064", VOID(4),
              FAILS(258, 5) "\"frame\":\"" AD, HERE(NO_MAPPER), "],\"fail\":3}"));
    CHECK(strstr(found, "version") == NULL);
    /* Before the entry is set frames leave as they came, and before the last message of the four a port has no table. */
    CHECK(expecting(tagged, "257 tags=0 -> gem 1024 unchanged\n", ONU_AT_END, 4, 0) == 0);
    CHECK(expecting(tagged, "257 tags=0 -> gem 1024 unchanged\n", ONU_AT_END, ONU_AT_END, 0) == 1);
    CHECK(expecting(tagged, "257 tags=0 -> gem 1024 unchanged\n", 4, 4, 0) == 0);
    CHECK(expecting(tagged, "257 tags=0 -> gem 1024 unchanged\n", 4, ONU_AT_END, 0) == 1);
    CHECK(HAS(1, FAILS(257, 1) "\"version\":5,\"trace_line\":5,\"frame\":\"" AD, HERE(ENTRY(0))));
    CHECK(expecting(tagged, LEAVE, 3, ONU_AT_END, 0) == 0 && expecting(tagged, LEAVE, 0, ONU_AT_END, 0) == 1);
    CHECK(HAS(1, FAILS(257, 1) "\"version\":0,\"trace_line\":0,\"frame\":\"" AD, HERE(NO_MAPPER)));
    /* An entry is deleted, and set again. */
    CHECK(expecting(TRACE_OF(TO_100, DELETED, TO_200_AGAIN), "257 tags=0 -> inner(pcp=0 vid=100 tpid=8100)\n", 5, ONU_AT_END, 0) == 1);
    CHECK(HAS(1, FAILS(257, 1) "\"version\":6,\"trace_line\":6,", HERE(ENTRY(0)) "\"frame\":\"" AD));
    /* A frame that is shown has as many bytes as are asked for, and so has what leaves. */
    CHECK(expecting(SET_UP, "257 any -> drop\n", ONU_AT_END, ONU_AT_END, 1500) == 1 && strlen(found) > 4 * 1500);
}

static void traces_of_a_change_are_read_up_to_their_lines(void) {
    static const uint8_t bad[] = "#\nx\n", good[] = "#\n";
    uint8_t room[200];
    size_t written = 7;
    uint64_t line = 7;
    memset(room, 0xee, sizeof room);
    /* The trace before is named first, and then that after. */
    CHECK(onu_differences(bad, 4, 2, bad, 4, 2, NULL, 0, room, sizeof room, &written, &line) == ONU_BAD_LINE && line == 2 && written == 0);
    written = line = 7;
    CHECK(onu_differences(bad, 4, 1, bad, 4, 2, NULL, 0, room, sizeof room, &written, &line) == ONU_BAD_AFTER && line == 2 && written == 0);
    CHECK(room[0] == 0xee);
    CHECK(onu_differences(bad, 4, 1, bad, 4, 0, NULL, 0, room, sizeof room, &written, &line) == 0 && line == 0 && says(room, written, SAME));
    CHECK(onu_differences(bad, 4, 0, NULL, 0, 2, NULL, 0, room, sizeof room, &written, &line) == ONU_BAD_LINE && line == 2 && written == 0);
    CHECK(onu_differences(bad, 4, 0, NULL, 0, 1, NULL, 0, room, sizeof room, &written, &line) == 0 && line == 0);
    /* A trace after a change that is there has no bytes. */
    CHECK(onu_differences(good, 2, ONU_AT_END, good, 0, 0, NULL, 0, room, sizeof room, &written, &line) == 0 && says(room, written, SAME));
    CHECK(onu_hitless(bad, 4, 0, 2, NULL, 0, room, sizeof room, &written, &line) == ONU_BAD_LINE && line == 2 && written == 0);
    CHECK(onu_hitless(bad, 4, 0, 1, NULL, 0, room, sizeof room, &written, &line) == 0 && line == 0 && says(room, written, HITLESS));
    CHECK(onu_expect(bad, 4, good, 2, 0, 2, 0, room, sizeof room, &written, &line) == ONU_BAD_LINE && line == 2 && written == 0);
    CHECK(onu_expect(bad, 4, (const uint8_t *)"x", 1, 0, 2, 0, room, sizeof room, &written, &line) == ONU_BAD_LINE && line == 2 && written == 0);
    CHECK(onu_expect(bad, 4, good, 2, 0, 1, 0, room, sizeof room, &written, &line) == 0 && line == 0 && says(room, written, NOTHING_EXPECTED));
    CHECK(onu_expect(bad, 4, good, 2, ONU_AT_END, 1, 0, room, sizeof room, &written, &line) == 0 && line == 0);
    /* No change goes back, but one of two traces may. */
    memset(room, 0xee, sizeof room);
    written = line = 7;
    CHECK(onu_differences(good, 2, 1, NULL, 0, 0, NULL, 0, room, sizeof room, &written, &line) == ONU_BACKWARD);
    CHECK(onu_hitless(good, 2, ONU_AT_END, 9, NULL, 0, room, sizeof room, &written, &line) == ONU_BACKWARD);
    CHECK(onu_expect(good, 2, good, 2, 10, 9, 0, room, sizeof room, &written, &line) == ONU_BACKWARD);
    CHECK(written == 7 && line == 7 && room[0] == 0xee);
    CHECK(onu_differences(good, 2, 1, good, 2, 0, NULL, 0, room, sizeof room, &written, &line) == 0);
}

static void units_are_alone(void) {
    enum { UNITS = 1000 };
    static onu cells[UNITS];
    for (int i = 0; i < UNITS; i++)
        CHECK(onu_open(&cells[i]) == 0);
    for (int i = 0; i < 4; i++)
        CHECK(send_message(&cells[500], set_up[i], NULL) == 1);
    CHECK(leaves(&cells[500], U, U) && dropped(&cells[499], U) == 5 && dropped(&cells[501], U) == 5);
    /* A cell may be moved. */
    onu moved;
    memcpy(&moved, &cells[500], sizeof moved);
    CHECK(leaves(&moved, U, U));
    memcpy(&cells[500], &moved, sizeof moved);
    for (int i = 0; i < UNITS; i++)
        CHECK(onu_close(&cells[i]) == 0);
}

/* A cell is closed, whatever was refused while it was opened; then it is opened and set up. The requests that opening makes. */
static void memory_for_a_unit_is_refused(void) {
    unsigned long number = 0;
    int32_t answer;
    do {
        onu cell = ONU_CELL;
        refuse(++number);
        answer = onu_open(&cell);
        refuse(0);
        CHECK(answer == 0 || answer == ONU_NO_MEMORY);
        CHECK(onu_close(&cell) == (answer == 0 ? 0 : ONU_CLOSED));
        CHECK(blocks == 0);
    } while (answer == ONU_NO_MEMORY);
    CHECK(number > 10);
    printf("opening a unit makes %lu requests for memory\n", number - 1);
}

/* No message and no frame asks for memory. */
static void messages_and_frames_take_no_memory(void) {
    onu cell = ONU_CELL;
    CHECK(onu_open(&cell) == 0);
    refuse(1);
    for (int i = 0; i < 4; i++)
        CHECK(send_message(&cell, set_up[i], NULL) == 1);
    CHECK(send_message(&cell, TO_100, NULL) == 1 && leaves(&cell, U, AD "81000064 08004500"));
    CHECK(send_message(&cell, "00014d0a00020000", NULL) == 1 && send_message(&cell, "00014e0a00020000", NULL) == 1);
    CHECK(send_message(&cell, "00014f0a00020000", NULL) == 1 && dropped(&cell, U) == 5);
    CHECK(requests == 0);
    refuse(0);
    CHECK(onu_close(&cell) == 0 && blocks == 0);
}

static void memory_for_an_explanation_is_refused(void) {
    static uint8_t room[8192];
    onu cell = ONU_CELL;
    unsigned long number = 0;
    int32_t answer;
    open_set_up(&cell);
    long held = blocks;
    size_t n = put_hex(U, bytes);
    do {
        size_t written = 7;
        memset(room, 0xee, sizeof room);
        refuse(++number);
        answer = onu_explain(&cell, 257, bytes, n, room, sizeof room, &written);
        refuse(0);
        CHECK(answer == 0 || (answer == ONU_NO_MEMORY && written == 0 && room[0] == 0xee));
        CHECK(blocks == held);
    } while (answer != 0);
    CHECK(number > 3 && leaves(&cell, U, U));
    CHECK(onu_close(&cell) == 0 && blocks == 0);
}

static void memory_for_texts_is_refused(void) {
    static char script[4096], answers[4096], history[4096], explained[4096];
    static uint8_t room[4096];
    put_script(script, answers);
    put_history(history, "g 0 1024 " AD "8100006408004500\ng 1 1024 " U "\n");
    put_history(explained, "g 0 1024 " U "\ng 1 1024 " AD "8100006408004500\ne\n");
    for (int which = 0; which < 4; which++) {
        unsigned long number = 0;
        int32_t answer, right = which == 3 ? 1 : 0;
        do {
            size_t written = 7;
            uint64_t line = 7;
            memset(room, 0xee, sizeof room);
            refuse(++number);
            if (which == 0)
                answer = onu_replay((uint8_t *)script, strlen(script), room, sizeof room, &written, &line);
            else if (which == 1)
                answer = onu_judge((uint8_t *)history, strlen(history), 0, room, sizeof room, &written, &line);
            else if (which == 2)
                answer = onu_judge_all((uint8_t *)script, strlen(script), (uint8_t *)history, strlen(history), 0, 2, room, sizeof room,
                                       &written, &line);
            else
                answer = onu_judge_coverage(NULL, 0, (uint8_t *)explained, strlen(explained), 0, 0, 60, room, sizeof room, &written, &line);
            refuse(0);
            CHECK(answer == right || (answer == ONU_NO_MEMORY && written == 0 && line == 0 && room[0] == 0xee));
            CHECK(blocks == 0);
        } while (answer != right);
        CHECK(number > 10);
    }
}

/* What a call answers after a trace that sets the port up: at first frames are dropped there. */
static int32_t found_by(look_call *call) {
    return call == expect_mistaken ? 2 : call == differences_from_0 || call == expect_from_0;
}

static void memory_for_scripts_is_refused(void) {
    static const char *const texts[] = {"get onu-data 0 sync\n", "get onu-data 0 vid\n", "d 5\n", "x\n"};
    static char trace[4096];
    static uint8_t room[8192];
    trace[0] = 0;
    for (int i = 0; i < 5; i++)
        put_line(trace, "o", set_up[i % 4]);
    for (int which = 0; which < 4 + LOOKS; which++) {
        unsigned long number = 0;
        int32_t answer;
        do {
            size_t written = 7;
            uint64_t line = 7;
            memset(room, 0xee, sizeof room);
            refuse(++number);
            answer = which < 4 ? makes[which / 2]((const uint8_t *)texts[which], strlen(texts[which]), room, sizeof room, &written)
                               : looks[which - 4]((uint8_t *)trace, strlen(trace), room, sizeof room, &written, &line);
            refuse(0);
            CHECK(answer == (which < 4 ? which % 2 : found_by(looks[which - 4])) || (answer == ONU_NO_MEMORY && written == 0 && room[0] == 0xee));
            CHECK(line == (which < 4 ? 7 : 0) && blocks == 0);
        } while (answer == ONU_NO_MEMORY);
        CHECK(number > 3);
    }
}

int main(void) {
    CHECK(strncmp(onu_version(), "onuctl ", 7) == 0 && strstr(onu_version(), ", proved with rattle-kit") != NULL);
    null_pointers_are_answered();
    no_bytes_may_be_null();
    a_closed_cell_is_answered();
    a_cell_is_opened_once();
    messages_are_answered();
    frames_are_forwarded();
    a_frame_is_explained();
    a_script_is_answered();
    a_history_is_judged();
    a_history_is_judged_behind_a_script();
    what_was_tried_is_listed();
    words_become_a_script();
    a_script_is_decoded();
    what_a_trace_leaves_is_shown();
    classes_are_listed();
    differences_are_listed();
    torn_moments_are_listed();
    expectations_are_checked();
    traces_of_a_change_are_read_up_to_their_lines();
    units_are_alone();
    CHECK(blocks == 0);
    memory_for_a_unit_is_refused();
    messages_and_frames_take_no_memory();
    memory_for_an_explanation_is_refused();
    memory_for_texts_is_refused();
    memory_for_scripts_is_refused();
    printf("%u checks, %u failed\n", checked, failed);
    return failed != 0;
}
