/* What the header allows, tried: null pointers, short buffers, malformed files, every kind of answer. */
#include <stdio.h>
#include <string.h>

#include "dali_gear.h"

static int failed, tried;

static void expect(const char *what, struct dali_gear_result got, uint32_t code, size_t detail) {
    tried++;
    if (got.code == code && got.detail == detail) return;
    failed++;
    printf("%s: code %u and detail %zu, where %u and %zu are due\n", what, (unsigned)got.code, got.detail,
           (unsigned)code, detail);
}

static void holds(const char *what, int is_true) {
    tried++;
    if (is_true) return;
    failed++;
    printf("%s\n", what);
}

/* Document 01's example: type 8 with Tc 153..400, no xy, no channels; SetMaxLevel 200, arc power 254, queries 160 and
 * 144, power cycle. */
static const uint8_t session[36] = {1,   8,    11, 5,    0,    0,    1, 1, 0,    0,    0x99, 1, 0x90, 1,    0, 5, 1, 0x2A,
                                    200, 0,    0,  0xFE, 0,    0,    2, 160, 0,  0,    2,    144, 0,  0,    10, 0, 0, 0};
static const char lines[] = "1 .\n2 .\n3 200\n4 12\n5 .\nend 254 1 200\n";
enum { LINES = sizeof lines - 1, ROOM = 5 * 11 + 16, UNTOUCHED = 0xA5 };

/* Where the profile has its flags and its number of channels, and the two flags that are capabilities. */
enum { FLAGS_AT = 7, CHANNELS_AT = 8, FLAG_TC = 1, FLAG_XY = 2 };

static uint8_t out[DALI_GEAR_LINES_MAX];

static int untouched(void) {
    for (size_t i = 0; i < sizeof out; i++)
        if (out[i] != UNTOUCHED) return 0;
    return 1;
}

static void checks(void) {
    expect("check", dali_gear_session_check(session, 36), DALI_GEAR_DONE, 0);
    holds("room", dali_gear_session_room(session, 36) == ROOM);
}

/* A call whose buffer is too short writes nothing. */
static void nothing_written(void) {
    memset(out, UNTOUCHED, sizeof out);
    expect("run, short", dali_gear_session_run(session, 36, out, ROOM - 1), DALI_GEAR_SHORT, ROOM);
    expect("run, no room", dali_gear_session_run(session, 36, out, 0), DALI_GEAR_SHORT, ROOM);
    expect("run, no buffer", dali_gear_session_run(session, 36, NULL, 0), DALI_GEAR_SHORT, ROOM);
    expect("run, no buffer and a length", dali_gear_session_run(session, 36, NULL, 99), DALI_GEAR_SHORT, ROOM);
    expect("report, short", dali_gear_session_report(session, 36, out, ROOM - 1), DALI_GEAR_SHORT, ROOM);
    expect("report, no buffer", dali_gear_session_report(session, 36, NULL, 0), DALI_GEAR_SHORT, ROOM);
    holds("a call with too short a buffer wrote something", untouched());
}

static void runs(void) {
    memset(out, UNTOUCHED, sizeof out);
    expect("run, just enough", dali_gear_session_run(session, 36, out, ROOM), DALI_GEAR_DONE, LINES);
    holds("the lines", memcmp(out, lines, LINES) == 0);
    memset(out, UNTOUCHED, LINES);
    holds("bytes behind the lines", untouched());
    expect("report", dali_gear_session_report(session, 36, out, sizeof out), DALI_GEAR_DONE, LINES);
    holds("the lines of a report", memcmp(out, lines, LINES) == 0);
}

static void answers(void) {
    expect("ask for the level", dali_gear_session_ask(session, 36, 2, 160, 0, 0), DALI_GEAR_VALUE, 254);
    expect("ask for the next type", dali_gear_session_ask(session, 36, 2, 167, 0, 0), DALI_GEAR_NOTHING, 0);
    expect("ask for bank 2", dali_gear_session_ask(session, 36, 3, 2, 0, 0), DALI_GEAR_NOTHING, 0);
    expect("ask to write bank 0", dali_gear_session_ask(session, 36, 4, 0, 3, 1), DALI_GEAR_NOTHING, 0);
    expect("ask for a write", dali_gear_session_ask(session, 36, 1, 0, 0, 0), DALI_GEAR_DONE, 0);
    expect("ask for byte 9", dali_gear_session_ask(session, 36, 1, 9, 0, 0), DALI_GEAR_BYTE, 0);
    expect("ask for kind 200", dali_gear_session_ask(session, 36, 200, 0, 0, 0), DALI_GEAR_BYTE, 0);
}

/* Asks the example's gear, with other capabilities, for a colour value. */
static struct dali_gear_result colour_value(int flags, int channels, int id) {
    uint8_t file[sizeof session];
    memcpy(file, session, sizeof file);
    file[FLAGS_AT] = (uint8_t)flags;
    file[CHANNELS_AT] = (uint8_t)channels;
    return dali_gear_session_ask(file, sizeof file, 5, (uint8_t)id, 0, 0);
}

/* One of each sort. The numbers of a colour are masked, since none was ever staged. */
static void colours(void) {
    expect("Tc", colour_value(FLAG_TC, 0, 2), DALI_GEAR_VALUE, 65535);
    expect("coolest", colour_value(FLAG_TC, 0, 128), DALI_GEAR_VALUE, 153);
    expect("physical coolest", colour_value(FLAG_TC, 0, 129), DALI_GEAR_VALUE, 153);
    expect("warmest", colour_value(FLAG_TC, 0, 130), DALI_GEAR_VALUE, 400);
    expect("physical warmest", colour_value(FLAG_TC, 0, 131), DALI_GEAR_VALUE, 400);
    expect("a primary's x", colour_value(FLAG_TC, 0, 64), DALI_GEAR_VALUE, 65535);
    expect("how many primaries", colour_value(FLAG_TC, 0, 82), DALI_GEAR_VALUE, 0);
    expect("staged type", colour_value(FLAG_TC, 0, 208), DALI_GEAR_VALUE, 255);
    expect("report type", colour_value(FLAG_TC, 0, 240), DALI_GEAR_VALUE, 255);
    expect("x, without xy", colour_value(FLAG_TC, 0, 0), DALI_GEAR_INCAPABLE, DALI_GEAR_XY);
    expect("red, without channels", colour_value(FLAG_TC, 0, 9), DALI_GEAR_INCAPABLE, DALI_GEAR_CHANNELS);
    expect("Tc, without Tc", colour_value(0, 0, 2), DALI_GEAR_INCAPABLE, DALI_GEAR_TC);
    expect("id 63", colour_value(FLAG_TC, 0, 63), DALI_GEAR_NOTHING, 0);
    expect("id 3", colour_value(FLAG_TC, 0, 3), DALI_GEAR_NOTHING, 0);
    expect("the second channel of one", colour_value(0, 1, 10), DALI_GEAR_VALUE, 255);
}

/* Part 209's table 11: the ids that there are, and the capability that each needs, or none. */
enum { NO_CAPABILITY = 0 };
static const struct {
    int first, last;
    size_t needs;
} ids[] = {
    {0, 1, DALI_GEAR_XY}, {192, 193, DALI_GEAR_XY}, {224, 225, DALI_GEAR_XY},
    {2, 2, DALI_GEAR_TC}, {128, 131, DALI_GEAR_TC}, {194, 194, DALI_GEAR_TC}, {226, 226, DALI_GEAR_TC},
    {9, 15, DALI_GEAR_CHANNELS}, {201, 207, DALI_GEAR_CHANNELS}, {233, 239, DALI_GEAR_CHANNELS},
    {64, 82, NO_CAPABILITY}, {208, 208, NO_CAPABILITY}, {240, 240, NO_CAPABILITY},
};

static int can(int flags, int channels, size_t capability) {
    switch (capability) {
    case DALI_GEAR_XY: return (flags & FLAG_XY) != 0;
    case DALI_GEAR_TC: return (flags & FLAG_TC) != 0;
    case DALI_GEAR_CHANNELS: return channels != 0;
    default: return 1;
    }
}

/* What is due for an id. The table is asked first, then the gear; of a value the code alone is due. */
static struct dali_gear_result due(int flags, int channels, int id) {
    struct dali_gear_result result = {DALI_GEAR_NOTHING, 0};
    for (size_t i = 0; i < sizeof ids / sizeof *ids; i++)
        if (ids[i].first <= id && id <= ids[i].last) {
            int able = can(flags, channels, ids[i].needs);
            result.code = able ? DALI_GEAR_VALUE : DALI_GEAR_INCAPABLE;
            result.detail = able ? 0 : ids[i].needs;
        }
    return result;
}

static void every_colour_value(void) {
    for (int flags = 0; flags <= (FLAG_TC | FLAG_XY); flags++)
        for (int channels = 0; channels <= 6; channels++)
            for (int id = 0; id <= 255; id++) {
                char what[64];
                struct dali_gear_result want = due(flags, channels, id), got = colour_value(flags, channels, id);
                snprintf(what, sizeof what, "flags %d, %d channels, colour value %d", flags, channels, id);
                expect(what, got, want.code, want.code == DALI_GEAR_VALUE ? got.detail : want.detail);
            }
}

static void says(size_t detail, const char *words) {
    holds(words, strcmp(dali_gear_lacks(detail), words) == 0);
}

/* What a panel shows of a gear that lacks something, and of a detail that is none of these. */
static void words(void) {
    says(DALI_GEAR_XY, "this gear has no xy colour");
    says(DALI_GEAR_TC, "this gear has no colour temperature");
    says(DALI_GEAR_CHANNELS, "this gear has no colour channels");
    says(0, "this gear lacks what this value needs");
    says(4, "this gear lacks what this value needs");
}

/* What each function gives for a malformed file: all of them name the same offset. */
static void malformed(const char *what, const uint8_t *file, size_t len, size_t offset) {
    char line[sizeof "bad 16412\n"];
    size_t written = (size_t)snprintf(line, sizeof line, "bad %zu\n", offset);
    memset(out, UNTOUCHED, sizeof out);
    expect(what, dali_gear_session_check(file, len), DALI_GEAR_MALFORMED, offset);
    holds(what, dali_gear_session_room(file, len) == 16);
    expect(what, dali_gear_session_run(file, len, out, sizeof out), DALI_GEAR_MALFORMED, offset);
    expect(what, dali_gear_session_run(file, len, NULL, 0), DALI_GEAR_MALFORMED, offset);
    expect(what, dali_gear_session_ask(file, len, 2, 160, 0, 0), DALI_GEAR_MALFORMED, offset);
    expect(what, dali_gear_session_ask(file, len, 1, 9, 0, 0), DALI_GEAR_MALFORMED, offset);
    expect(what, dali_gear_session_ask(file, len, 5, 0, 0, 0), DALI_GEAR_MALFORMED, offset);
    expect(what, dali_gear_session_ask(file, len, 200, 0, 0, 0), DALI_GEAR_MALFORMED, offset);
    expect(what, dali_gear_session_report(file, len, out, 15), DALI_GEAR_SHORT, 16);
    holds(what, untouched());
    expect(what, dali_gear_session_report(file, len, out, 16), DALI_GEAR_DONE, written);
    holds(what, memcmp(out, line, written) == 0);
    memset(out, UNTOUCHED, written);
    holds(what, untouched());
}

static void malformed_files(void) {
    uint8_t file[DALI_GEAR_FILE_MAX + 1] = {0};
    malformed("a byte short", session, 35, 35);
    malformed("null and 0", NULL, 0, 0);
    malformed("null and a length", NULL, 36, 0);
    memcpy(file, session, 36);
    malformed("a byte too many", file, 37, 36);
    file[3] = 64;
    malformed("short address 64", file, 36, 3);
    file[8] = 7;
    malformed("and seven channels, which is higher up", file, 36, 3);
    file[3] = 5;
    malformed("seven channels", file, 36, 8);
    /* the longest file, of thirteen types and 4,096 steps, and a byte more */
    memset(file, 0, sizeof file);
    file[0] = 13;
    memcpy(file + 14, session + 2, 12);
    file[26] = 16;
    expect("the longest file", dali_gear_session_check(file, DALI_GEAR_FILE_MAX), DALI_GEAR_DONE, 0);
    holds("its room", dali_gear_session_room(file, DALI_GEAR_FILE_MAX) == DALI_GEAR_LINES_MAX);
    malformed("longer than the longest file", file, sizeof file, DALI_GEAR_FILE_MAX);
}

int main(void) {
    checks();
    nothing_written();
    runs();
    answers();
    colours();
    every_colour_value();
    words();
    malformed_files();
    printf("%d of %d as the header says\n", tried - failed, tried);
    return failed != 0;
}
