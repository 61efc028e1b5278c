/* A proved record of a DALI lighting gear, for programs in C.
 *
 * A session file holds a gear's profile and the steps sent to it (docs/SESSION.md says it byte by
 * byte; examples/README.md has a readable form of it). These functions judge a file, run it, and
 * ask the record that its steps leave. What each of them answers is proved for every input; this
 * header only carries their arguments over. They allocate nothing, keep nothing between calls, and
 * may be called from several threads at once.
 *
 * Link target/staticlib/libdali_gear.a, which tools/archive makes, into an x86-64 program.
 */
#ifndef DALI_GEAR_H
#define DALI_GEAR_H

#include <stddef.h>
#include <stdint.h>

#ifdef __cplusplus
extern "C" {
#endif

/* What a call came to. The codes 1 to 5 are document 01's refusals under its own numbers. */
enum dali_gear_code {
    DALI_GEAR_DONE = 0,       /* done; the detail is the number of bytes written, if any */
    DALI_GEAR_PROFILE = 1,    /* profile not accepted */
    DALI_GEAR_UNFIT = 2,      /* record not fit */
    DALI_GEAR_BYTE = 3,       /* byte not in the call's table, or step kind not listed */
    DALI_GEAR_GROUP = 4,      /* group address above 15 */
    DALI_GEAR_MALFORMED = 5,  /* session file malformed; the detail is the offset of its lowest fault */
    DALI_GEAR_VALUE = 16,     /* the detail is the value */
    DALI_GEAR_NOTHING = 17,   /* no value: no answer to give, or a colour value that no gear has */
    DALI_GEAR_SHORT = 18,     /* the buffer is too short; the detail is the number of bytes it needs */
    DALI_GEAR_INCAPABLE = 19  /* a colour value that this gear can't have; the detail says what it lacks */
};

/* What a gear may lack: the detail of INCAPABLE. */
enum dali_gear_capability {
    DALI_GEAR_XY = 1,       /* colours by x and y */
    DALI_GEAR_TC = 2,       /* colour temperatures */
    DALI_GEAR_CHANNELS = 3  /* a colour channel, or more */
};

/* What each function gives. Of its cases the first that fits counts; the room of a file is what
 * dali_gear_session_room gives for it.
 *
 *   function  case                                    code       detail
 *
 *   check     a malformed file                        MALFORMED  the offset of its lowest fault
 *             else                                    DONE       0
 *
 *   room      a malformed file                        no code: it gives 16
 *             else                                    no code: it gives 16, and 11 more for each step
 *
 *   run       a malformed file, whatever out is       MALFORMED  the offset of its lowest fault
 *             out is shorter than the file's room     SHORT      the room
 *             else                                    DONE       the bytes written, which are the file's lines
 *
 *   report    out is shorter than the file's room     SHORT      the room: 16 for a malformed file
 *             a malformed file                        DONE       the bytes written, 6 to 10: 'bad' and the offset
 *             else                                    DONE       the bytes written, which are the file's lines
 *
 *   ask       a malformed file, whatever is asked     MALFORMED  the offset of its lowest fault
 *             kind 1 or 2, byte a not in its table    BYTE       0
 *             a kind above 12                         BYTE       0
 *             kind 5, no gear has id a                NOTHING    0
 *             kind 5, this gear can't have id a       INCAPABLE  what it lacks: 1 xy, 2 Tc, 3 channels
 *             kinds 2 to 5, and there is a value      VALUE      the value, 0 to 65535
 *             kinds 2 to 4, and there is none         NOTHING    0
 *             else, which is kinds 0, 1 and 6 to 12   DONE       0
 *
 * So run judges the file first and then out, and report judges out first. Without DONE no byte of out is
 * written; with it, the bytes behind the written ones stay as they were. PROFILE, UNFIT and GROUP are
 * given by none of the five: the record of a well-formed file is fit, and no step has a group address.
 *
 * A colour value (kind 5) is absent for one of two reasons. Neither is a wiring fault, and a panel should
 * not show them alike. NOTHING: no gear has this id, so that the fault is in the panel's own program.
 * INCAPABLE: there is such an id, and this gear is built without what it needs, so that there is nothing to
 * mend; dali_gear_lacks has the words to show. docs/SESSION.md lists the ids with what each needs. */

/* A session file has at most so many bytes. */
#define DALI_GEAR_FILE_MAX 16412

/* A buffer of so many bytes is long enough for the lines of every file. */
#define DALI_GEAR_LINES_MAX 45072

/* A code, and the number that belongs to it. */
struct dali_gear_result {
    uint32_t code;
    size_t detail;
};

/* The library itself. Its pointers are never null, which the functions below see to. */
uint32_t dali_gear_check(const uint8_t *file, size_t file_len, size_t *detail);
size_t dali_gear_room(const uint8_t *file, size_t file_len);
uint32_t dali_gear_run(const uint8_t *file, size_t file_len, uint8_t *out, size_t out_len, size_t *detail);
uint32_t dali_gear_report(const uint8_t *file, size_t file_len, uint8_t *out, size_t out_len, size_t *detail);
uint32_t dali_gear_ask(const uint8_t *file, size_t file_len, uint8_t kind, uint8_t a, uint8_t b, uint8_t c,
                       size_t *detail);

/* No bytes: a null pointer is taken as none of them, whatever the length that came with it. */
static inline const uint8_t *dali_gear_bytes(const uint8_t *bytes, size_t *len) {
    static const uint8_t none = 0;
    if (bytes != NULL) return bytes;
    *len = 0;
    return &none;
}

static inline uint8_t *dali_gear_space(uint8_t *bytes, size_t *len) {
    static uint8_t none; /* never written: its length is 0 */
    if (bytes != NULL) return bytes;
    *len = 0;
    return &none;
}

/* Judges a session file: DONE where it is well formed, else MALFORMED with the offset. */
static inline struct dali_gear_result dali_gear_session_check(const uint8_t *file, size_t file_len) {
    struct dali_gear_result result;
    file = dali_gear_bytes(file, &file_len);
    result.code = dali_gear_check(file, file_len, &result.detail);
    return result;
}

/* The bytes that a buffer needs for the lines of this file, whatever they come to. For a malformed file
 * that is 16, which is room for the line of dali_gear_session_report. */
static inline size_t dali_gear_session_room(const uint8_t *file, size_t file_len) {
    file = dali_gear_bytes(file, &file_len);
    return dali_gear_room(file, file_len);
}

/* Runs a session file and writes its lines to out: DONE with the number of bytes written, MALFORMED
 * with the offset, or SHORT with the bytes that out needs. In the last two cases no byte of out is
 * written. A malformed file is MALFORMED however short out is. The file and out must not overlap. */
static inline struct dali_gear_result dali_gear_session_run(const uint8_t *file, size_t file_len, uint8_t *out,
                                                            size_t out_len) {
    struct dali_gear_result result;
    file = dali_gear_bytes(file, &file_len);
    out = dali_gear_space(out, &out_len);
    result.code = dali_gear_run(file, file_len, out, out_len, &result.detail);
    return result;
}

/* Writes to out what the program session prints: the lines of a well-formed file, as above; for a
 * malformed file one line, 'bad', a space and the offset. Either is DONE with the number of bytes written:
 * this function never gives MALFORMED, and dali_gear_session_check tells a malformed file from another.
 * Its only other code is SHORT with the bytes that out needs, and no byte of out is written then. The
 * file and out must not overlap. */
static inline struct dali_gear_result dali_gear_session_report(const uint8_t *file, size_t file_len, uint8_t *out,
                                                               size_t out_len) {
    struct dali_gear_result result;
    file = dali_gear_bytes(file, &file_len);
    out = dali_gear_space(out, &out_len);
    result.code = dali_gear_report(file, file_len, out, out_len, &result.detail);
    return result;
}

/* Performs one more step, of the session's kinds, on the record that the file's steps leave, and gives
 * its answer: DONE, VALUE with the value, NOTHING, INCAPABLE with what the gear lacks, or BYTE. A
 * malformed file has no record to ask: it is MALFORMED with the offset, whatever is asked. The file stays
 * as it is: to keep the step, add it to the file. So kind 2 with a = 160 asks for the level that the lamp
 * has now, and kind 5 with a = 2 for its colour temperature in mirek (65535 while none is active). */
static inline struct dali_gear_result dali_gear_session_ask(const uint8_t *file, size_t file_len, uint8_t kind,
                                                            uint8_t a, uint8_t b, uint8_t c) {
    struct dali_gear_result result;
    file = dali_gear_bytes(file, &file_len);
    result.code = dali_gear_ask(file, file_len, kind, a, b, c, &result.detail);
    return result;
}

/* What a panel shows for INCAPABLE, by its detail. */
static inline const char *dali_gear_lacks(size_t detail) {
    switch (detail) {
    case DALI_GEAR_XY: return "this gear has no xy colour";
    case DALI_GEAR_TC: return "this gear has no colour temperature";
    case DALI_GEAR_CHANNELS: return "this gear has no colour channels";
    default: return "this gear lacks what this value needs";
    }
}

#ifdef __cplusplus
}
#endif

#endif
