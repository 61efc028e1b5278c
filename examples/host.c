/* A host in C: runs a session file, prints its lines, and asks the record that its steps leave. */
#include <stdio.h>
#include <string.h>

#include "dali_gear.h"

/* One byte more than the longest file, so that a longer one is seen. */
static uint8_t file[DALI_GEAR_FILE_MAX + 1];
static uint8_t lines[DALI_GEAR_LINES_MAX];

/* Two steps of a session: QUERY ACTUAL LEVEL (part 102), and the colour value 'colour temperature' (part 209), which is
 * the mask while the lamp has none. */
enum { KIND_QUERY = 2, ACTUAL_LEVEL = 160, KIND_COLOUR_VALUE = 5, COLOUR_TEMPERATURE = 2, MASK = 65535 };

static void show_level(size_t len) {
    struct dali_gear_result level = dali_gear_session_ask(file, len, KIND_QUERY, ACTUAL_LEVEL, 0, 0);
    if (level.code == DALI_GEAR_VALUE) printf("the lamp is at level %zu\n", level.detail);
}

static void show_colour_temperature(size_t len) {
    struct dali_gear_result tc = dali_gear_session_ask(file, len, KIND_COLOUR_VALUE, COLOUR_TEMPERATURE, 0, 0);
    if (tc.code == DALI_GEAR_INCAPABLE)
        printf("%s\n", dali_gear_lacks(tc.detail));
    else if (tc.code == DALI_GEAR_VALUE && tc.detail == MASK)
        printf("no colour temperature is active\n");
    else if (tc.code == DALI_GEAR_VALUE)
        printf("the colour temperature is %zu mirek\n", tc.detail);
}

int main(void) {
    size_t len = fread(file, 1, sizeof file, stdin);
    if (ferror(stdin)) {
        perror("host: standard input");
        return 1;
    }
    struct dali_gear_result ran = dali_gear_session_run(file, len, lines, sizeof lines);
    if (ran.code == DALI_GEAR_MALFORMED) {
        fprintf(stderr, "host: refusal %u: the file has a fault at byte %zu\n", (unsigned)ran.code, ran.detail);
        return 1;
    }
    if (fwrite(lines, 1, ran.detail, stdout) != ran.detail) {
        perror("host: standard output");
        return 1;
    }
    show_level(len);
    show_colour_temperature(len);
    return 0;
}
