/* The header in use, as C and as C++: the row's layout, each refusal by its name, empty buffers by NULL, and what a call leaves.
   calls PART REPORT: the plate of the scope, and its report. */
#include <stdio.h>
#include <string.h>

#include "gablemadder.h"

enum { FACES = GABLEMADDER_MOST_FACES + 1, V = 3 * FACES, LONGEST = 24 * V + 80 * FACES + 144, PLATE = 1200 };

static uint8_t plate[PLATE + 1], wanted[1024], report[1024], part[LONGEST];
static uint32_t words[12 * FACES + 8 * V + 1024];
static double reals[24 * FACES + 8 * V + 2048];
static gablemadder_fault_row rows[4];
static size_t wanted_len, written;
static int calls, wrong;

static void expect(const char *what, int is_so) {
    calls++;
    if (is_so) return;
    wrong++;
    printf("not so: %s\n", what);
}

static int same_bytes(const void *buffer, int byte, size_t length) {
    const uint8_t *bytes = (const uint8_t *)buffer;
    size_t i;
    for (i = 0; i < length; i++)
        if (bytes[i] != byte) return 0;
    return 1;
}

static void fill(void) {
    memset(words, 0x5a, sizeof words);
    memset(reals, 0x5a, sizeof reals);
    memset(rows, 0x5a, sizeof rows);
    memset(report, 0x5a, sizeof report);
    written = 77;
}

static int lent_is(int byte) {
    return same_bytes(words, byte, sizeof words) && same_bytes(reals, byte, sizeof reals) && same_bytes(rows, byte, sizeof rows);
}

static uint32_t check(const uint8_t *file, size_t length, size_t row_count, size_t report_len) {
    fill();
    return gablemadder_check(file, length, words, sizeof words / sizeof *words, reals, sizeof reals / sizeof *reals, rows, row_count, report, report_len,
                             &written);
}

/* A file that refusals 1 to 9 turn back: nothing is changed. */
static void refused(const char *what, const uint8_t *file, size_t length, uint32_t number) {
    expect(what, check(file, length, 4, sizeof report) == number);
    expect(what, lent_is(0x5a) && same_bytes(report, 0x5a, sizeof report) && written == 77);
}

/* The plate with one byte changed, so many bytes before its end. */
static void changed(const char *what, size_t before_end, uint8_t byte, uint32_t number) {
    uint8_t old = plate[PLATE - before_end];
    plate[PLATE - before_end] = byte;
    refused(what, plate, PLATE, number);
    plate[PLATE - before_end] = old;
}

static void put_word(uint8_t *at, uint32_t word) {
    int i;
    for (i = 0; i < 4; i++) at[i] = (uint8_t)(word >> 8 * i);
}

/* Triangles, each a face of its own, with the plate's job. */
static void put_triangles(void) {
    static const double corners[9] = {0, 0, 0, 1, 0, 0, 0, 1, 0};
    uint32_t k;
    for (k = 0; k < FACES; k++) {
        uint8_t *entry = part + 24 * V + 80 * k;
        memcpy(part + 72 * k, corners, 72);
        put_word(entry + 4, k);
        put_word(entry + 8, 3 * k);
        put_word(entry + 12, 3);
    }
    memcpy(part + LONGEST - 144, plate + PLATE - 144, 132);
    put_word(part + LONGEST - 12, V);
    put_word(part + LONGEST - 8, FACES);
    put_word(part + LONGEST - 4, 80 * FACES + 144);
}

static void layout(void) {
    const size_t at[9] = {offsetof(gablemadder_fault_row, kind),  offsetof(gablemadder_fault_row, severity), offsetof(gablemadder_fault_row, count),
                          offsetof(gablemadder_fault_row, a),     offsetof(gablemadder_fault_row, b),        offsetof(gablemadder_fault_row, waived),
                          offsetof(gablemadder_fault_row, x),     offsetof(gablemadder_fault_row, y),        offsetof(gablemadder_fault_row, z)};
    const size_t want[9] = {0, 4, 8, 12, 16, 20, 24, 32, 40};
    expect("the fields' places", memcmp(at, want, sizeof at) == 0);
}

static void sizes(void) {
    size_t v = 0, p = 0;
    expect("counts of the plate", gablemadder_counts(plate, PLATE, &v, &p) == 1 && v == 24 && p == 6);
    expect("words of the plate", gablemadder_words(plate, PLATE) == 12 * 6 + 8 * 24 + 1024);
    expect("reals of the plate", gablemadder_reals(plate, PLATE) == 24 * 6 + 8 * 24 + 2048);
    expect("no words of a file too short", gablemadder_words(NULL, 0) == 0 && gablemadder_words(plate, 143) == 0);
    expect("no reals of a file too long", gablemadder_reals(plate, PLATE + 1) == 0);
}

static void refusals(void) {
    refused("no file", NULL, 0, GABLEMADDER_TOO_SHORT);
    refused("143 bytes", plate + PLATE - 143, 143, GABLEMADDER_TOO_SHORT);
    changed("edition 2", 16, 2, GABLEMADDER_WRONG_EDITION);
    changed("65,560 vertices", 10, 1, GABLEMADDER_TOO_LARGE);
    changed("another back", 4, 1, GABLEMADDER_WRONG_LENGTH);
    refused("a byte more", plate, PLATE + 1, GABLEMADDER_WRONG_EDITION);
    changed("process 5", 144, 5, GABLEMADDER_BAD_JOB);
    changed("a vertex far off", PLATE - 7, 0x7f, GABLEMADDER_BAD_VERTEX);
    changed("2 vertices", 144 + 80 - 12, 2, GABLEMADDER_BAD_POLYGON);
    put_triangles();
    refused("1,025 faces", part, LONGEST, GABLEMADDER_TOO_MANY_FACES);
    memcpy(part, part + 24, 24);
    refused("two vertices alike", part, LONGEST, GABLEMADDER_FLAT_POLYGON);
}

static void lent(void) {
    expect("0", check(plate, PLATE, 4, sizeof report) == GABLEMADDER_ACCEPTED && written == wanted_len);
    expect("the report", memcmp(report, wanted, wanted_len) == 0 && same_bytes(report + wanted_len, 0x5a, sizeof report - wanted_len));
    expect("all zero after a report", lent_is(0));
    fill();
    expect("no scratch", gablemadder_check(plate, PLATE, NULL, 0, NULL, 0, rows, 4, report, sizeof report, &written) == GABLEMADDER_TOO_LITTLE_SCRATCH);
    expect("nothing changed", lent_is(0x5a) && same_bytes(report, 0x5a, sizeof report) && written == 77);
    expect("a byte too few", check(plate, PLATE, 4, wanted_len - 1) == GABLEMADDER_REPORT_TOO_LONG);
    expect("all zero after 12", lent_is(0) && same_bytes(report, 0x5a, sizeof report) && written == 77);
    fill();
    expect("no rows", gablemadder_check(plate, PLATE, words, sizeof words / sizeof *words, reals, sizeof reals / sizeof *reals, NULL, 0, NULL, 0,
                                        &written) == GABLEMADDER_TOO_MANY_FAULTS);
    expect("zero scratch after 11", same_bytes(words, 0, sizeof words) && same_bytes(reals, 0, sizeof reals) && written == 77);
}

static void numbers(void) {
    uint8_t out[GABLEMADDER_LEAST_DECIMAL];
    expect("a decimal", gablemadder_decimal(0.125, 2, out, sizeof out, &written) == 0 && written == 4 && memcmp(out, "0.12", 4) == 0);
    memset(out, 0x5a, sizeof out);
    written = 77;
    expect("below 0", gablemadder_decimal(-1.0, 2, out, sizeof out, &written) == GABLEMADDER_NO_DECIMAL);
    expect("no buffer", gablemadder_decimal(1.0, 2, NULL, 0, &written) == GABLEMADDER_NO_DECIMAL);
    expect("nothing written", same_bytes(out, 0x5a, sizeof out) && written == 77);
    expect("the root of 4", gablemadder_sqrt(4.0) == 2.0);
    expect("the root of 2 by its bits", gablemadder_sqrt_bits(0x4000000000000000u) == 0x3FF6A09E667F3BCDu);
}

/* A call whose answer is a refusal: nothing is changed. */
static void obj_refused(const char *what, const char *text, size_t job_len, size_t out_len, uint32_t number) {
    fill();
    expect(what, gablemadder_obj((const uint8_t *)text, strlen(text), plate + PLATE - 144, job_len, report, out_len, &written) == number);
    expect(what, same_bytes(report, 0x5a, sizeof report) && written == 77);
}

/* A triangle, its part file and each refusal. */
static void obj(void) {
    static const char text[] = "v 0 0 0\nv 20 0 0\nv 0 20 0\ng 7\nf 1 2 3";
    const size_t length = GABLEMADDER_FILE_LENGTH(3, 1);
    size_t v = 0, p = 0;
    expect("enough room", gablemadder_obj_room(sizeof text - 1) >= length && gablemadder_obj_room(0) >= 144);
    expect("room of the most", gablemadder_obj_room((size_t)-1) == GABLEMADDER_FILE_LENGTH(GABLEMADDER_MOST_VERTICES, GABLEMADDER_MOST_POLYGONS));
    fill();
    expect("a part file", gablemadder_obj((const uint8_t *)text, sizeof text - 1, plate + PLATE - 144, 128, report, sizeof report, &written) == 0);
    expect("its length", written == length && same_bytes(report + length, 0x5a, sizeof report - length));
    expect("its counts", gablemadder_counts(report, written, &v, &p) == 1 && v == 3 && p == 1);
    expect("its job", memcmp(report + length - 144, plate + PLATE - 144, 128) == 0);
    expect("no text", gablemadder_obj(NULL, 0, plate + PLATE - 144, 128, report, 144, &written) == 0 && written == 144);
    expect("its check", gablemadder_check(report, 144, words, 1024, reals, 2048, NULL, 0, wanted, sizeof wanted, &written) == 0);
    obj_refused("another line", "v 1 2\nf 1 2 3\n", 128, sizeof report, GABLEMADDER_BAD_LINE);
    obj_refused("no such vertex", "v 1 2 3\nf 1 1 2\nx", 128, sizeof report, GABLEMADDER_UNDEFINED_VERTEX);
    obj_refused("a short job", text, 127, sizeof report, GABLEMADDER_BAD_JOB);
    obj_refused("a long job", text, 129, 0, GABLEMADDER_BAD_JOB);
    obj_refused("a byte too few", text, 128, length - 1, GABLEMADDER_OUTPUT_TOO_SHORT);
}

static size_t read_file(const char *path, uint8_t *bytes, size_t most) {
    FILE *file = fopen(path, "rb");
    size_t length = file == NULL ? 0 : fread(bytes, 1, most, file);
    if (file != NULL) fclose(file);
    return length;
}

int main(int argc, char **argv) {
    if (argc != 3 || read_file(argv[1], plate, sizeof plate) != PLATE) return 2;
    wanted_len = read_file(argv[2], wanted, sizeof wanted);
    layout();
    sizes();
    refusals();
    lent();
    numbers();
    obj();
    printf("header: %d facts of calls, %d wrong\n", calls, wrong);
    return wrong != 0;
}
