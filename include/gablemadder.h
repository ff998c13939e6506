/*
 * Gablemadder: the check of a part before it is made. What C and C++ call of the static library libexports.a (`command/library` builds it).
 *
 * Every call ends, whatever it is passed, and answers with a number: 0, or the number of a refusal. What each buffer holds then is said at
 * each function, for refused calls too; the contracts in crates/exports/src say the same and are proved.
 *
 * What the caller owes: a pointer leads to as many elements as the length after it says (with a length of 0 it may be anything, NULL too);
 * no two buffers of a call overlap; `written` leads to a size_t. What a lent buffer holds before the call does not matter.
 * The library keeps nothing between calls and allocates nothing: threads may call it at once, each with buffers of its own; the part file, which is
 * only read, they may share. A check needs less than 256 KiB of stack, the part file of OBJ
 * text less than 1 MiB.
 *
 * For x86-64. Usable from C99 and from C++11.
 */
#ifndef GABLEMADDER_H
#define GABLEMADDER_H

#include <stddef.h>
#include <stdint.h>

#ifdef __cplusplus
extern "C" {
#endif

/* ---- refusals: tested by rising number, of OBJ text in the order 14 and 15 line by line, 3, 5, 16; the first that applies is the answer */
enum {
    GABLEMADDER_ACCEPTED = 0,
    GABLEMADDER_TOO_SHORT = 1,           /* shorter than 144 bytes */
    GABLEMADDER_WRONG_EDITION = 2,       /* edition not 1 */
    GABLEMADDER_TOO_LARGE = 3,           /* over 16,384 vertices or over 4,096 polygons */
    GABLEMADDER_WRONG_LENGTH = 4,        /* length not 24V + 80P + 144, or `back` wrong */
    GABLEMADDER_BAD_JOB = 5,             /* job out of the rules */
    GABLEMADDER_BAD_VERTEX = 6,          /* coordinate not finite or out of range */
    GABLEMADDER_BAD_POLYGON = 7,         /* polygon entry out of the rules, or vertices left after the last run */
    GABLEMADDER_FLAT_POLYGON = 8,        /* a polygon without a plane: its normal sum is shorter than 1e-14 */
    GABLEMADDER_TOO_MANY_FACES = 9,      /* over 1,024 faces */
    GABLEMADDER_TOO_LITTLE_SCRATCH = 10, /* f64 scratch under 24P + 8V + 2,048 or u32 scratch under 12P + 8V + 1,024 */
    GABLEMADDER_TOO_MANY_FAULTS = 11,    /* more faults than fault rows lent, or over 2,048 */
    GABLEMADDER_REPORT_TOO_LONG = 12,    /* report longer than its buffer */
    GABLEMADDER_NO_DECIMAL = 13,         /* decimal text: number not finite, below 0, or 2^60 and more; places over 3; buffer under 24 bytes */
    GABLEMADDER_BAD_LINE = 14,           /* OBJ text: a line of any other form */
    GABLEMADDER_UNDEFINED_VERTEX = 15,   /* OBJ text: a vertex number not yet defined */
    GABLEMADDER_OUTPUT_TOO_SHORT = 16    /* OBJ text: output buffer shorter than the part file */
};

/* ---- how much there may be */
#define GABLEMADDER_MOST_VERTICES 16384
#define GABLEMADDER_MOST_POLYGONS 4096
#define GABLEMADDER_MOST_FACES 1024
#define GABLEMADDER_MOST_ROWS 2048
/* No report is longer: it has a first line of at most 60 bytes, at most 2,048 lines of at most 301 bytes beside their faces, and at most 9,216 faces of
   at most 22 bytes (two for each fault, all 1,024 for the one fault that may name them all, and for hollows one for each polygon). */
#define GABLEMADDER_MOST_REPORT 1048576
/* The shortest buffer that the decimal writer takes. */
#define GABLEMADDER_LEAST_DECIMAL 24

/* ---- how much to lend for a part of V vertices and P polygons: elements, not bytes */
#define GABLEMADDER_WORDS(V, P) (12 * (size_t)(P) + 8 * (size_t)(V) + 1024)
#define GABLEMADDER_REALS(V, P) (24 * (size_t)(P) + 8 * (size_t)(V) + 2048)
/* Bytes of its part file. */
#define GABLEMADDER_FILE_LENGTH(V, P) (24 * (size_t)(V) + 80 * (size_t)(P) + 144)

/* The u32 of a part file, little-endian, that ends so many bytes before the file's end. */
static inline uint32_t gablemadder_trailer_word(const uint8_t *file, size_t file_len, size_t before_end) {
    const uint8_t *at = file + (file_len - before_end - 4);
    return (uint32_t)at[0] | (uint32_t)at[1] << 8 | (uint32_t)at[2] << 16 | (uint32_t)at[3] << 24;
}

/* Whether V and P can be taken from the file's trailer: 1, and they are put; or 0, and refusals 1 to 4 turn the file back, whatever is lent. */
static inline int gablemadder_counts(const uint8_t *file, size_t file_len, size_t *vertices, size_t *polygons) {
    size_t v, p;
    if (file_len < GABLEMADDER_FILE_LENGTH(0, 0)) return 0;
    v = gablemadder_trailer_word(file, file_len, 8);
    p = gablemadder_trailer_word(file, file_len, 4);
    if (v > GABLEMADDER_MOST_VERTICES || p > GABLEMADDER_MOST_POLYGONS || file_len != GABLEMADDER_FILE_LENGTH(v, p)) return 0;
    *vertices = v;
    *polygons = p;
    return 1;
}

/* How many words, and how many reals, to lend for this file; 0 where refusals 1 to 4 turn it back. */
static inline size_t gablemadder_words(const uint8_t *file, size_t file_len) {
    size_t v, p;
    return gablemadder_counts(file, file_len, &v, &p) ? GABLEMADDER_WORDS(v, p) : 0;
}

static inline size_t gablemadder_reals(const uint8_t *file, size_t file_len) {
    size_t v, p;
    return gablemadder_counts(file, file_len, &v, &p) ? GABLEMADDER_REALS(v, p) : 0;
}

/* How many bytes to lend for the part file of an OBJ text of so many bytes: a face takes 8 of the text at the least, which make 152 of the file. */
static inline size_t gablemadder_obj_room(size_t text_len) {
    const size_t most = GABLEMADDER_FILE_LENGTH(GABLEMADDER_MOST_VERTICES, GABLEMADDER_MOST_POLYGONS);
    size_t room = text_len < most ? 19 * (text_len + 1) + GABLEMADDER_FILE_LENGTH(0, 0) : most;
    return room < most ? room : most;
}

/* A fault while the check runs; the caller only lends the rows. A row of zeros is no fault. */
typedef struct {
    uint32_t kind;     /* the rule and the message, from 1 on */
    uint32_t severity; /* 0 error, 1 warning, 2 note */
    uint32_t count;    /* how many faults it stands for */
    uint32_t a;        /* faces by their numbers, or what they are found by */
    uint32_t b;
    uint32_t waived;   /* 0 while the fault stands */
    double x;          /* the numbers that the message prints and the job does not give */
    double y;
    double z;
} gablemadder_fault_row;

typedef char gablemadder_fault_row_has_48_bytes[sizeof(gablemadder_fault_row) == 48 ? 1 : -1];

/*
 * Checks a part file. `words` and `reals` are scratch; `rows` holds the faults, up to 2,048 of them; `report` takes the text.
 *
 *   0            the report stands in the first bytes of `report` and their number in *written; the bytes after them are as they were;
 *                all of `words`, `reals` and `rows` is zero
 *   11, 12       all of `words`, `reals` and `rows` is zero; `report` and *written are as they were
 *   1 to 10      nothing is changed
 *
 * Enough for every file: GABLEMADDER_WORDS and GABLEMADDER_REALS of its V and P, 2,048 rows, GABLEMADDER_MOST_REPORT bytes. What is lent
 * beyond that serves nothing, and is cleared too. For small parts it is faster to lend at most 64 rows, and more only on 11. The report is
 * text in UTF-8, each line ended by a line feed, with no zero at its end:
 *
 *   findings thickness bends height            the number of lines that follow; lengths as the 16 hexadecimal digits of the f64, - for none
 *   severity|rule|count|faces|message          a line for each finding; a face is feature:index, a comma between faces, - for none;
 *                                              there may be bars in the message, which comes last
 */
uint32_t gablemadder_check(const uint8_t *file, size_t file_len, uint32_t *words, size_t words_len, double *reals, size_t reals_len,
                           gablemadder_fault_row *rows, size_t rows_len, uint8_t *report, size_t report_len, size_t *written);

/*
 * Makes a part file of Wavefront OBJ text and a job, which is the file's job as it stands, 128 bytes. Of the text are read
 *
 *   v x y z      a vertex: three decimals of 1 to 15 digits each, a sign before them or none, at most one point anywhere, no exponent
 *   f a b c ..   a face: 3 to 64 numbers of vertices that stand above, from 1, no slashes: a polygon of the file, a plane of feature 1
 *   g n          the index of the faces that follow, below 2^32; 0 before the first
 *
 * with one or more spaces before each field but the first, and empty lines and those that start with #, which are passed over. A line ends in a line
 * feed or at the text's end. A decimal becomes the nearest f64.
 *
 *   0            the part file stands in the first bytes of `out` and their number in *written; the bytes after them are as they were
 *   14, 15       the first line of another form, or with a vertex number not yet defined
 *   3            over 16,384 corners of faces or over 4,096 faces
 *   5            a job not of 128 bytes
 *   16           `out` is shorter than the part file, GABLEMADDER_FILE_LENGTH(corners, faces)
 *
 * A refusal changes nothing. gablemadder_obj_room(text_len) bytes are always enough. A call's tables take 0.97 MB of stack. What
 * the job says is not looked at: gablemadder_check of the file can answer 5 for it, 6, 8 and 9 for its vertices and faces, and 10 to 12.
 */
uint32_t gablemadder_obj(const uint8_t *text, size_t text_len, const uint8_t *job, size_t job_len, uint8_t *out, size_t out_len, size_t *written);

/*
 * Writes x with so many places, at most 3, rounded from its exact value, an exact half to the even digit; -0.0 is written as 0.0 is.
 *
 *   0            the text stands in the first bytes of `out`, with no zero at its end, and their number in *written; the bytes after them are
 *                as they were
 *   13           nothing is changed
 */
uint32_t gablemadder_decimal(double x, uint32_t places, uint8_t *out, size_t out_len, size_t *written);

/* The f64 nearest to the exact root; -0.0 and infinity stay, NaN and other negative numbers give a NaN. */
double gablemadder_sqrt(double x);

/* The same by the number's bits; every NaN is 0x7FF8000000000000 then. */
uint64_t gablemadder_sqrt_bits(uint64_t b);

#ifdef __cplusplus
}
#endif

#endif
