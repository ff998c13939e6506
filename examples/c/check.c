/* Checks a part file: check PART. Prints its report, or why it is refused; ends with 0 for a report, 1 for a refusal, 2 for anything else. */
#include <stdio.h>
#include <stdlib.h>

#include "gablemadder.h"

/* All that a check is lent. */
typedef struct {
    uint32_t *words;
    double *reals;
    gablemadder_fault_row *rows;
    uint8_t *report;
    size_t words_len, reals_len, rows_len, report_len;
} buffers;

/* The file's bytes, for the caller to free; NULL where it can't be read. */
static uint8_t *read_file(const char *path, size_t *length) {
    /* a byte more than the longest part, so that a longer file is refused and not cut */
    const size_t most = GABLEMADDER_FILE_LENGTH(GABLEMADDER_MOST_VERTICES, GABLEMADDER_MOST_POLYGONS) + 1;
    uint8_t *bytes = NULL;
    FILE *file = fopen(path, "rb");
    if (file == NULL) return NULL;
    bytes = malloc(most);
    if (bytes != NULL) *length = fread(bytes, 1, most, file);
    if (bytes != NULL && ferror(file)) {
        free(bytes);
        bytes = NULL;
    }
    fclose(file);
    return bytes;
}

/* Enough for this file. A byte more than none, since malloc may have no answer to 0. */
static int lend(buffers *lent, const uint8_t *file, size_t length) {
    lent->words_len = gablemadder_words(file, length);
    lent->reals_len = gablemadder_reals(file, length);
    lent->rows_len = GABLEMADDER_MOST_ROWS;
    lent->report_len = GABLEMADDER_MOST_REPORT;
    lent->words = malloc(lent->words_len * sizeof *lent->words + 1);
    lent->reals = malloc(lent->reals_len * sizeof *lent->reals + 1);
    lent->rows = malloc(lent->rows_len * sizeof *lent->rows);
    lent->report = malloc(lent->report_len);
    return lent->words != NULL && lent->reals != NULL && lent->rows != NULL && lent->report != NULL;
}

static void take_back(buffers *lent) {
    free(lent->words);
    free(lent->reals);
    free(lent->rows);
    free(lent->report);
}

/* Checks the part and prints the answer. */
static int check(const uint8_t *file, size_t length) {
    buffers lent;
    size_t written = 0;
    uint32_t refusal;
    int result = 2;
    if (lend(&lent, file, length)) {
        refusal = gablemadder_check(file, length, lent.words, lent.words_len, lent.reals, lent.reals_len, lent.rows, lent.rows_len, lent.report,
                                    lent.report_len, &written);
        result = refusal == GABLEMADDER_ACCEPTED ? 0 : 1;
        if (refusal != GABLEMADDER_ACCEPTED) printf("refused %u\n", (unsigned)refusal);
        fwrite(lent.report, 1, written, stdout);
    }
    take_back(&lent);
    return result;
}

int main(int argc, char **argv) {
    size_t length = 0;
    uint8_t *file;
    int result;
    if (argc != 2) {
        fprintf(stderr, "usage: check PART\n");
        return 2;
    }
    file = read_file(argv[1], &length);
    if (file == NULL) {
        perror(argv[1]);
        return 2;
    }
    result = check(file, length);
    free(file);
    return result;
}
