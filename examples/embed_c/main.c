/* embed_c SHEET: prints where each event of a sheet file starts and how long it is, then runs the sheet.
 * embed_c report SHEET...: runs the sheets over one report of waiting, and prints it as a table.
 *
 * Build, after `embed/build`, from the repository's top:
 *     cc -std=c99 examples/embed_c/main.c -I embed -L target/staticlib -lembed -o embed_c
 */
#include <errno.h>
#include <inttypes.h>
#include <stdio.h>
#include <stdlib.h>
#include <string.h>
#include "gudlemi.h"

enum { BOOK_LENGTH = 65536 };

static uint8_t sheet[GUDLEMI_LONGEST_SHEET + 1]; /* one byte more shows that a file is too long */
static uint8_t book[BOOK_LENGTH];
static struct gudlemi_report report; /* all zeros: no waiting */

/* Ends the program with what is wrong with the sheet file. */
static void stop(const char *name, const char *fault)
{
    fprintf(stderr, "embed_c: %s: %s\n", name, fault);
    exit(1);
}

/* Reads the whole file into `sheet`; the answer is its length. */
static size_t read_sheet(const char *name)
{
    FILE *file = fopen(name, "rb");
    if (file == NULL)
        stop(name, strerror(errno));
    size_t length = fread(sheet, 1, sizeof sheet, file);
    if (ferror(file))
        stop(name, strerror(errno));
    fclose(file);
    if (length > GUDLEMI_LONGEST_SHEET)
        stop(name, "sheet too long");
    return length;
}

/* Walks the events: each one's byte index and length, and at last the bytes that are none, if there are such. */
static void print_events(size_t sheet_length)
{
    size_t at = 0;
    size_t length;
    while ((length = gudlemi_event_length(sheet, sheet_length, at)) > 0) {
        printf("byte %zu: event of %zu bytes\n", at, length);
        at += length;
    }
    unsigned refusal = gudlemi_event_refusal(sheet, sheet_length, at);
    if (refusal != 0)
        printf("byte %zu: no event, refused %u\n", at, refusal);
}

/* A text buffer that is long enough for any sheet of this length. */
static uint8_t *text_for(const char *name, size_t text_length)
{
    uint8_t *text = malloc(text_length);
    if (text == NULL)
        stop(name, "no memory for the text");
    return text;
}

/* Runs the sheet and prints the text. */
static void print_run(const char *name, size_t sheet_length)
{
    size_t text_length = gudlemi_text_bound(sheet_length);
    uint8_t *text = text_for(name, text_length);
    size_t printed = gudlemi_run(sheet, sheet_length, book, BOOK_LENGTH, text, text_length);
    if (printed == GUDLEMI_TOO_SHORT)
        stop(name, "the text buffer is too short");
    fwrite(text, 1, printed, stdout);
    free(text);
}

/* Runs the sheet over the report, which grows; the text is not looked at. */
static void count_run(const char *name, size_t sheet_length)
{
    size_t text_length = gudlemi_text_bound(sheet_length);
    uint8_t *text = text_for(name, text_length);
    size_t printed = gudlemi_run_reported(sheet, sheet_length, book, BOOK_LENGTH, text, text_length, &report);
    if (printed == GUDLEMI_TOO_SHORT)
        stop(name, "the text buffer is too short");
    free(text);
}

/* A line of the table: the row, with its mean and what remains. */
static void print_row(const char *first, const struct gudlemi_row *row)
{
    uint64_t mean = gudlemi_mean(row->times, row->sum);
    uint64_t remainder = gudlemi_remainder(row->times, row->sum);
    printf("%4s %9" PRIu64 " %9" PRIu64 " %9" PRIu64, first, row->times, row->sum, row->largest);
    printf(" %9" PRIu64 " %9" PRIu64 " %9" PRIu64 "\n", mean, remainder, row->unended);
}

/* The report as a table: a line for each lane with any wait, then one for all. */
static void print_report(void)
{
    char lane[8];
    printf("lane     times       sum   largest      mean remainder   unended\n");
    for (int i = 0; i < GUDLEMI_LANES; i++) {
        if (report.lane[i].times == 0 && report.lane[i].unended == 0)
            continue;
        snprintf(lane, sizeof lane, "%d", i);
        print_row(lane, &report.lane[i]);
    }
    print_row("all", &report.all);
}

static void print_sheet(const char *name)
{
    size_t sheet_length = read_sheet(name);
    print_events(sheet_length);
    print_run(name, sheet_length);
}

int main(int argc, char **argv)
{
    if (argc == 2) {
        print_sheet(argv[1]);
    } else if (argc > 2 && strcmp(argv[1], "report") == 0) {
        for (int i = 2; i < argc; i++)
            count_run(argv[i], read_sheet(argv[i]));
        print_report();
    } else {
        fprintf(stderr, "use: embed_c SHEET, or embed_c report SHEET...\n");
        return 2;
    }
    if (fflush(stdout) != 0 || ferror(stdout))
        stop("standard output", strerror(errno));
    return 0;
}
