/* line_c start FILE: opens a line, makes calls on it, and saves its state and its book in the file.
 * line_c go-on FILE: goes on from the file, in another process: the lane that was woken makes its calls, and the book is printed.
 *
 * Build, after `embed/build`, from the repository's top:
 *     cc -std=c99 examples/line_c/main.c -I embed -L target/staticlib -lembed -o line_c
 */
#define _POSIX_C_SOURCE 200809L /* for fsync */
#include <errno.h>
#include <inttypes.h>
#include <stdio.h>
#include <stdlib.h>
#include <string.h>
#include <unistd.h>
#include "gudlemi.h"

enum { LANES = 4, BOOK_LENGTH = 512, RECORD = 8 };

/* All that a line is: its state, and its book. They lie one after the other in the file. */
static uint8_t state[GUDLEMI_STATE_LENGTH];
static uint8_t book[BOOK_LENGTH];

/* How many calls this process has made; their lines are numbered by it. */
static uint64_t calls;

/* Ends the program with what is wrong, and with which file or call. */
static void stop(const char *name, const char *fault)
{
    fprintf(stderr, "line_c: %s: %s\n", name, fault);
    exit(1);
}

/* ---- The calls: each writes its body, and leaves the rest to `call`. */

/* Makes a call and prints its answer. In this program every call must be accepted. */
static void call(uint8_t kind, const uint8_t *body, size_t body_length)
{
    uint8_t answer[GUDLEMI_ANSWER_LENGTH];
    uint8_t text[GUDLEMI_TEXT_LENGTH];
    uint8_t status = gudlemi_call(state, sizeof state, book, sizeof book, kind, body, body_length, answer, sizeof answer);
    size_t length = gudlemi_answer_text(answer, sizeof answer, calls++, text, sizeof text);
    fwrite(text, 1, length, stdout);
    if (status != 0)
        stop("call", "refused");
    if (answer[2] == 1)
        printf("lane %u is to be told that it was woken\n", (unsigned)answer[3]);
}

static void open_line(uint8_t lanes, uint32_t capacity)
{
    uint8_t body[5] = {lanes};
    for (int i = 0; i < 4; i++)
        body[1 + i] = (uint8_t)(capacity >> (24 - 8 * i));
    call(GUDLEMI_CALL_OPEN, body, sizeof body);
}

static void want(uint8_t lane, uint8_t purpose)
{
    uint8_t body[2] = {lane, purpose};
    call(GUDLEMI_CALL_WANT, body, sizeof body);
}

static void receive(uint8_t lane)
{
    call(GUDLEMI_CALL_RECEIVE, &lane, 1);
}

static void take(uint8_t lane, uint16_t count)
{
    uint8_t body[3] = {lane, (uint8_t)(count >> 8), (uint8_t)count};
    call(GUDLEMI_CALL_TAKE, body, sizeof body);
}

/* The record is eight characters. */
static void write_record(uint8_t lane, const char *record)
{
    uint8_t body[1 + RECORD] = {lane};
    memcpy(body + 1, record, RECORD);
    call(GUDLEMI_CALL_WRITE, body, sizeof body);
}

/* ---- Saving and loading. */

/* Writes state and book to a new file, which then takes the place of the old one: a save that fails leaves that as it was. */
static void save(const char *name)
{
    size_t length = strlen(name);
    char *new_name = malloc(length + sizeof ".new");
    if (new_name == NULL)
        stop(name, "no memory for the name");
    memcpy(new_name, name, length);
    memcpy(new_name + length, ".new", sizeof ".new");
    FILE *file = fopen(new_name, "wb");
    if (file == NULL)
        stop(new_name, strerror(errno));
    if (fwrite(state, 1, sizeof state, file) != sizeof state || fwrite(book, 1, sizeof book, file) != sizeof book)
        stop(new_name, strerror(errno));
    if (fflush(file) != 0 || fsync(fileno(file)) != 0)
        stop(new_name, strerror(errno));
    if (fclose(file) != 0 || rename(new_name, name) != 0)
        stop(new_name, strerror(errno));
    free(new_name);
}

/* Reads state and book. Only a line that is sound with its book is gone on from. */
static void load(const char *name)
{
    FILE *file = fopen(name, "rb");
    if (file == NULL)
        stop(name, strerror(errno));
    size_t length = fread(state, 1, sizeof state, file);
    length += fread(book, 1, sizeof book, file);
    int more = getc(file) != EOF;
    if (ferror(file))
        stop(name, strerror(errno));
    fclose(file);
    if (length != sizeof state + sizeof book || more)
        stop(name, "not the length of a saved line");
    if (!gudlemi_is_sound(state, sizeof state, sizeof book))
        stop(name, "not a sound line");
}

/* ---- What the two processes do. */

/* Lane 0 gets the book at once. Lane 1 must wait, and is woken when lane 0 has taken its places. */
static void start(const char *name)
{
    gudlemi_unopened(state, sizeof state);
    open_line(LANES, BOOK_LENGTH);
    want(0, GUDLEMI_SHARED_WRITE);
    want(1, GUDLEMI_SHARED_WRITE);
    take(0, 2);
    write_record(0, "lane 0 a");
    write_record(0, "lane 0 b");
    save(name);
    printf("saved\n");
}

/* The records of the places that were handed out. */
static void print_book(void)
{
    uint64_t pointer = gudlemi_number(state, sizeof state, GUDLEMI_NUMBER_POINTER);
    uint64_t capacity = gudlemi_number(state, sizeof state, GUDLEMI_NUMBER_CAPACITY);
    for (uint32_t place = 0; place < pointer; place++) {
        uint64_t position = gudlemi_position(state, sizeof state, place);
        if (position + RECORD > capacity)
            return;
        printf("place %" PRIu32 " at byte %" PRIu64 ": ", place, position);
        fwrite(book + position, 1, RECORD, stdout);
        printf("\n");
    }
}

/* The wake of lane 1 is in the file. */
static void go_on(const char *name)
{
    load(name);
    uint64_t entry = gudlemi_lane(state, sizeof state, 1);
    if (entry == GUDLEMI_NOTHING || GUDLEMI_PHASE(entry) != GUDLEMI_PHASE_WOKEN)
        stop(name, "lane 1 was not woken");
    receive(1);
    take(1, 1);
    write_record(1, "lane 1 a");
    print_book();
}

int main(int argc, char **argv)
{
    if (gudlemi_layout() != GUDLEMI_LAYOUT)
        stop("libembed.a", "another layout than the header's");
    if (argc == 3 && strcmp(argv[1], "start") == 0) {
        start(argv[2]);
    } else if (argc == 3 && strcmp(argv[1], "go-on") == 0) {
        go_on(argv[2]);
    } else {
        fprintf(stderr, "use: line_c start FILE, or line_c go-on FILE\n");
        return 2;
    }
    if (fflush(stdout) != 0 || ferror(stdout))
        stop("standard output", strerror(errno));
    return 0;
}
