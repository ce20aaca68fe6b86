/* How many bytes of stack each function of libembed.a takes: it is run on a stack of its own that was filled with a pattern, and what is no longer the
 * pattern counts. The arguments are files of sheets; a line is printed for each function, its name and the most that it took on any of them, and on a sheet
 * of its own in which calls of every kind are accepted while more than a hundred of 128 lanes are busy. */
#define _XOPEN_SOURCE 700
#include <stdio.h>
#include <stdlib.h>
#include <string.h>
#include <ucontext.h>

#include "gudlemi.h"

enum { STACK = 1 << 17, BOOK = 65536, PATTERN = 0xa5, KINDS = 12 };
#define PATTERN_WORD (UINT64_MAX / 0xff * PATTERN)

static uint64_t stack[STACK / 8];
static uint8_t book[BOOK], *sheet, *text;
static size_t length, room, at, kept;
static struct gudlemi_report report;
static ucontext_t here, there;

/* A line, the event that is called on it, and what is asked of it. */
static uint8_t state[GUDLEMI_STATE_LENGTH], answer[GUDLEMI_ANSWER_LENGTH], line_text[GUDLEMI_TEXT_LENGTH];
static uint8_t status, lane, number;
static size_t event;
static unsigned long accepted[KINDS + 1];

static void nothing(void) {}
static void run(void) { kept += gudlemi_run(sheet, length, book, BOOK, text, room); }
static void run_reported(void) { kept += gudlemi_run_reported(sheet, length, book, BOOK, text, room, &report); }
static void mean(void) { kept += gudlemi_mean(length, room); }
static void remainder_of(void) { kept += gudlemi_remainder(length, room); }
static void bound(void) { kept += gudlemi_text_bound(length); }
static void event_length(void) { kept += gudlemi_event_length(sheet, length, at); }
static void event_refusal(void) { kept += gudlemi_event_refusal(sheet, length, at); }
static void version(void) { kept += gudlemi_version(); }
static void unopened(void) { kept += gudlemi_unopened(state, sizeof state); }
static void call(void) { status = gudlemi_call(state, sizeof state, book, BOOK, sheet[at], sheet + at + 1, event - 1, answer, sizeof answer); }
static void is_sound(void) { kept += gudlemi_is_sound(state, sizeof state, BOOK); }
static void lane_of(void) { kept += gudlemi_lane(state, sizeof state, lane); }
static void number_of(void) { kept += gudlemi_number(state, sizeof state, number); }
static void position(void) { kept += gudlemi_position(state, sizeof state, UINT32_MAX - lane); }
static void answer_text(void) { kept += gudlemi_answer_text(answer, sizeof answer, UINT64_MAX, line_text, sizeof line_text); }
static void state_length(void) { kept += gudlemi_state_length(); }
static void answer_length(void) { kept += gudlemi_answer_length(); }
static void layout(void) { kept += gudlemi_layout(); }

static void fail(const char *what) {
    fprintf(stderr, "stack: %s\n", what);
    exit(1);
}

/* How many bytes from the start on are still the pattern. */
static size_t untouched(void) {
    const uint8_t *bytes = (const uint8_t *)stack;
    size_t words = 0, count;
    while (words < STACK / 8 && stack[words] == PATTERN_WORD) words++;
    for (count = 8 * words; count < STACK && bytes[count] == PATTERN; count++) {}
    if (count == 0) fail("a function takes the whole stack that it was given");
    return count;
}

/* The bytes that a function takes, with those of the call by which it is reached. */
static size_t taken(void (*function)(void)) {
    memset(stack, PATTERN, STACK);
    if (getcontext(&there) != 0) abort();
    there.uc_stack.ss_sp = stack;
    there.uc_stack.ss_size = STACK;
    there.uc_link = &here;
    makecontext(&there, function, 0);
    if (swapcontext(&here, &there) != 0) abort();
    return STACK - untouched();
}

/* The functions: by EVENTS those of a whole sheet; then those of an event, which are tried at the first indices; then the call, and by READERS what is asked
 * of a line and of an answer. */
enum { EVENTS = 10, CALL = 12, READERS = 13, FUNCTIONS = 18, INDICES = 64, CALLS = 2000 };
static const char *names[FUNCTIONS] = {"gudlemi_run", "gudlemi_run_reported", "gudlemi_mean", "gudlemi_remainder",
    "gudlemi_text_bound", "gudlemi_version", "gudlemi_state_length", "gudlemi_answer_length", "gudlemi_layout", "gudlemi_unopened",
    "gudlemi_event_length", "gudlemi_event_refusal", "gudlemi_call", "gudlemi_is_sound", "gudlemi_lane", "gudlemi_number",
    "gudlemi_position", "gudlemi_answer_text"};
static void (*const functions[FUNCTIONS])(void) = {run, run_reported, mean, remainder_of, bound, version, state_length, answer_length, layout,
    unopened, event_length, event_refusal, call, is_sound, lane_of, number_of, position, answer_text};
static size_t most[FUNCTIONS];

static void measure(int from, int to) {
    for (int i = from; i < to; i++) {
        size_t now = taken(functions[i]);
        if (most[i] < now) most[i] = now;
    }
}

/* The events of the sheet as single calls, from the unopened line that gudlemi_unopened has left: of each its call, and of the first ones and every
 * hundredth what is asked of the line after it. */
static void measure_calls(void) {
    for (size_t count = 0; count < CALLS; count++) {
        event = gudlemi_event_length(sheet, length, at);
        if (event == 0) return;
        measure(CALL, READERS);
        if (status == 0) accepted[sheet[at]]++;
        lane = (uint8_t)(count % GUDLEMI_LANES);
        number = (uint8_t)(count % 8);
        if (count < INDICES || count % 100 == 0) measure(READERS, FUNCTIONS);
        at += event;
    }
}

/* Measures each function on the sheet. */
static void measure_sheet(void) {
    room = gudlemi_text_bound(length);
    text = malloc(room);
    if (text == NULL) abort();
    measure(0, EVENTS);
    for (at = 0; at <= length && at < INDICES; at++) measure(EVENTS, CALL);
    at = 0;
    measure_calls();
    free(text);
}

/* Reads a sheet, and measures each function on it; whether it could be read. */
static int measure_file(const char *name) {
    FILE *file = fopen(name, "rb");
    if (file == NULL) return perror(name), 0;
    length = fread(sheet, 1, 1 << 20, file);
    fclose(file);
    measure_sheet();
    return 1;
}

/* Adds an event to the sheet: its kind, a byte, and the rest of its body as one number of this many bytes. */
static void add(uint8_t its_kind, uint8_t first, int bytes, uint64_t rest) {
    sheet[length++] = its_kind;
    sheet[length++] = first;
    while (bytes > 0) sheet[length++] = (uint8_t)(rest >> 8 * --bytes);
}

/* A view with displacement 4 and eight blocks of a record each, with gaps; then seeks through it. */
static void add_view_and_seeks(void) {
    add(GUDLEMI_CALL_VIEW, 0, 6, (uint64_t)4 << 24 | 16 << 8 | 8);
    for (uint8_t i = 0; i < 8; i++) {
        uint8_t block[4] = {0, (uint8_t)(2 * i), 0, 1};
        memcpy(sheet + length, block, sizeof block);
        length += sizeof block;
    }
    add(GUDLEMI_CALL_SEEK, 0, 4, 3);
    add(GUDLEMI_CALL_SEEK, 2, 4, 2);
}

/* 128 lanes write two records each; two of them are done early, wait for each other, read, and have the whole book while the others still write. */
static void make_sheet(void) {
    length = 0;
    add(GUDLEMI_CALL_OPEN, GUDLEMI_LANES, 4, BOOK);
    add_view_and_seeks();
    for (int i = GUDLEMI_LANES; i > 0; i--) add(GUDLEMI_CALL_ENTER, (uint8_t)(i - 1), 2, 2);
    for (int i = 0; i < GUDLEMI_LANES; i++) add(GUDLEMI_CALL_WRITE, (uint8_t)i, 8, UINT64_MAX);
    for (uint8_t i = 126; i < GUDLEMI_LANES; i++) add(GUDLEMI_CALL_WRITE, i, 8, 0);
    add(GUDLEMI_CALL_WANT, 127, 1, 1);
    add(GUDLEMI_CALL_WANT, 126, 1, 2);
    add(GUDLEMI_CALL_TAKE, 127, 2, 2);
    add(GUDLEMI_CALL_READ, 127, 0, 0);
    add(GUDLEMI_CALL_RECEIVE, 126, 0, 0);
    add(GUDLEMI_CALL_PUT, 126, 12, 0);
    add(GUDLEMI_CALL_LOOK, 126, 4, 0);
    add(GUDLEMI_CALL_FREE, 126, 0, 0);
    add(GUDLEMI_CALL_FREE, 126, 0, 0);
}

/* Measures on the sheet made here, and sees that it does what it is for. */
static void measure_made(void) {
    int busy = 0;
    memset(accepted, 0, sizeof accepted);
    make_sheet();
    measure_sheet();
    for (int kind = 1; kind <= KINDS; kind++)
        if (accepted[kind] == 0) fail("a kind is never accepted on the sheet made here");
    for (uint8_t i = 0; i < GUDLEMI_LANES; i++) busy += GUDLEMI_PHASE(gudlemi_lane(state, sizeof state, i)) == GUDLEMI_PHASE_WRITING;
    if (busy < 100) fail("too few lanes are busy on the sheet made here");
    if (status != 13) fail("the last call of the sheet made here is not refused with 13");
}

int main(int count, char **files) {
    size_t without = taken(nothing);
    sheet = malloc(1 << 20);
    if (sheet == NULL) abort();
    for (int i = 1; i < count; i++)
        if (!measure_file(files[i])) return 1;
    measure_made();
    for (int i = 0; i < FUNCTIONS; i++) printf("%s %zu\n", names[i], most[i] - without);
    free(sheet);
    return 0;
}
