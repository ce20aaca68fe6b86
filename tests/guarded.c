/* Made-up single calls with guard pages: guarded [SEED]. Each buffer ends right before a page that may not be touched, and in a second round starts right
 * after one, so that a read or a write outside of it ends the program. After each call it looks at what was altered and what must not be.
 *
 * Most states are a line that goes on from call to call; the others are that line damaged, or random bytes. It prints how often each status came, and
 * fails where one of 0 to 16, 254 and 255 never did. */
#include <signal.h>
#include <stdio.h>
#include <stdlib.h>
#include <string.h>
#include <sys/mman.h>
#include <unistd.h>

#include "gudlemi.h"

enum { INPUTS = 100000, ROOM = 2 * 4096, KINDS = 12, LINE_CALLS = 300, MOST_BODY = 48 };

/* A buffer: `room` lies between two pages that may not be touched, `at` is where the bytes of this input start; `before` is a copy of them. */
struct buffer {
    uint8_t *room, *at;
    size_t length;
    uint8_t before[ROOM];
};

static struct buffer state, book, body, answer, text;
static uint64_t seed = 20261117, random_state;
static unsigned long input, accepted, statuses[256];
static int round_number;

/* The line that goes on, and its book. */
static uint8_t line[GUDLEMI_STATE_LENGTH], line_book[ROOM];
static size_t line_book_length;

static void fail(const char *what)
{
    fprintf(stderr, "guarded: seed %llu, round %d, input %lu: %s\n", (unsigned long long)seed, round_number, input, what);
    exit(1);
}

static void check(int holds, const char *what)
{
    if (!holds) fail(what);
}

/* A byte outside of a buffer was touched. Only the library runs then, so that printing is safe here. */
static void touched(int signal_number)
{
    (void)signal_number;
    fprintf(stderr, "guarded: seed %llu, round %d, input %lu: a byte outside of the buffers was touched\n", (unsigned long long)seed, round_number, input);
    _exit(1);
}

/* ---- Numbers that look random: splitmix64. */
static uint64_t next_random(void)
{
    uint64_t z = random_state += 0x9e3779b97f4a7c15;
    z = (z ^ z >> 30) * 0xbf58476d1ce4e5b9;
    z = (z ^ z >> 27) * 0x94d049bb133111eb;
    return z ^ z >> 31;
}

static size_t below(size_t end) { return (size_t)(next_random() % end); }

/* True once in so many times. */
static int once_in(size_t times) { return below(times) == 0; }

static void random_bytes(uint8_t *bytes, size_t count)
{
    for (size_t i = 0; i < count; i++) bytes[i] = (uint8_t)next_random();
}

/* Mostly `usual`, and else one of the lengths about it, 0, 1, or up to 40 more. */
static size_t length_about(size_t usual)
{
    size_t others[] = {0, 1, usual - 1, usual, usual + 1, usual + below(40), below(usual)};
    return once_in(4) ? others[below(sizeof others / sizeof *others)] : usual;
}

/* ---- Buffers. */
static void map(struct buffer *buffer)
{
    size_t page = (size_t)sysconf(_SC_PAGESIZE);
    uint8_t *all = mmap(NULL, ROOM + 2 * page, PROT_NONE, MAP_PRIVATE | MAP_ANONYMOUS, -1, 0);
    if (ROOM % page != 0 || all == MAP_FAILED || mprotect(all + page, ROOM, PROT_READ | PROT_WRITE) != 0) fail("no memory with guard pages");
    buffer->room = all + page;
}

/* Gives the buffer its length and its place: before the second guard page, or after the first. */
static void place(struct buffer *buffer, size_t length)
{
    buffer->length = length;
    buffer->at = round_number == 0 ? buffer->room + ROOM - length : buffer->room;
}

static void keep(struct buffer *buffer) { memcpy(buffer->before, buffer->at, buffer->length); }

/* Whether the bytes from an index on are as they were. */
static int same_from(const struct buffer *buffer, size_t from)
{
    return buffer->length <= from || memcmp(buffer->at + from, buffer->before + from, buffer->length - from) == 0;
}

static int same(const struct buffer *buffer) { return same_from(buffer, 0); }

/* ---- Inputs. */
static void start_line(void)
{
    check(gudlemi_unopened(line, sizeof line) == 0, "an unopened line");
    line_book_length = once_in(8) ? below(12) : 8 + below(500);
    random_bytes(line_book, line_book_length);
}

/* Alters some bytes of the state, often by little and in its head or its first entries and flags. */
static void damage(void)
{
    static const size_t starts[] = {0, 4, 8, 8, 9, 13, 17, 21, 25, 27, 28, 60, 64, 72, 80, 1088};
    for (size_t count = 1 + below(3); count > 0 && state.length > 0; count--) {
        size_t at = once_in(4) ? below(state.length) : starts[below(sizeof starts / sizeof *starts)] + below(8);
        if (at < state.length) state.at[at] = (uint8_t)(once_in(2) ? next_random() : state.at[at] + 1u);
    }
}

/* Places a state, and its book; whether they are the line that goes on. */
static int make_state(void)
{
    size_t whole = GUDLEMI_STATE_LENGTH;
    int sort = (int)below(10);
    place(&state, length_about(whole));
    random_bytes(state.at, state.length);
    place(&book, once_in(12) ? below(600) : line_book_length);
    random_bytes(book.at, book.length);
    if (sort == 0) return 0;
    memcpy(state.at, line, state.length < whole ? state.length : whole);
    memcpy(book.at, line_book, book.length < line_book_length ? book.length : line_book_length);
    if (sort == 1) damage();
    return sort > 1 && state.length >= whole && book.length == line_book_length;
}

static void big_endian(uint8_t *bytes, int count, uint64_t number)
{
    while (count > 0) {
        bytes[--count] = (uint8_t)number;
        number >>= 8;
    }
}

/* A view that keeps the rules often: blocks one after the other, with gaps. */
static void make_view(uint8_t *bytes)
{
    size_t blocks = 1 + below(8), end = 0;
    memset(bytes, 0, 39);
    for (size_t i = 0; i < blocks; i++) {
        size_t start = end + below(3), length = 1 + below(3);
        big_endian(bytes + 7 + 4 * i, 2, start);
        big_endian(bytes + 9 + 4 * i, 2, length);
        end = start + length;
    }
    big_endian(bytes, 4, below(40));
    big_endian(bytes + 4, 2, end + below(3));
    bytes[6] = (uint8_t)blocks;
    if (once_in(4)) bytes[below(39)] ^= (uint8_t)next_random();
}

/* A kind that the phase of this lane allows, most times; and else any. */
static uint8_t make_kind(uint8_t lane)
{
    static const uint8_t by_phase[] = {GUDLEMI_CALL_WANT, GUDLEMI_CALL_RECEIVE, GUDLEMI_CALL_RECEIVE, GUDLEMI_CALL_TAKE,
        GUDLEMI_CALL_WRITE, GUDLEMI_CALL_READ, GUDLEMI_CALL_ENTER};
    static const uint8_t of_whole[] = {GUDLEMI_CALL_PUT, GUDLEMI_CALL_LOOK, GUDLEMI_CALL_FREE};
    uint64_t entry = gudlemi_lane(line, sizeof line, lane);
    if (once_in(25)) return (uint8_t)next_random();
    if (entry == GUDLEMI_NOTHING) return once_in(4) ? (uint8_t)(1 + below(KINDS)) : GUDLEMI_CALL_OPEN;
    if (once_in(3)) return (uint8_t)(1 + below(KINDS));
    if (GUDLEMI_PHASE(entry) == GUDLEMI_PHASE_HOLDING && GUDLEMI_PURPOSE(entry) == 2) return of_whole[below(3)];
    if (GUDLEMI_PHASE(entry) == GUDLEMI_PHASE_IDLE && once_in(2)) return GUDLEMI_CALL_ENTER;
    return by_phase[GUDLEMI_PHASE(entry)];
}

/* A body that the line accepts often: this lane, then small numbers. */
static void make_fields(uint8_t kind, uint8_t lane, uint8_t *bytes)
{
    memset(bytes, 0, MOST_BODY);
    bytes[0] = (uint8_t)(once_in(30) ? below(256) : lane);
    random_bytes(bytes + 5, 8);
    if (kind == GUDLEMI_CALL_OPEN) bytes[0] = (uint8_t)(once_in(4) ? below(256) : 1 + below(4));
    if (kind == GUDLEMI_CALL_OPEN) big_endian(bytes + 1, 4, once_in(5) ? below(70000) : below(line_book_length + 1));
    if (kind == GUDLEMI_CALL_WANT) bytes[1] = (uint8_t)below(once_in(20) ? 256 : 3);
    if (kind == GUDLEMI_CALL_TAKE || kind == GUDLEMI_CALL_ENTER) big_endian(bytes + 1, 2, below(once_in(8) ? 65536 : 5));
    if (kind == GUDLEMI_CALL_PUT || kind == GUDLEMI_CALL_LOOK) big_endian(bytes + 1, 4, once_in(8) ? next_random() : below(40));
    if (kind == GUDLEMI_CALL_VIEW) make_view(bytes);
    if (kind != GUDLEMI_CALL_SEEK) return;
    bytes[0] = (uint8_t)below(once_in(10) ? 256 : 3);
    big_endian(bytes + 1, 4, once_in(4) ? below(70000) : below(20) - 4);
}

/* Makes the input of a call; whether its state is the line that goes on. */
static int make_input(uint8_t *kind)
{
    static const size_t lengths[] = {0, 5, 2, 1, 3, 9, 1, 13, 5, 1, 3, 39, 5};
    uint8_t fields[MOST_BODY];
    int goes_on = make_state();
    uint8_t lane = (uint8_t)below(line[8] == 0 ? 1 : line[8]);
    *kind = make_kind(lane);
    make_fields(*kind, lane, fields);
    place(&body, once_in(6) || *kind > KINDS ? below(MOST_BODY) : lengths[*kind]);
    memcpy(body.at, fields, body.length);
    if (once_in(10)) random_bytes(body.at, body.length);
    place(&answer, length_about(GUDLEMI_ANSWER_LENGTH));
    random_bytes(answer.at, answer.length);
    place(&text, length_about(GUDLEMI_TEXT_LENGTH));
    random_bytes(text.at, text.length);
    return goes_on;
}

/* ---- What must hold. */
static uint8_t is_sound(void) { return gudlemi_is_sound(state.at, state.length, book.length); }

static uint64_t number_of(uint8_t index) { return gudlemi_number(state.at, state.length, index); }

static void keep_all(void)
{
    keep(&state);
    keep(&book);
    keep(&body);
    keep(&answer);
    keep(&text);
}

/* The functions that alter nothing, on the bytes as they are. */
static void check_readers(void)
{
    static const uint64_t most[] = {255, UINT32_MAX, UINT32_MAX, UINT32_MAX, UINT32_MAX, 65535, 255};
    uint8_t lane = (uint8_t)below(256), index = (uint8_t)below(once_in(4) ? 256 : 7);
    int is_line = number_of(GUDLEMI_NUMBER_LANES) != GUDLEMI_NOTHING;
    uint64_t number = number_of(index), entry = gudlemi_lane(state.at, state.length, lane);
    uint64_t position = gudlemi_position(state.at, state.length, once_in(2) ? (uint32_t)next_random() : (uint32_t)below(50));
    keep_all();
    check(is_sound() == 0 || is_line, "bytes that are no line are sound");
    check(is_line == (number_of(GUDLEMI_NUMBER_CAPACITY) != GUDLEMI_NOTHING), "one number is there and another is not");
    check((number == GUDLEMI_NOTHING) == (!is_line || index > 6), "a number is there, or is not");
    check(number == GUDLEMI_NOTHING || number <= most[index], "a number is larger than its field");
    check((position == GUDLEMI_NOTHING) == !is_line, "a position is there, or is not");
    check(entry == GUDLEMI_NOTHING || (is_line && lane < number_of(GUDLEMI_NUMBER_LANES)), "a lane that is not there");
    check(entry == GUDLEMI_NOTHING || GUDLEMI_PHASE(entry) <= GUDLEMI_PHASE_GATHERED, "a phase above 6");
    check(!is_sound() || lane >= number_of(GUDLEMI_NUMBER_LANES) || entry != GUDLEMI_NOTHING, "a lane of a sound line is not there");
    check(same(&state) && same(&book), "a function that only reads has altered its bytes");
}

/* The printed line of what stands in the answer buffer; whether it must be an answer is said by the caller. */
static void check_text(int is_answer)
{
    uint64_t number = once_in(2) ? next_random() : below(1000);
    size_t printed;
    keep_all();
    printed = gudlemi_answer_text(answer.at, answer.length, number, text.at, text.length);
    check(same(&answer), "the answer was altered by printing it");
    check(!is_answer || printed != 0, "an answer is taken for none");
    check(answer.length >= GUDLEMI_ANSWER_LENGTH || printed == 0, "a short answer is printed");
    if (printed == 0 || printed == GUDLEMI_TOO_SHORT) {
        check(same(&text), "the text was altered though nothing is printed");
        check(printed == 0 || text.length < GUDLEMI_TEXT_LENGTH, "a long text is called too short");
        return;
    }
    check(text.length >= GUDLEMI_TEXT_LENGTH && printed <= GUDLEMI_TEXT_LENGTH, "a line longer than its bound, or in a short text");
    check(text.at[printed - 1] == '\n' && memchr(text.at, '\n', printed) == text.at + printed - 1, "a line that is not one");
    check(same_from(&text, printed), "the text past the line was altered");
}

static void check_accepted(uint8_t kind, int was_sound)
{
    uint64_t capacity = number_of(GUDLEMI_NUMBER_CAPACITY);
    accepted++;
    check(was_sound && is_sound(), "an accepted call on, or to, a line that is not sound");
    check(kind >= 1 && kind <= KINDS, "a kind that is not listed was accepted");
    check(answer.at[0] >= GUDLEMI_WORD_OPEN && answer.at[0] <= GUDLEMI_WORD_SEEK, "the word of an accepted call");
    check(same_from(&book, (size_t)capacity), "the book past the capacity was altered");
    check(same_from(&state, GUDLEMI_STATE_LENGTH), "bytes past the state were altered");
    check(same_from(&answer, GUDLEMI_ANSWER_LENGTH), "bytes past the answer were altered");
}

static void check_refused(uint8_t status, int was_sound)
{
    static const uint8_t zeros[GUDLEMI_ANSWER_LENGTH - 2];
    check(same(&state) && same(&book), "a refused call altered the state or the book");
    check((status == 1) == !was_sound, "1 is given to a sound line, or not to another");
    check(answer.at[0] == GUDLEMI_WORD_REFUSED && answer.at[1] == status, "the answer of a refusal");
    check(memcmp(answer.at + 2, zeros, sizeof zeros) == 0, "a refusal with values");
    check(same_from(&answer, GUDLEMI_ANSWER_LENGTH), "bytes past the answer were altered");
}

static void check_call(uint8_t kind, uint8_t status, int was_sound)
{
    check(same(&body), "the body was altered");
    if (status >= GUDLEMI_STATE_TOO_SHORT) {
        int short_state = state.length < GUDLEMI_STATE_LENGTH;
        check(same(&state) && same(&book) && same(&answer), "a call with a short buffer altered something");
        check(status == (short_state ? GUDLEMI_STATE_TOO_SHORT : GUDLEMI_ANSWER_TOO_SHORT), "the wrong buffer is called too short");
        check(short_state || answer.length < GUDLEMI_ANSWER_LENGTH, "a buffer that is long enough is called too short");
        return;
    }
    check(status <= 16, "a status that is none");
    check(state.length >= GUDLEMI_STATE_LENGTH && answer.length >= GUDLEMI_ANSWER_LENGTH, "a call with a short buffer was made");
    if (status == 0) check_accepted(kind, was_sound);
    else check_refused(status, was_sound);
}

/* The line goes on from what the call left. */
static void go_on(void)
{
    memcpy(line, state.at, sizeof line);
    memcpy(line_book, book.at, book.length);
}

/* An unopened line in the state buffer, whatever its length. */
static void check_unopened(void)
{
    uint8_t status;
    keep(&state);
    status = gudlemi_unopened(state.at, state.length);
    if (state.length < GUDLEMI_STATE_LENGTH) {
        check(status == GUDLEMI_STATE_TOO_SHORT && same(&state), "an unopened line in a short state");
        return;
    }
    check(status == 0 && same_from(&state, GUDLEMI_STATE_LENGTH), "an unopened line");
    check(is_sound() && number_of(GUDLEMI_NUMBER_LANES) == 0, "an unopened line that is none");
}

static void try_input(void)
{
    uint8_t kind, status;
    int goes_on = make_input(&kind), was_sound = is_sound();
    check_text(0);
    check_readers();
    keep_all();
    status = gudlemi_call(state.at, state.length, book.at, book.length, kind, body.at, body.length, answer.at, answer.length);
    statuses[status]++;
    check_call(kind, status, was_sound);
    check(!goes_on || status != 1, "the line that goes on is refused with 1");
    if (status == 0 && goes_on) go_on();
    check_text(status <= 16);
    if (once_in(8)) check_readers();
    if (once_in(16)) check_unopened();
}

static void print_counts(void)
{
    printf("guarded: seed %llu, %d inputs at both ends, %lu accepted; by status:", (unsigned long long)seed, INPUTS, accepted);
    for (int status = 0; status < 256; status++)
        if (statuses[status] > 0) printf(" %d: %lu", status, statuses[status]);
    printf("\n");
    for (int status = 0; status < 256; status++)
        if ((status <= 16 || status >= GUDLEMI_STATE_TOO_SHORT) && statuses[status] == 0) {
            fprintf(stderr, "guarded: status %d never came\n", status);
            exit(1);
        }
}

int main(int count, char **words)
{
    struct buffer *buffers[] = {&state, &book, &body, &answer, &text};
    if (count > 1) seed = strtoull(words[1], NULL, 10);
    for (size_t i = 0; i < sizeof buffers / sizeof *buffers; i++) map(buffers[i]);
    signal(SIGSEGV, touched);
    for (round_number = 0; round_number < 2; round_number++) {
        random_state = seed;
        for (input = 0; input < INPUTS; input++) {
            if (input % LINE_CALLS == 0) start_line();
            try_input();
        }
    }
    print_counts();
    return fflush(stdout) != 0;
}
