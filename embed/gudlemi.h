/* The functions of libembed.a, for C (C99 and later) and C++.
 *
 * There are two ways to use it. A line that runs: its state lies in bytes that you keep, and gudlemi_call makes one
 * call on it after the other ("Single calls", below). A sheet, which is a row of calls as bytes: gudlemi_run runs it
 * whole, from a line that is not yet open ("Sheets", below). In both the book is the lent bytes in which the lanes'
 * records are written. Calls and book are described in document 01; "The calls" has them in short.
 *
 * A line that runs, with three lanes; what comes back is in "Single calls":
 *
 *     uint8_t state[GUDLEMI_STATE_LENGTH], book[256], answer[GUDLEMI_ANSWER_LENGTH];
 *     const uint8_t open[5] = {3, 0, 0, 1, 0}, want[2] = {0, GUDLEMI_SHARED_WRITE}, take[3] = {0, 0, 2};
 *     gudlemi_unopened(state, sizeof state);
 *     gudlemi_call(state, sizeof state, book, sizeof book, GUDLEMI_CALL_OPEN, open, 5, answer, sizeof answer);
 *     gudlemi_call(state, sizeof state, book, sizeof book, GUDLEMI_CALL_WANT, want, 2, answer, sizeof answer);
 *                  (answer[0] is GUDLEMI_WORD_HOLDS; where another lane has the turn, GUDLEMI_WORD_WAITS)
 *     gudlemi_call(state, sizeof state, book, sizeof book, GUDLEMI_CALL_TAKE, take, 3, answer, sizeof answer);
 *                  (GUDLEMI_WORD_REGION: lane 0 has places 0 and 1, and writes them by two 05)
 *
 * To link, with this header and libembed.a in the folder: cc main.c -I. -L. -lembed. From the library's repository the
 * archive is made with `embed/build`, which writes target/staticlib/libembed.a.
 *
 * It is for x86-64 Linux. Of the C library it needs memcpy and memset alone.
 *
 * What the caller owes, for every function below. The proof takes it for granted and the functions cannot test it:
 *
 *   - A pointer and the length after it name that many bytes, which may be read; those of `book` and `text`, and of
 *     `state` and `answer` where they are not const, may also be written. No length is above PTRDIFF_MAX.
 *   - No pointer is null, also where the length is 0. With length 0 any pointer that is not null will do, as the
 *     address of a variable: nothing is read or written through it. (malloc(0) may answer null.)
 *   - `report` names a whole struct gudlemi_report that may be read and written, is not null, and is aligned to
 *     8 bytes as every variable of that type is. Each of its numbers has been set: memory fresh from malloc won't do.
 *   - What is handed to one function shares no byte: neither `sheet`, `book`, `text` and `report`, nor `state`,
 *     `book`, `body` and `answer`, nor `answer` and `text`. (Of two that are both const it may.)
 *   - While a function runs, no other thread writes what it is handed as const, and none reads or writes the rest.
 *
 * The functions keep nothing from call to call but what lies in the bytes that you lend: no heap, no static data, no
 * locks. They end on all bytes. Several threads can call them at once, each with its own book, text, report, state and
 * answer; what is const can be read by several. A line that several threads or processes call has one caller at a
 * time: a lock of yours, or one thread that makes all calls. (docs/DEPLOYMENT.md of the library's repository has a
 * process that does so for lanes that are processes, and outlives power cuts.)
 */
#ifndef GUDLEMI_H
#define GUDLEMI_H

#include <stddef.h>
#include <stdint.h>

#if !defined(__x86_64__) || !defined(__LP64__)
#error "libembed.a is for x86-64 with pointers of 64 bits"
#endif

#ifdef __cplusplus
extern "C" {
#endif

/* The version that this header is of: 10,000 for its first part, 100 for the second, 1 for the third. */
#define GUDLEMI_VERSION 20200

/* The most lanes that a line can have, and the rows of a report that are for one lane each. */
#define GUDLEMI_LANES 128

/* What a function that prints answers where `text` may be too short: the greatest number, which is no length. */
#define GUDLEMI_TOO_SHORT ((size_t)-1)

/* The most bytes of a sheet that is run; a longer one gets 17. */
#define GUDLEMI_LONGEST_SHEET 65536

/* ---- The calls ---------------------------------------------------------------------------------------------------
 *
 * A call is a kind, one byte, and a body: its fields one after the other, big-endian. The number after a field is its
 * width in bytes: `lane 1` is a lane's number in one byte. Lanes are 0 to N - 1.
 *
 *   01 open     lanes 1, capacity 4     opens the line with N lanes, zeroes the book's first capacity bytes
 *   02 want     lane 1, purpose 1       an idle lane asks for the turn: it holds, or waits
 *   03 receive  lane 1                  a lane that was woken takes its wake, and holds
 *   04 take     lane 1, count 2         a holder (purpose 0, 1) takes count places as its region and releases the turn
 *   05 write    lane 1, record 8        a lane with a region to write writes its next record into the book
 *   06 read     lane 1                  a lane with a region to read reads its next record
 *   07 put      lane 1, place 4, record 8   a holder of purpose 2 writes a record anywhere
 *   08 look     lane 1, place 4         a holder of purpose 2 reads a record anywhere
 *   09 free     lane 1                  a holder of purpose 2 releases the turn
 *   0A enter    lane 1, count 2         an idle lane enters an ordered call; when all N have, each gets a region to
 *                                       write, in the order of their numbers
 *   0B view     displacement 4, extent 2, blocks 1, eight times (start 2, length 2)   which records are shown: always
 *                                       39 bytes, blocks that are not in use zero; the pointer becomes 0
 *   0C seek     whence 1, offset 4      moves the pointer; the offset is signed (two's complement)
 *
 * The turn. One lane at a time holds it, and with it the pointer, the next place that is handed out. A release wakes
 * the next waiting lane by number after the releasing one, upwards and then from 0, not the one that has waited
 * longest. A lane that waits d lanes above the one that has the turn, so counted, is woken by one of the next d
 * releases.
 *
 * Regions. A lane that has its region writes or reads it without holding, also while another lane holds with purpose
 * 2. Who needs the book unchanged looks that no lane is in phase 4. After the last record of its region a lane is
 * idle; with count 0 at once. A region cannot be given back. No call takes a turn, a wake or a region from a lane that
 * makes no more calls.
 *
 * Ordered calls. 0A is accepted while all lanes are idle or gathered, and while a lane is gathered no 02 is: see that
 * all lanes are ready to enter before the first one does. After the last 0A each lane's region is told by gudlemi_lane:
 * phase 4 with its first place and its records, or idle where its count is 0.
 *
 * Records. A place counts records of 8 bytes as the view shows them; a position counts bytes from the book's start.
 * The size is the end of the furthest record written. A record that ends past the size is answered `none`, which uses
 * up a place of a reader's region; one below it of which no byte was written is 0. After 01 the view is the plain one:
 * displacement 0, extent 1, one block (0, 1), so that place k is at 8 * k. The end of the book, in places, is the
 * number of places whose record starts below the size.
 *
 * A refused call changes nothing. Its number is the lowest that applies:
 *
 *    1  the state bytes are no line, or one that breaks a rule, as where its capacity is above book_length
 *    2  the kind is not 01 to 0C
 *    3  the body is cut short
 *    4  a call other than 01 comes before the line is open
 *    5  01 comes to an open line
 *    6  the lanes of 01 are not 1 to 128
 *    7  the capacity of 01 is not 8 to 65,536, or exceeds the book
 *    8  the lane is not below N
 *    9  the purpose of 02 or the whence of 0C is above 2
 *   10  the view of 0B breaks a rule: displacement at most the capacity; extent 1 to 1,024; 1 to 8 blocks, each of
 *       length 1 at least, starting at or past the end of the one before and ending within the extent; the others zero
 *   11  0B or 0C while a lane is not idle; 0A while a lane is neither idle nor gathered
 *   12  02 while a lane is gathered
 *   13  the lane's phase or purpose does not allow the call, except where 14 applies
 *   14  03 to a waiting lane: no wake yet
 *   15  0C, or 04 of purpose 1, would put the pointer below 0 or above 65,536
 *   16  the records of 04 of purpose 0, of 07, or of 0A with all gathered so far, do not fit the capacity
 *
 * What is said here in short is in document 01 call by call, and in docs/SHEETS.md of the library's repository. */

/* The kinds. */
enum {
    GUDLEMI_CALL_OPEN = 0x01, GUDLEMI_CALL_WANT = 0x02, GUDLEMI_CALL_RECEIVE = 0x03, GUDLEMI_CALL_TAKE = 0x04,
    GUDLEMI_CALL_WRITE = 0x05, GUDLEMI_CALL_READ = 0x06, GUDLEMI_CALL_PUT = 0x07, GUDLEMI_CALL_LOOK = 0x08,
    GUDLEMI_CALL_FREE = 0x09, GUDLEMI_CALL_ENTER = 0x0A, GUDLEMI_CALL_VIEW = 0x0B, GUDLEMI_CALL_SEEK = 0x0C
};

/* The purpose of 02: to write or read a region, in turn with others that do; or any record of the book. */
enum { GUDLEMI_SHARED_WRITE = 0, GUDLEMI_SHARED_READ = 1, GUDLEMI_WHOLE_BOOK = 2 };

/* The whence of 0C: the offset counts from place 0, from the pointer, or from the end of the book. */
enum { GUDLEMI_FROM_START = 0, GUDLEMI_FROM_POINTER = 1, GUDLEMI_FROM_END = 2 };

/* The refusals of a call. */
enum {
    GUDLEMI_REFUSED_STATE = 1, GUDLEMI_REFUSED_KIND = 2, GUDLEMI_REFUSED_BODY = 3, GUDLEMI_REFUSED_UNOPENED = 4,
    GUDLEMI_REFUSED_OPENED = 5, GUDLEMI_REFUSED_LANES = 6, GUDLEMI_REFUSED_CAPACITY = 7, GUDLEMI_REFUSED_LANE = 8,
    GUDLEMI_REFUSED_PURPOSE = 9, GUDLEMI_REFUSED_WHENCE = 9, GUDLEMI_REFUSED_VIEW = 10,
    GUDLEMI_REFUSED_NOT_IDLE = 11, GUDLEMI_REFUSED_GATHERED = 12, GUDLEMI_REFUSED_PHASE = 13,
    GUDLEMI_REFUSED_NO_WAKE = 14, GUDLEMI_REFUSED_POINTER = 15, GUDLEMI_REFUSED_ROOM = 16
};

/* ---- Single calls ------------------------------------------------------------------------------------------------
 *
 * The state of a line is GUDLEMI_STATE_LENGTH bytes that you keep. They hold no address, so that they can be copied,
 * stored and sent; kept together with the book they are a checkpoint, from which the line goes on, in another process
 * too. A call alters state and book in place: for a machine that may lose its power store state and book of one moment
 * in a second place, with a checksum of your own, before you drop the first. The library cannot tell a state from an
 * older one, nor whether a book is the one that belongs to it: what the rules ask of a line is not a checksum.
 *
 * Layout 1 of the state, big-endian, 1,216 bytes:
 *
 *      0   4  the mark 47 55 44 4C ("GUDL")
 *      4   4  the number of the layout, 1
 *      8   1  N, the number of lanes; 0 before 01
 *      9   4  capacity of the book in bytes
 *     13   4  size: the end of the furthest record written, in bytes
 *     17   4  pointer, a place
 *     21   4  the view: displacement in bytes
 *     25   2  extent in records
 *     27   1  blocks in use
 *     28  32  eight times start 2, length 2
 *     60   4  reserved, zero
 *     64 1024 an entry for each of 128 lanes: phase 1, purpose 1, records 2, place 4
 *   1088 128  a flag for each lane: 1 where it waits, is woken or holds
 *
 * An entry, by its phase; what is not named here is 0:
 *
 *      0 idle
 *      1 waiting   purpose
 *      2 woken     purpose, place: the pointer that the wake carries
 *      3 holding   purpose, place: the pointer
 *      4 writing   purpose 0, records left, place: the next one
 *      5 reading   purpose 1, records left, place: the next one
 *      6 gathered  records: its count
 *
 * Bytes are a line where the mark, the layout and the reserved bytes are as in the table, and each entry is one of
 * this list, with a purpose of 0 to 2. All other numbers may be any, as N, the flags, records and places, though the
 * line is then perhaps not sound. Each line has one state, and each state is one line. */
#define GUDLEMI_STATE_LENGTH 1216
#define GUDLEMI_ANSWER_LENGTH 16
#define GUDLEMI_LAYOUT 1

/* The answer to a call, big-endian, 16 bytes; the layout's number counts for it too:
 *
 *      0   1  its word, below; 0 where the call was refused
 *      1   1  its number in document 01: that of the refusal; of an accepted call the kind that has this answer, where
 *             two have it the lower one (holds 02, wrote 05, record and none 06)
 *      2   1  1 where a lane was woken, else 0
 *      3   1  that lane, else 0
 *      4   8  first value, else 0
 *     12   4  second value, else 0
 *
 * A lane that is answered GUDLEMI_WORD_WAITS does not go on before another call's answer has woken it; then it makes
 * its call 03. */
enum {
    GUDLEMI_WORD_REFUSED = 0,
    GUDLEMI_WORD_OPEN = 1,      /* lanes, capacity */
    GUDLEMI_WORD_HOLDS = 2,     /* pointer */
    GUDLEMI_WORD_WAITS = 3,
    GUDLEMI_WORD_REGION = 4,    /* start, count; a lane may be woken */
    GUDLEMI_WORD_WROTE = 5,     /* position */
    GUDLEMI_WORD_RECORD = 6,    /* the record's 8 bytes as a number */
    GUDLEMI_WORD_NONE = 7,      /* the record ends past the size */
    GUDLEMI_WORD_FREED = 8,     /* a lane may be woken */
    GUDLEMI_WORD_GATHERED = 9,  /* lanes are missing yet */
    GUDLEMI_WORD_ORDERED = 10,  /* pointer before, total */
    GUDLEMI_WORD_VIEW = 11,
    GUDLEMI_WORD_SEEK = 12      /* pointer */
};

/* The first (0) or the second (1) value of an answer. */
static inline uint64_t gudlemi_value(const uint8_t *answer, int which)
{
    uint64_t value = 0;
    int at, end = which == 0 ? 12 : 16;
    for (at = which == 0 ? 4 : 12; at < end; at++)
        value = value << 8 | answer[at];
    return value;
}

/* What a function answers where a buffer is too short; no refusal has these numbers. */
#define GUDLEMI_STATE_TOO_SHORT 254
#define GUDLEMI_ANSWER_TOO_SHORT 255

/* gudlemi_lane, gudlemi_number, gudlemi_position: there is none. No lane, number or position is this. */
#define GUDLEMI_NOTHING UINT64_MAX

/* Stores the state of a line that is not yet open at the start of `state`, and answers 0. Where state_length is below
 * GUDLEMI_STATE_LENGTH nothing is altered and the answer is GUDLEMI_STATE_TOO_SHORT. Bytes past
 * GUDLEMI_STATE_LENGTH are as they were, here and in gudlemi_call. */
uint8_t gudlemi_unopened(uint8_t *state, size_t state_length);

/* Makes one call on the line in `state`, over the book that belongs to it: the same bytes at each call, though they
 * may lie elsewhere. `body` has the fields of the kind; bytes past them are not looked at, fewer are refused with 3.
 *
 * Status: 0 where the call was accepted, else the number of the refusal, 1 to 16; or, where state_length is below
 * GUDLEMI_STATE_LENGTH, GUDLEMI_STATE_TOO_SHORT, and else, where answer_length is below GUDLEMI_ANSWER_LENGTH,
 * GUDLEMI_ANSWER_TOO_SHORT.
 *
 * An accepted call leaves the line after it in `state`, the book after it, and the answer at the start of `answer`. A
 * refused call leaves `state` and `book` as they were, and the refusal in `answer`. Where a buffer is too short
 * nothing is altered. Bytes of `answer` past GUDLEMI_ANSWER_LENGTH are as they were, and so are those of the book past
 * the capacity.
 *
 * Where a lane was woken, answer[2] is 1 and answer[3] that lane: tell it, so that it makes its call 03. */
uint8_t gudlemi_call(uint8_t *state, size_t state_length,
                     uint8_t *book, size_t book_length,
                     uint8_t kind, const uint8_t *body, size_t body_length,
                     uint8_t *answer, size_t answer_length);

/* 1 where the bytes are a sound line, one that keeps all rules of document 01, with a book of this length, and else 0,
 * as where state_length is below GUDLEMI_STATE_LENGTH. book_length may be any number. Every call looks at this first,
 * and is refused with 1 where it is not so (a short state gets GUDLEMI_STATE_TOO_SHORT). A line that is not yet open
 * is sound: where you need an open one, see that GUDLEMI_NUMBER_LANES is not 0. */
uint8_t gudlemi_is_sound(const uint8_t *state, size_t state_length, size_t book_length);

/* What a lane is doing: its entry of the state as one number, phase first. GUDLEMI_NOTHING where the bytes are no
 * line, or the lane is not below N, or not below 128; the phase of that, by GUDLEMI_PHASE, is 255, which is none.
 * Whether the line is sound is not looked at, here and in the next two. A line that is not sound may have any
 * numbers. */
uint64_t gudlemi_lane(const uint8_t *state, size_t state_length, uint8_t lane);

enum {
    GUDLEMI_PHASE_IDLE = 0, GUDLEMI_PHASE_WAITING = 1, GUDLEMI_PHASE_WOKEN = 2, GUDLEMI_PHASE_HOLDING = 3,
    GUDLEMI_PHASE_WRITING = 4, GUDLEMI_PHASE_READING = 5, GUDLEMI_PHASE_GATHERED = 6
};
#define GUDLEMI_PHASE(entry) ((uint8_t)((entry) >> 56))
#define GUDLEMI_PURPOSE(entry) ((uint8_t)((entry) >> 48))
#define GUDLEMI_RECORDS(entry) ((uint16_t)((entry) >> 32))
#define GUDLEMI_PLACE(entry) ((uint32_t)(entry))

/* A number of the line, by its index here. GUDLEMI_NOTHING where the bytes are no line, or there is no such index.
 * (The view's blocks are in the state from byte 28 on.) */
uint64_t gudlemi_number(const uint8_t *state, size_t state_length, uint8_t index);

enum {
    GUDLEMI_NUMBER_LANES = 0, GUDLEMI_NUMBER_CAPACITY = 1, GUDLEMI_NUMBER_SIZE = 2, GUDLEMI_NUMBER_POINTER = 3,
    GUDLEMI_NUMBER_DISPLACEMENT = 4, GUDLEMI_NUMBER_EXTENT = 5, GUDLEMI_NUMBER_BLOCKS = 6
};

/* The position of a place in the line's view: the byte of the book at which its record starts, also where that is past
 * the capacity: places from 0 on whose position plus 8 is at most the capacity are those that the book has. (Where the
 * view of a line that is not sound shows no record it is the displacement.) GUDLEMI_NOTHING where the bytes are no
 * line. */
uint64_t gudlemi_position(const uint8_t *state, size_t state_length, uint32_t place);

/* The printed line of an answer, as a run prints it, as `4 region 0 2 wakes 1`: `number`, which you choose (a run
 * counts its events from 0), the word, the values, '\n'. Numbers are decimal, a record is 16 hexadecimal digits, and
 * where a release wakes no lane it is `wakes none`. The line stands at the start of `text`, with no 0 byte after it.
 *
 * Answer: its length; 0 where the bytes are no answer (fewer than GUDLEMI_ANSWER_LENGTH, a word above 12, or any byte
 * other than that answer has there), and else, where text_length is below GUDLEMI_TEXT_LENGTH, GUDLEMI_TOO_SHORT. Both
 * leave `text` as it was. A refusal may have any number here. */
#define GUDLEMI_TEXT_LENGTH 56
size_t gudlemi_answer_text(const uint8_t *answer, size_t answer_length, uint64_t number,
                           uint8_t *text, size_t text_length);

/* GUDLEMI_STATE_LENGTH, GUDLEMI_ANSWER_LENGTH and GUDLEMI_LAYOUT of the library that is linked. */
size_t gudlemi_state_length(void);
size_t gudlemi_answer_length(void);
uint32_t gudlemi_layout(void);

/* ---- Sheets ------------------------------------------------------------------------------------------------------ */

/* gudlemi_text_bound: no length is enough. The same number. */
#define GUDLEMI_NO_BOUND ((size_t)-1)

/* A row of the report of waiting. A lane waits from the answer `waits` to the accepted release (04 or 09) whose answer
 * says that it wakes that lane. How long that was is the number of accepted releases, by any lane, after that answer
 * up to the one that wakes it, that one included. */
struct gudlemi_row {
    uint64_t times;   /* the waits that ended */
    uint64_t sum;     /* the releases that they took, added up */
    uint64_t largest; /* the most releases that one of them took */
    uint64_t unended; /* the waits that had not ended when their sheet's run did; they are in none of the others */
};

/* The report of waiting: 4,128 bytes with no gap between them, each number in the machine's own order of bytes.
 *
 * Up to version 1.2.0 it had rows for 64 lanes, and 2,080 bytes. The library cannot tell an old one: compile anew what
 * lends it, and see that gudlemi_version() is GUDLEMI_VERSION.
 *
 * A report of all zeros is the one with no waiting, as memset or `= {0}` makes it. Lend one to the runs of any number
 * of sheets, one after the other: it then has the waits of all of them. The rows of `lane` are those of lanes 0 to
 * 127, whichever of them a sheet's line has. `all` is counted beside them and grows from its own values. */
struct gudlemi_report {
    struct gudlemi_row lane[GUDLEMI_LANES];
    struct gudlemi_row all;
};

/* Runs a whole sheet, from a line that is not yet open, over the lent book, and prints a line of text for each event.
 *
 * Answer: how many bytes were printed. They stand at the start of `text`, in ASCII, each line ended by '\n' and the
 * last one being `end`, the size and the pointer. No 0 byte follows them; the bytes past them are as they were.
 *
 * A short text buffer: where text_length is below gudlemi_text_bound(sheet_length) the answer is GUDLEMI_TOO_SHORT,
 * nothing was run, and neither `book` nor `text` is altered. This goes by the length of the sheet alone, so it also
 * comes where the lines themselves would have had room.
 *
 * An empty sheet (sheet_length 0) prints `end 0 0` and leaves the book as it was.
 *
 * A short book: an opening whose capacity is above book_length is refused with 7, or with 6 where its lanes are not 1
 * to 128 as well; so no opening is accepted where the book is empty (book_length 0). The run goes on; a later opening
 * that fits is taken, and till then all other events are refused with 4. 65,536 bytes are enough for every opening.
 *
 * An accepted opening zeroes the first bytes of the book, as many as its capacity; the book need not be cleared
 * before. Bytes past the capacity are never altered, and a sheet with no accepted opening alters none.
 *
 * Bytes that are no event print `refused 2` (a kind that is not listed) or `refused 3` (a body cut short) and end the
 * run; `end` follows. Every other refusal of an event lets it go on.
 *
 * A long sheet: above GUDLEMI_LONGEST_SHEET bytes it is not run. It prints `0 refused 17` and `end 0 0`, and leaves
 * the book as it was. (Up to version 1.1.0 a sheet of any length was run.) */
size_t gudlemi_run(const uint8_t *sheet, size_t sheet_length,
                   uint8_t *book, size_t book_length,
                   uint8_t *text, size_t text_length);

/* Runs a whole sheet as gudlemi_run does, with the same answer, text and book, over a lent report that grows in place.
 *
 * What grows: a wait told and ended in this run adds 1 to `times` and its releases to `sum`, and becomes `largest`
 * where it took more; a wait told in this run and not ended when it ends adds 1 to `unended`. Each is added to the row
 * of its lane and to `all`. No number ever shrinks, and none wraps. The report is as lent where no wait is told, as on
 * an empty sheet; a run ended by 2 or 3 has counted what came before.
 *
 * A full report: where any number of any row is 2^63 or more before the run, also of a lane that the sheet's line does
 * not have, the sheet is not run. As for a long sheet it prints `0 refused 17` and `end 0 0`, on an empty sheet too,
 * and leaves the book as it was. In both cases the report is as lent, and so it is where the answer is
 * GUDLEMI_TOO_SHORT, which is looked for first. */
size_t gudlemi_run_reported(const uint8_t *sheet, size_t sheet_length,
                            uint8_t *book, size_t book_length,
                            uint8_t *text, size_t text_length,
                            struct gudlemi_report *report);

/* The mean of a row, from its times and its sum: sum / times, rounded down. It is 0 where times is 0. Both may be any
 * numbers. */
uint64_t gudlemi_mean(uint64_t times, uint64_t sum);

/* What remains of the sum: sum - times * mean, which is below times. It is 0 where times is 0. */
uint64_t gudlemi_remainder(uint64_t times, uint64_t sum);

/* The shortest text_length that a run takes for a sheet of this length: 56 for each byte, and 112. It is 112 for an
 * empty sheet, and GUDLEMI_NO_BOUND where that number has more than 64 bits, which no sheet in memory reaches. The
 * rule is the same for a sheet that is too long to be run. */
size_t gudlemi_text_bound(size_t sheet_length);

/* The length in bytes of the event at byte index `at` of a sheet, its kind byte counted: 2 to 40. The next event is at
 * `at` plus this length.
 *
 * It is 0 where there is no event: at the sheet's end, at any index past it, on an empty sheet, and where the bytes at
 * that index are none. gudlemi_event_refusal tells the end and such bytes apart. `at` may be any number. Whether a
 * line would accept the event is not looked at. */
size_t gudlemi_event_length(const uint8_t *sheet, size_t sheet_length, size_t at);

/* Why the bytes at byte index `at` of a sheet are no event: 2 where their kind is not 01 to 0C, 3 where the body is
 * cut short by the sheet's end.
 *
 * It is 0 where they are an event, and at the sheet's end, at any index past it, and on an empty sheet. */
uint8_t gudlemi_event_refusal(const uint8_t *sheet, size_t sheet_length, size_t at);

/* The version of the library that is linked, in the form of GUDLEMI_VERSION. */
uint32_t gudlemi_version(void);

/* ---- Stack and proof ---------------------------------------------------------------------------------------------
 *
 * Stack, in bytes, at most; measured by tests/embed on the stored sheets and on calls made for it, and bounded by no
 * proof:
 *
 *     gudlemi_run            71000
 *     gudlemi_run_reported   71000
 *     gudlemi_event_length     300
 *     gudlemi_event_refusal    300
 *     gudlemi_mean              16
 *     gudlemi_remainder         16
 *     gudlemi_text_bound        16
 *     gudlemi_version           16
 *     gudlemi_call           22000
 *     gudlemi_unopened        2600
 *     gudlemi_is_sound       14500
 *     gudlemi_lane             100
 *     gudlemi_number           100
 *     gudlemi_position         200
 *     gudlemi_answer_text     1200
 *     gudlemi_state_length      16
 *     gudlemi_answer_length     16
 *     gudlemi_layout            16
 *
 * Where the loader looks for memcpy and memset only when they are first called, a first gudlemi_run took no more. Much
 * of a run's stack is for the report, which is handed on by value inside the library.
 *
 * Each function is proved to answer and to leave exactly what its definitions say: in crates/embed/specs/Embedded.antt
 * and AnswerText.antt; of a call in crates/state_calls/specs, with the bytes in
 * crates/state_bytes/specs/StateBytes.antt and crates/answer_bytes/specs/AnswerBytes.antt; of a run in
 * crates/run/specs/Runs.antt (printed_by, left_by_run, text_in, report_by), from the state
 * `fresh` of crates/steps/specs/State.antt. What a report of waiting counts is in crates/report/specs: Rows, Growth and Lent. */

#ifdef __cplusplus
}
#endif

#endif
