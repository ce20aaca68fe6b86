/* Home: it alone has the line, makes the calls that lanes send, and answers them. */
#include <string.h>
#include "line_mpi.h"

/* ---- The line. */

/* Makes a call. In this program a refusal is a fault. */
static void make_call(struct home *home, uint8_t kind, const uint8_t *body, int length, uint8_t *answer)
{
    uint8_t status = gudlemi_call(home->state, sizeof home->state, home->book, sizeof home->book,
                                  kind, body, (size_t)length, answer, GUDLEMI_ANSWER_LENGTH);
    if (status != 0 && kind == GUDLEMI_CALL_OPEN)
        stop("the opening was refused with %u", (unsigned)status);
    if (status != 0)
        stop("call %02X of lane %u was refused with %u", (unsigned)kind, (unsigned)body[0], (unsigned)status);
}

void home_open(struct home *home, uint32_t lanes)
{
    uint8_t answer[GUDLEMI_ANSWER_LENGTH];
    uint8_t body[5];
    memset(home, 0, sizeof *home);
    home->lanes = lanes;
    put_number(body, 1, lanes);
    put_number(body + 1, 4, CAPACITY);
    gudlemi_unopened(home->state, sizeof home->state);
    make_call(home, GUDLEMI_CALL_OPEN, body, sizeof body, answer);
}

static uint64_t entry_of(const struct home *home, uint8_t lane)
{
    return gudlemi_lane(home->state, sizeof home->state, lane);
}

/* ---- Replies. */

/* Notes which lane has each place of a region. No place may be handed out twice. */
static void note_handed(struct home *home, uint8_t lane, uint32_t place, uint32_t records)
{
    for (uint32_t at = place; at < place + records; at++) {
        if (at >= PLACES)
            stop("lane %u was handed place %u, which the book does not have", (unsigned)lane, (unsigned)at);
        if (home->handed[at] != 0)
            stop("place %u was handed to lane %u, and before that to lane %u", (unsigned)at, (unsigned)lane,
                 (unsigned)home->handed[at] - 1);
        home->handed[at] = (uint8_t)(lane + 1);
    }
}

/* Adds the region that a lane has after its 04 or 0A. The view is the plain one, so that a region's places lie one
 * after the other in the file, and the position of the first is all that the lane needs. */
static void add_region(struct home *home, uint8_t lane, uint8_t *reply)
{
    uint64_t entry = entry_of(home, lane);
    if (GUDLEMI_PHASE(entry) != GUDLEMI_PHASE_WRITING)
        return;
    note_handed(home, lane, GUDLEMI_PLACE(entry), GUDLEMI_RECORDS(entry));
    put_number(reply + REPLY_POSITION, 8, gudlemi_position(home->state, sizeof home->state, GUDLEMI_PLACE(entry)));
    put_number(reply + REPLY_RECORDS, 2, GUDLEMI_RECORDS(entry));
}

static void send_reply(uint8_t lane, const uint8_t *reply)
{
    MPI_Send(reply, REPLY_LENGTH, MPI_BYTE, lane + 1, TAG_ANSWER, MPI_COMM_WORLD);
}

/* Makes a lane's call and answers it. The answer is left in `reply`. */
static void make_and_answer(struct home *home, uint8_t lane, const struct message *message, uint8_t *reply)
{
    memset(reply, 0, REPLY_LENGTH);
    make_call(home, message->bytes[0], message->bytes + 1, message->length - 1, reply);
    if (message->bytes[0] == GUDLEMI_CALL_TAKE)
        add_region(home, lane, reply);
    send_reply(lane, reply);
}

/* ---- Calls that are kept back. */

static void keep_back(struct home *home, uint8_t lane, const struct message *message)
{
    if (home->kept[lane].length != 0)
        stop("lane %u sent call %02X while its call %02X was kept back", (unsigned)lane, (unsigned)message->bytes[0],
             (unsigned)home->kept[lane].bytes[0]);
    home->kept[lane] = *message;
    home->waiting++;
}

/* Makes the call 03 of a lane that is woken, where it has come. The answer to it is what the lane waits for. */
static void answer_woken(struct home *home, uint8_t lane)
{
    uint8_t reply[REPLY_LENGTH];
    if (home->kept[lane].length == 0 || GUDLEMI_PHASE(entry_of(home, lane)) != GUDLEMI_PHASE_WOKEN)
        return;
    make_and_answer(home, lane, &home->kept[lane], reply);
    home->kept[lane].length = 0;
    home->waiting--;
}

/* Makes the calls 0A of all lanes. After the last of them each lane's region stands in the state. */
static void answer_entered(struct home *home)
{
    uint8_t replies[GUDLEMI_LANES][REPLY_LENGTH] = {{0}};
    for (uint32_t lane = 0; lane < home->lanes; lane++)
        make_call(home, GUDLEMI_CALL_ENTER, home->kept[lane].bytes + 1, home->kept[lane].length - 1, replies[lane]);
    for (uint32_t lane = 0; lane < home->lanes; lane++) {
        home->kept[lane].length = 0;
        add_region(home, (uint8_t)lane, replies[lane]);
        send_reply((uint8_t)lane, replies[lane]);
    }
    home->waiting = 0;
    home->entered = 0;
}

/* ---- Messages. */

/* Does what a message asks for: a call 03 is kept back until its lane is woken, 0A until all lanes have sent one. */
static void serve(struct home *home, uint8_t lane, const struct message *message)
{
    uint8_t reply[REPLY_LENGTH];
    if (message->bytes[0] == GUDLEMI_CALL_RECEIVE) {
        keep_back(home, lane, message);
        answer_woken(home, lane);
        return;
    }
    if (message->bytes[0] == GUDLEMI_CALL_ENTER) {
        keep_back(home, lane, message);
        if (++home->entered == home->lanes)
            answer_entered(home);
        return;
    }
    make_and_answer(home, lane, message, reply);
    if (reply[2] == 1)
        answer_woken(home, reply[3]);
}

/* Takes a message of any lane. Answers 1 where it says that the lane is done. */
static uint32_t take_message(struct home *home)
{
    struct message message;
    MPI_Status status;
    wait_for_message(MPI_ANY_SOURCE, MPI_ANY_TAG, &status);
    MPI_Get_count(&status, MPI_BYTE, &message.length);
    if (message.length < 0 || message.length > MESSAGE_LENGTH)
        stop("rank %d sent a message of %d bytes", status.MPI_SOURCE, message.length);
    MPI_Recv(message.bytes, message.length, MPI_BYTE, status.MPI_SOURCE, status.MPI_TAG, MPI_COMM_WORLD, &status);
    if (status.MPI_TAG == TAG_DONE)
        return 1;
    if (message.length < 2 || message.bytes[1] != status.MPI_SOURCE - 1)
        stop("rank %d sent a call that is not of its lane", status.MPI_SOURCE);
    serve(home, message.bytes[1], &message);
    return 0;
}

/* Serves the lanes until all are done. Where every other one has a call kept back no message would ever come. */
void home_serve(struct home *home)
{
    uint32_t done = 0;
    while (done < home->lanes) {
        done += take_message(home);
        if (home->waiting > 0 && done + home->waiting == home->lanes)
            stop("lanes done: %u; the others, %u, all wait to be answered", (unsigned)done, (unsigned)home->waiting);
    }
}
