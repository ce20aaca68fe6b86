/* A lane: it asks home for its turn and its places, and writes its records into the file where home says. */
#include <stdlib.h>
#include <string.h>
#include "line_mpi.h"

/* Sends a call to home and waits for the reply. Answers the answer's word. */
static uint8_t ask(uint8_t kind, const uint8_t *body, size_t length, uint8_t *reply)
{
    uint8_t message[MESSAGE_LENGTH] = {kind};
    MPI_Status status;
    memcpy(message + 1, body, length);
    MPI_Send(message, (int)length + 1, MPI_BYTE, HOME, TAG_CALL, MPI_COMM_WORLD);
    wait_for_message(HOME, TAG_ANSWER, &status);
    MPI_Recv(reply, REPLY_LENGTH, MPI_BYTE, HOME, TAG_ANSWER, MPI_COMM_WORLD, &status);
    return reply[0];
}

/* Gets the turn. A lane that waits sends its 03 at once; home answers it when the lane is woken. */
static void get_turn(uint8_t lane)
{
    const uint8_t body[2] = {lane, GUDLEMI_SHARED_WRITE};
    uint8_t reply[REPLY_LENGTH];
    uint8_t word = ask(GUDLEMI_CALL_WANT, body, 2, reply);
    if (word == GUDLEMI_WORD_WAITS)
        word = ask(GUDLEMI_CALL_RECEIVE, body, 1, reply);
    if (word != GUDLEMI_WORD_HOLDS)
        stop("word %u instead of `holds`", (unsigned)word);
}

/* Asks for places, by a take or in an ordered call, and answers the position of the first. */
static uint64_t get_places(uint8_t lane, uint8_t kind, uint32_t count)
{
    uint8_t body[3] = {lane};
    uint8_t reply[REPLY_LENGTH];
    put_number(body + 1, 2, count);
    uint8_t word = ask(kind, body, sizeof body, reply);
    int expected = kind == GUDLEMI_CALL_TAKE
        ? word == GUDLEMI_WORD_REGION
        : word == GUDLEMI_WORD_GATHERED || word == GUDLEMI_WORD_ORDERED;
    if (!expected)
        stop("word %u to call %02X", (unsigned)word, (unsigned)kind);
    if (get_number(reply + REPLY_RECORDS, 2) != count)
        stop("asked for %u places, got %u", (unsigned)count, (unsigned)get_number(reply + REPLY_RECORDS, 2));
    return get_number(reply + REPLY_POSITION, 8);
}

/* Tells home of a record that was written at a position; the line must have it at the same one. */
static void tell_record(uint8_t lane, const uint8_t *record, uint64_t position)
{
    uint8_t body[1 + RECORD] = {lane};
    uint8_t reply[REPLY_LENGTH];
    memcpy(body + 1, record, RECORD);
    uint8_t word = ask(GUDLEMI_CALL_WRITE, body, sizeof body, reply);
    if (word != GUDLEMI_WORD_WROTE)
        stop("word %u instead of `wrote`", (unsigned)word);
    if (gudlemi_value(reply, 0) != position)
        stop("wrote a record at byte %llu of the file, the line has it at %llu", (unsigned long long)position,
             (unsigned long long)gudlemi_value(reply, 0));
}

/* Writes a region into the file by one call, and then tells home of each record. */
static void write_region(uint8_t lane, uint32_t step, uint32_t count, uint64_t position, MPI_File file)
{
    MPI_Status status;
    uint8_t *region = make_region(lane, step, count);
    must(MPI_File_write_at(file, (MPI_Offset)position, region, (int)(count * RECORD), MPI_BYTE, &status), "MPI_File_write_at");
    must_have_written(&status, count, "MPI_File_write_at");
    for (uint32_t i = 0; i < count; i++)
        tell_record(lane, region + i * RECORD, position + i * RECORD);
    free(region);
}

/* All steps of a lane. */
void lane_run(const struct plan *plan, uint32_t lane, MPI_File file)
{
    uint32_t steps = plan_steps(plan);
    for (uint32_t step = 0; step < steps; step++) {
        uint32_t count = plan_count(plan, lane, step);
        uint8_t kind = plan_is_ordered(step) ? GUDLEMI_CALL_ENTER : GUDLEMI_CALL_TAKE;
        if (kind == GUDLEMI_CALL_TAKE)
            get_turn((uint8_t)lane);
        uint64_t position = get_places((uint8_t)lane, kind, count);
        if (count > 0)
            write_region((uint8_t)lane, step, count, position, file);
    }
    MPI_Send(&steps, 0, MPI_BYTE, HOME, TAG_DONE, MPI_COMM_WORLD);
}
