/* Messages and waiting: numbers in bytes, waits that do not spin, and faults that end the whole job. */
#define _POSIX_C_SOURCE 200809L /* for nanosleep and sched_yield */
#include <sched.h>
#include <stdarg.h>
#include <stdio.h>
#include <stdlib.h>
#include <time.h>
#include "line_mpi.h"

/* Numbers in messages and records are big-endian, as in the calls. */
void put_number(uint8_t *bytes, int width, uint64_t number)
{
    for (int i = 0; i < width; i++)
        bytes[i] = (uint8_t)(number >> 8 * (width - 1 - i));
}

uint64_t get_number(const uint8_t *bytes, int width)
{
    uint64_t number = 0;
    for (int i = 0; i < width; i++)
        number = number << 8 | bytes[i];
    return number;
}

/* Says what is wrong and ends all ranks with status 1. mpiexec may lose what a rank has printed just before the end of
 * the job, so there is a fifth of a second between the two. */
void stop(const char *format, ...)
{
    const struct timespec fifth = {0, 200000000};
    char text[MPI_MAX_ERROR_STRING + 128];
    int rank;
    va_list values;
    va_start(values, format);
    vsnprintf(text, sizeof text, format, values);
    va_end(values);
    MPI_Comm_rank(MPI_COMM_WORLD, &rank);
    fprintf(stderr, "line_mpi: rank %d: %s\n", rank, text);
    fflush(stderr);
    nanosleep(&fifth, NULL);
    MPI_Abort(MPI_COMM_WORLD, 1);
    exit(1);
}

/* ---- Waiting. MPI_Recv and MPI_Barrier of many MPI libraries look for a message again and again without pause. Where
 * ranks are more than processors the rank that is waited for then cannot run. So a rank asks whether there is
 * something, and if not leaves the processor to another rank; after some tries it sleeps for a moment. Inside MPI's own
 * functions nothing can be done: Debian's MPICH 4.0.2 knows MPIR_CVAR_POLLS_BEFORE_YIELD, but makes no use of it. */

enum { TRIES_BEFORE_SLEEP = 200, SLEEP_NANOSECONDS = 20000 };

static void leave_processor(uint32_t tries)
{
    const struct timespec moment = {0, SLEEP_NANOSECONDS};
    if (tries < TRIES_BEFORE_SLEEP)
        sched_yield();
    else
        nanosleep(&moment, NULL);
}

/* Waits until a message is there that MPI_Recv then takes at once. */
void wait_for_message(int source, int tag, MPI_Status *status)
{
    int there = 0;
    MPI_Iprobe(source, tag, MPI_COMM_WORLD, &there, status);
    for (uint32_t tries = 0; !there; tries++) {
        leave_processor(tries);
        MPI_Iprobe(source, tag, MPI_COMM_WORLD, &there, status);
    }
}

/* A barrier. Answers the time after it, in seconds. */
double wait_for_all(MPI_Comm comm)
{
    MPI_Request request;
    int there = 0;
    MPI_Ibarrier(comm, &request);
    MPI_Test(&request, &there, MPI_STATUS_IGNORE);
    for (uint32_t tries = 0; !there; tries++) {
        leave_processor(tries);
        MPI_Test(&request, &there, MPI_STATUS_IGNORE);
    }
    return MPI_Wtime();
}

/* ---- Files. Their functions answer an error code and do not end the job by themselves. */

void must(int error, const char *function)
{
    char text[MPI_MAX_ERROR_STRING];
    int length;
    if (error == MPI_SUCCESS)
        return;
    MPI_Error_string(error, text, &length);
    stop("%s: %s", function, text);
}

/* Opens a file that all ranks of comm write, and empties it. */
MPI_File open_empty(MPI_Comm comm, const char *name)
{
    MPI_File file;
    must(MPI_File_open(comm, name, MPI_MODE_CREATE | MPI_MODE_RDWR, MPI_INFO_NULL, &file), "MPI_File_open");
    must(MPI_File_set_size(file, 0), "MPI_File_set_size");
    return file;
}

/* A call that wrote fewer bytes than it was handed is not an error to MPI. */
void must_have_written(MPI_Status *status, uint32_t records, const char *function)
{
    int length;
    MPI_Get_count(status, MPI_BYTE, &length);
    if (length < 0 || (uint64_t)length != (uint64_t)records * RECORD)
        stop("%s wrote %d bytes of %u records", function, length, (unsigned)records);
}
