/* What the files of line_mpi share: the plan of all takes, messages and waiting, home, the lanes, and the check. */
#ifndef LINE_MPI_H
#define LINE_MPI_H

#include <stdint.h>
#include <mpi.h>
#include "gudlemi.h"

/* Rank 0 is home, rank r is lane r - 1. */
enum { HOME = 0, RECORD = 8, CAPACITY = 65536, PLACES = CAPACITY / RECORD };

/* ---- plan.c: what every lane will write, known to all ranks from the arguments. */

/* A lane does one step after the other: a take, or, after every ORDERED_EVERY takes, an ordered call with all others. */
enum { ORDERED_EVERY = 8 };

struct plan {
    uint32_t lanes, takes, most; /* takes of each lane; most records that a step has */
    uint64_t seed;
};

uint32_t plan_steps(const struct plan *plan);
int plan_is_ordered(uint32_t step);
uint32_t plan_count(const struct plan *plan, uint32_t lane, uint32_t step);
uint64_t plan_records(const struct plan *plan);
void make_record(uint32_t lane, uint32_t step, uint32_t index, uint8_t *record);
uint8_t *make_region(uint32_t lane, uint32_t step, uint32_t count);

/* ---- messages.c: waiting without spinning, the calls of the file system, and how the job ends on a fault. */

enum { TAG_CALL = 1, TAG_ANSWER = 2, TAG_DONE = 3 };

/* A call as a lane sends it: its kind, and its body, which starts with the lane. The longest is 05. */
enum { MESSAGE_LENGTH = 10 };
struct message {
    int length;
    uint8_t bytes[MESSAGE_LENGTH];
};

/* What home sends back: the answer, and where it hands out a region that region's position (8) and records (2). */
enum { REPLY_POSITION = GUDLEMI_ANSWER_LENGTH, REPLY_RECORDS = REPLY_POSITION + 8, REPLY_LENGTH = REPLY_RECORDS + 2 };

void put_number(uint8_t *bytes, int width, uint64_t number);
uint64_t get_number(const uint8_t *bytes, int width);
void stop(const char *format, ...);
void wait_for_message(int source, int tag, MPI_Status *status);
double wait_for_all(MPI_Comm comm);
void must(int error, const char *function);
MPI_File open_empty(MPI_Comm comm, const char *name);
void must_have_written(MPI_Status *status, uint32_t records, const char *function);

/* ---- home.c: the line, on rank 0 alone. */

struct home {
    uint32_t lanes;
    uint8_t state[GUDLEMI_STATE_LENGTH];
    uint8_t book[CAPACITY];      /* home's copy of the book */
    uint8_t handed[PLACES];      /* which lane each place was handed to, as its number plus 1; 0 for none */
    struct message kept[GUDLEMI_LANES]; /* the call of each lane that is kept back; length 0 where there is none */
    uint32_t waiting, entered;   /* how many are kept back, and how many of these are 0A */
};

void home_open(struct home *home, uint32_t lanes);
void home_serve(struct home *home);

/* ---- lane.c: a lane that writes by way of home. shared.c: the same work by the MPI library's shared pointer. */

void lane_run(const struct plan *plan, uint32_t lane, MPI_File file);
void shared_run(const struct plan *plan, uint32_t lane, MPI_Comm lanes, MPI_File file);

/* ---- check.c: rank 0 reads what was written. */

int check_line(const struct plan *plan, const struct home *home);
int check_file(const struct plan *plan, const char *name, const struct home *home);

#endif
