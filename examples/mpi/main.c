/* line_mpi BOOK SHARED TAKES MOST SEED, started by mpiexec with 2 to 129 ranks: rank 0 is home, the others are lanes.
 * The lanes write the file BOOK at the positions that home hands out, and the file SHARED by the MPI library's own shared
 * pointer: both with the same takes. Rank 0 checks both files and prints the times.
 *
 * Each lane does TAKES takes of 1 to MOST records, and after every 8 of them an ordered call with all others; the counts are
 * made up from SEED. Status: 0, 1 where something is wrong, 2 where the arguments are refused.
 *
 * Build, after `embed/build`, from the repository's top (examples/mpi/run does this, and runs it on one machine):
 *     mpicc -std=c99 examples/mpi/[a-z]*.c -I embed -L target/staticlib -lembed -o line_mpi
 * On several machines the two files must lie where all of them see them: mpiexec -f HOSTS -n 17 ./line_mpi BOOK SHARED 50 8 1
 * (Where ranks send by TCP, Debian's MPICH 4.0.2 was seen to hang in MPI_Finalize, in a program of ten lines too. All is
 * printed by then.)
 */
#define _POSIX_C_SOURCE 200809L /* for sysconf */
#include <stdio.h>
#include <stdlib.h>
#include <unistd.h>
#include "line_mpi.h"

/* What a rank knows of the job; `lanes` are the ranks without home. */
struct job {
    int rank, ranks;
    MPI_Comm lanes;
    const char *book, *shared;
    struct plan plan;
};

/* Rank 0 alone uses it. */
static struct home home;

/* ---- The arguments. A function that refuses them says why, on rank 0, and answers 0. */

static int refuse(const struct job *job, const char *reason)
{
    if (job->rank == HOME)
        fprintf(stderr, "line_mpi: %s\n", reason);
    return 0;
}

/* A number in digits, from least to most. */
static int read_number(const char *text, uint64_t least, uint64_t most, uint64_t *number)
{
    *number = 0;
    for (const char *at = text; *at != 0; at++) {
        uint64_t digit = (uint64_t)(unsigned char)*at - '0';
        if (digit > 9 || *number > (most - digit) / 10)
            return 0;
        *number = *number * 10 + digit;
    }
    return *text != 0 && *number >= least;
}

static int read_arguments(struct job *job, int count, char **arguments)
{
    uint64_t takes, most;
    if (count != 6)
        return refuse(job, "use: mpiexec -n RANKS line_mpi BOOK SHARED TAKES MOST SEED");
    if (job->ranks < 2 || job->ranks > GUDLEMI_LANES + 1)
        return refuse(job, "the ranks are home and 1 to 128 lanes, so 2 to 129");
    if (!read_number(arguments[3], 1, PLACES, &takes))
        return refuse(job, "TAKES is a number from 1 to 8192");
    if (!read_number(arguments[4], 1, PLACES, &most))
        return refuse(job, "MOST is a number from 1 to 8192");
    if (!read_number(arguments[5], 0, UINT64_MAX, &job->plan.seed))
        return refuse(job, "SEED is a number from 0 to 18446744073709551615");
    job->book = arguments[1];
    job->shared = arguments[2];
    job->plan.lanes = (uint32_t)job->ranks - 1;
    job->plan.takes = (uint32_t)takes;
    job->plan.most = (uint32_t)most;
    return 1;
}

/* Every record must fit the book, so that no call is refused for want of room. */
static int plan_fits(const struct job *job)
{
    char reason[160];
    uint64_t records = plan_records(&job->plan);
    if (records <= PLACES)
        return 1;
    snprintf(reason, sizeof reason,
             "the lanes would write %llu records, and the book has room for %d: lower the ranks, TAKES or MOST",
             (unsigned long long)records, PLACES);
    return refuse(job, reason);
}

/* ---- The two parts. Each answers the seconds from when all ranks were ready to when all were done. */

/* The longest time of any rank: of the one that left the first barrier first. No two ranks' clocks are compared. */
static double longest(double seconds)
{
    double most;
    MPI_Allreduce(&seconds, &most, 1, MPI_DOUBLE, MPI_MAX, MPI_COMM_WORLD);
    return most;
}

static double run_line(const struct job *job)
{
    MPI_File file = MPI_FILE_NULL;
    if (job->rank == HOME)
        home_open(&home, job->plan.lanes);
    else
        file = open_empty(job->lanes, job->book);
    double start = wait_for_all(MPI_COMM_WORLD);
    if (job->rank == HOME)
        home_serve(&home);
    else
        lane_run(&job->plan, (uint32_t)job->rank - 1, file);
    double end = wait_for_all(MPI_COMM_WORLD);
    if (job->rank != HOME)
        must(MPI_File_close(&file), "MPI_File_close");
    return longest(end - start);
}

static double run_shared(const struct job *job)
{
    MPI_File file = MPI_FILE_NULL;
    if (job->rank != HOME)
        file = open_empty(job->lanes, job->shared);
    double start = wait_for_all(MPI_COMM_WORLD);
    if (job->rank != HOME)
        shared_run(&job->plan, (uint32_t)job->rank - 1, job->lanes, file);
    double end = wait_for_all(MPI_COMM_WORLD);
    if (job->rank != HOME)
        must(MPI_File_close(&file), "MPI_File_close");
    return longest(end - start);
}

/* ---- What is printed, by rank 0. */

/* 1 where any machine has more ranks of this job than processors. */
static int is_crowded(void)
{
    MPI_Comm machine;
    int ranks, crowded, any;
    MPI_Comm_split_type(MPI_COMM_WORLD, MPI_COMM_TYPE_SHARED, 0, MPI_INFO_NULL, &machine);
    MPI_Comm_size(machine, &ranks);
    MPI_Comm_free(&machine);
    crowded = ranks > sysconf(_SC_NPROCESSORS_ONLN);
    MPI_Allreduce(&crowded, &any, 1, MPI_INT, MPI_MAX, MPI_COMM_WORLD);
    return any;
}

/* A lane's part of an ordered call is counted as a take. The line's time has the calls 05 in it, a message and its
 * answer for each record, by which home gets its copy of the book; MPI's pointer has nothing like it. */
static void print_time(const struct plan *plan, const char *part, double seconds)
{
    double takes = (double)plan->lanes * plan_steps(plan);
    printf("%s: %.3f seconds in all, %.1f microseconds a take\n", part, seconds, seconds * 1e6 / takes);
}

static void print_times(const struct plan *plan, double line, double shared, int crowded)
{
    printf("lanes %u, takes of each %u, records of a take 1 to %u, ordered calls %u, seed %llu, records in all %llu\n",
           (unsigned)plan->lanes, (unsigned)plan->takes, (unsigned)plan->most, (unsigned)(plan_steps(plan) - plan->takes),
           (unsigned long long)plan->seed, (unsigned long long)plan_records(plan));
    print_time(plan, "the line, by way of home", line);
    print_time(plan, "MPI's shared pointer    ", shared);
    if (crowded)
        printf("there are more ranks than processors: these times say little, "
               "least of all of ordered calls, in which MPI may spin\n");
}

static int check_all(const struct job *job)
{
    int line = check_line(&job->plan, &home);
    int book = check_file(&job->plan, job->book, &home);
    int shared = check_file(&job->plan, job->shared, NULL);
    if (!line || !book || !shared)
        return 0;
    printf("checked: both files have each record once, regions whole, ordered calls by rank; the book is as home's copy\n");
    fflush(stdout);
    return 1;
}

/* Both parts, and the check, which is rank 0's alone. Answers the status of the program, the same on all ranks. */
static int run(struct job *job)
{
    int good = 0;
    MPI_Comm_split(MPI_COMM_WORLD, job->rank == HOME ? MPI_UNDEFINED : 0, job->rank, &job->lanes);
    int crowded = is_crowded();
    double line = run_line(job);
    double shared = run_shared(job);
    wait_for_all(MPI_COMM_WORLD);
    if (job->rank == HOME) {
        print_times(&job->plan, line, shared, crowded);
        good = check_all(job);
    }
    wait_for_all(MPI_COMM_WORLD);
    MPI_Bcast(&good, 1, MPI_INT, HOME, MPI_COMM_WORLD);
    return good ? 0 : 1;
}

int main(int argc, char **argv)
{
    struct job job = {.lanes = MPI_COMM_NULL};
    int status = 2;
    MPI_Init(&argc, &argv);
    MPI_Comm_rank(MPI_COMM_WORLD, &job.rank);
    MPI_Comm_size(MPI_COMM_WORLD, &job.ranks);
    if (gudlemi_layout() != GUDLEMI_LAYOUT)
        stop("libembed.a has another layout of the state than the header");
    if (read_arguments(&job, argc, argv) && plan_fits(&job))
        status = run(&job);
    MPI_Finalize();
    return status;
}
