/* The same work as in lane.c by the MPI library's own shared pointer: home has no part in it. */
#include <stdlib.h>
#include "line_mpi.h"

/* A take: the library moves its pointer and writes the records in one call. */
static void write_shared(MPI_File file, const uint8_t *region, uint32_t count)
{
    MPI_Status status;
    must(MPI_File_write_shared(file, region, (int)(count * RECORD), MPI_BYTE, &status), "MPI_File_write_shared");
    must_have_written(&status, count, "MPI_File_write_shared");
}

/* An ordered call: every lane makes it, also with no record. MPICH hands the first lane its places when that lane
 * calls, while others may still be in earlier takes: without the barrier those come to stand between the regions. */
static void write_ordered(MPI_Comm lanes, MPI_File file, const uint8_t *region, uint32_t count)
{
    MPI_Status status;
    wait_for_all(lanes);
    must(MPI_File_write_ordered(file, region, (int)(count * RECORD), MPI_BYTE, &status), "MPI_File_write_ordered");
    must_have_written(&status, count, "MPI_File_write_ordered");
}

/* All steps of a lane. */
void shared_run(const struct plan *plan, uint32_t lane, MPI_Comm lanes, MPI_File file)
{
    uint32_t steps = plan_steps(plan);
    for (uint32_t step = 0; step < steps; step++) {
        uint32_t count = plan_count(plan, lane, step);
        uint8_t *region = make_region(lane, step, count);
        if (plan_is_ordered(step))
            write_ordered(lanes, file, region, count);
        else
            write_shared(file, region, count);
        free(region);
    }
}
