/* The plan of all takes: made-up counts from the seed, and the records of each region. */
#include <stdlib.h>
#include "line_mpi.h"

/* How many steps a lane does, its ordered calls counted. */
uint32_t plan_steps(const struct plan *plan)
{
    return plan->takes + plan->takes / ORDERED_EVERY;
}

int plan_is_ordered(uint32_t step)
{
    return step % (ORDERED_EVERY + 1) == ORDERED_EVERY;
}

/* The number at an index of a made-up row (the generator splitmix64): every rank can tell the counts of all lanes. */
static uint64_t made_up(uint64_t seed, uint64_t index)
{
    uint64_t number = seed + (index + 1) * UINT64_C(0x9E3779B97F4A7C15);
    number = (number ^ number >> 30) * UINT64_C(0xBF58476D1CE4E5B9);
    number = (number ^ number >> 27) * UINT64_C(0x94D049BB133111EB);
    return number ^ number >> 31;
}

/* How many records a lane writes in a step: a take has 1 to most, an ordered call 0 to most. */
uint32_t plan_count(const struct plan *plan, uint32_t lane, uint32_t step)
{
    uint64_t number = made_up(plan->seed, (uint64_t)step * GUDLEMI_LANES + lane);
    if (plan_is_ordered(step))
        return (uint32_t)(number % (plan->most + UINT64_C(1)));
    return (uint32_t)(1 + number % plan->most);
}

/* The records of all lanes in all steps. */
uint64_t plan_records(const struct plan *plan)
{
    uint64_t records = 0;
    uint64_t entries = (uint64_t)plan_steps(plan) * plan->lanes;
    for (uint64_t i = 0; i < entries; i++)
        records += plan_count(plan, (uint32_t)(i % plan->lanes), (uint32_t)(i / plan->lanes));
    return records;
}

/* A record says who wrote it: lane plus 1, so that it is never eight zero bytes, step, and its index in the region. */
void make_record(uint32_t lane, uint32_t step, uint32_t index, uint8_t *record)
{
    put_number(record, 2, lane + 1);
    put_number(record + 2, 2, step);
    put_number(record + 4, 4, index);
}

/* The records of a region one after the other, in memory that the caller frees. (One byte more, as malloc(0) may be NULL.) */
uint8_t *make_region(uint32_t lane, uint32_t step, uint32_t count)
{
    uint8_t *region = malloc((size_t)count * RECORD + 1);
    if (region == NULL)
        stop("no memory for %u records", (unsigned)count);
    for (uint32_t i = 0; i < count; i++)
        make_record(lane, step, i, region + (size_t)i * RECORD);
    return region;
}
