/* The check, on rank 0: what the line has come to, and what stands in each file. */
#include <errno.h>
#include <stdarg.h>
#include <stdio.h>
#include <stdlib.h>
#include <string.h>
#include "line_mpi.h"

/* A file that is read from its first place to its last. */
struct reading {
    const struct plan *plan;
    const char *name;
    const uint8_t *bytes;
    uint32_t places, place;         /* how many places it has, and the next one */
    uint32_t step[GUDLEMI_LANES];   /* the next step of each lane */
    const uint8_t *handed;          /* the lane plus 1 that each place was handed to, or NULL where nobody noted it */
};

/* Says what is wrong with a file or with the line. Answers 0, as every check does that has found something. */
static int fault(const char *name, const char *format, ...)
{
    va_list values;
    va_start(values, format);
    fprintf(stderr, "line_mpi: %s: ", name);
    vfprintf(stderr, format, values);
    fprintf(stderr, "\n");
    va_end(values);
    return 0;
}

/* ---- The line. */

/* All lanes are idle, and every record of the plan was handed out and written. */
int check_line(const struct plan *plan, const struct home *home)
{
    const uint8_t *state = home->state;
    uint64_t records = plan_records(plan);
    uint64_t pointer = gudlemi_number(state, sizeof home->state, GUDLEMI_NUMBER_POINTER);
    uint64_t size = gudlemi_number(state, sizeof home->state, GUDLEMI_NUMBER_SIZE);
    if (!gudlemi_is_sound(state, sizeof home->state, sizeof home->book))
        return fault("the line", "is not sound");
    if (pointer != records || size != records * RECORD)
        return fault("the line", "the pointer is %llu and the size %llu, with %llu records", (unsigned long long)pointer,
                     (unsigned long long)size, (unsigned long long)records);
    for (uint32_t lane = 0; lane < plan->lanes; lane++)
        if (GUDLEMI_PHASE(gudlemi_lane(state, sizeof home->state, (uint8_t)lane)) != GUDLEMI_PHASE_IDLE)
            return fault("the line", "lane %u is not idle at the end", (unsigned)lane);
    return 1;
}

/* ---- The records of a file. It has rounds: some takes of each lane in any order, and then one ordered call. */

/* One record of a lane's step is next, at a place that was handed to that lane. */
static int check_record(struct reading *file, uint32_t lane, uint32_t index)
{
    uint8_t expected[RECORD];
    if (file->place == file->places)
        return fault(file->name, "ends before record %u of lane %u in step %u", (unsigned)index, (unsigned)lane,
                     (unsigned)file->step[lane]);
    const uint8_t *found = file->bytes + (size_t)file->place * RECORD;
    make_record(lane, file->step[lane], index, expected);
    if (memcmp(found, expected, RECORD) != 0)
        return fault(file->name, "place %u has %016llx; expected here: %016llx, record %u of lane %u in step %u",
                     (unsigned)file->place, (unsigned long long)get_number(found, RECORD),
                     (unsigned long long)get_number(expected, RECORD), (unsigned)index, (unsigned)lane,
                     (unsigned)file->step[lane]);
    if (file->handed != NULL && file->handed[file->place] != lane + 1)
        return fault(file->name, "place %u has a record of lane %u, to which it was not handed", (unsigned)file->place,
                     (unsigned)lane);
    file->place++;
    return 1;
}

/* The records of a lane's next step stand here, one after the other. */
static int check_region(struct reading *file, uint32_t lane)
{
    uint32_t count = plan_count(file->plan, lane, file->step[lane]);
    for (uint32_t index = 0; index < count; index++)
        if (!check_record(file, lane, index))
            return 0;
    file->step[lane]++;
    return 1;
}

/* So many takes of each lane, in any order of the lanes; the lane of the first record says whose region it is. */
static int check_takes(struct reading *file, uint32_t takes)
{
    for (uint32_t i = 0; i < takes * file->plan->lanes; i++) {
        if (file->place == file->places)
            return fault(file->name, "ends after %u places, before all takes", (unsigned)file->places);
        const uint8_t *found = file->bytes + (size_t)file->place * RECORD;
        uint64_t lane = get_number(found, 2) - 1;
        if (lane >= file->plan->lanes)
            return fault(file->name, "place %u has %016llx, which is a record of no lane", (unsigned)file->place,
                         (unsigned long long)get_number(found, RECORD));
        if (plan_is_ordered(file->step[lane]) || file->step[lane] == plan_steps(file->plan))
            return fault(file->name, "place %u has a record of lane %u before the takes of all lanes have ended",
                         (unsigned)file->place, (unsigned)lane);
        if (!check_region(file, (uint32_t)lane))
            return 0;
    }
    return 1;
}

/* An ordered call: the regions of all lanes, by rank. */
static int check_ordered(struct reading *file)
{
    for (uint32_t lane = 0; lane < file->plan->lanes; lane++)
        if (!check_region(file, lane))
            return 0;
    return 1;
}

/* All rounds. As every step of every lane has been met once, each record is there once and no other. */
static int check_records(struct reading *file)
{
    uint32_t takes = file->plan->takes;
    for (; takes >= ORDERED_EVERY; takes -= ORDERED_EVERY)
        if (!check_takes(file, ORDERED_EVERY) || !check_ordered(file))
            return 0;
    return check_takes(file, takes);
}

/* ---- The whole file. */

/* Reads a file into memory, one byte more than the plan has so that a longer one shows. Answers its length. */
static size_t read_file(const char *name, uint8_t *bytes, size_t most)
{
    FILE *file = fopen(name, "rb");
    if (file == NULL)
        stop("%s: %s", name, strerror(errno));
    size_t length = fread(bytes, 1, most, file);
    if (ferror(file))
        stop("%s: %s", name, strerror(errno));
    fclose(file);
    return length;
}

/* The file has what home's copy of the book has. */
static int check_copy(const char *name, const uint8_t *bytes, const uint8_t *book, size_t length)
{
    size_t at = 0;
    while (at < length && bytes[at] == book[at])
        at++;
    return at == length || fault(name, "byte %zu differs from home's copy of the book", at);
}

/* Checks a file. `home` is NULL for the one that was written by the MPI library's pointer. */
int check_file(const struct plan *plan, const char *name, const struct home *home)
{
    static uint8_t bytes[CAPACITY + 1];
    size_t expected = (size_t)plan_records(plan) * RECORD;
    size_t length = read_file(name, bytes, expected + 1);
    struct reading file = {.plan = plan, .name = name, .bytes = bytes, .handed = home == NULL ? NULL : home->handed};
    int good = 1;
    file.places = (uint32_t)(length < expected ? length / RECORD : expected / RECORD);
    if (length != expected)
        good = fault(name, "has %s than the %zu bytes of all records", length > expected ? "more" : "fewer", expected);
    if (!check_records(&file))
        good = 0;
    if (home != NULL && !check_copy(name, bytes, home->book, length < expected ? length : expected))
        good = 0;
    return good;
}
