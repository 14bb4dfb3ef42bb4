/* Every function of energy.h, called from C on document 01's request, without bounds and with them; what it prints is
 * compared with header.out. */
#include <inttypes.h>
#include <stdio.h>
#include <string.h>

#include "energy.h"

static const struct EnergyFigures figures = {.capacity = 5, .start = 2, .end = 2};
static const uint32_t harvest[6] = {6, 4, 0, 0, 5, 5};
static uint32_t least[6], most[6];

/* Leaves no bound but a least and a most of one frame each. */
static void bound(size_t least_frame, uint32_t least_amount, size_t most_frame, uint32_t most_amount)
{
    energy_no_bounds(least, most, 6);
    least[least_frame - 1] = least_amount;
    most[most_frame - 1] = most_amount;
}

/* Prints an answer's refusal, if it has one. */
static void refusal(const char *name, struct EnergyRefusal r)
{
    printf("%s: %" PRIu32 " %" PRIu64, name, r.number, r.p);
}

/* Prints a shift's record. */
static void record(struct EnergyShift s)
{
    struct EnergyTotals totals = s.now.totals;
    printf(" shift %" PRIu32 " %" PRIu32 " %" PRIu32 " %" PRIu32, s.terms.frames, s.terms.capacity, s.terms.start,
           s.terms.end);
    printf(" now %" PRIu32 " %" PRIu32, s.now.recorded, s.now.charge);
    printf(" totals %" PRIu64 " %" PRIu64 " %" PRIu64 "\n", totals.harvested, totals.used, totals.lost);
}

/* Plans and needs document 01's request with the bounds as they are, and leasts and mosts in lists of so many entries. */
static void plan(size_t least_length, size_t most_length)
{
    uint32_t budgets[6] = {9, 9, 9, 9, 9, 9};
    struct EnergyPlanAnswer planned =
        energy_plan(figures, harvest, 6, least, least_length, most, most_length, budgets, 6);
    refusal("plan", planned.refusal);
    for (int i = 0; i < 6; i++)
        printf(" %" PRIu32, budgets[i]);
    struct EnergyNeededAnswer needed = energy_needed(figures, harvest, 6, least, least_length, most, most_length);
    refusal(" needed", needed.refusal);
    printf(" %" PRIu64 "\n", needed.capacity);
}

static void planning(void)
{
    bound(1, 0, 1, ENERGY_NO_UPPER_END);
    plan(6, 6);
    plan(5, 6);
    plan(6, 5);
    bound(4, 3, 1, 3);
    plan(6, 6);
    bound(1, 9, 2, 1);
    plan(6, 6);
    bound(2, 2, 2, 1);
    plan(6, 6);
    bound(3, ENERGY_MAX_BOUND, 2, ENERGY_MAX_BOUND + 1);
    plan(6, 6);

    uint32_t budget = 9;
    energy_no_bounds(least, most, 6);
    struct EnergyPlanAnswer missing =
        energy_plan((struct EnergyFigures){8, 3, 8}, (const uint32_t[]){4}, 1, least, 1, most, 1, &budget, 1);
    refusal("plan", missing.refusal);

    struct EnergyGradeAnswer grade = energy_grade((const uint32_t[]){4, 3, 3, 2, 4, 4}, 6);
    refusal("\ngrade", grade.refusal);
    printf(" %" PRIu64 " %" PRIu64 " %" PRIu64 "\n", grade.sums.curve0, grade.sums.curve1, grade.sums.curve2);
}

/* Traces supplied budgets of document 01's request with a capacity, and losses in a list of so many entries. */
static void trace(uint32_t capacity, const uint32_t *budgets, size_t losses_length)
{
    int64_t charges[6] = {9, 9, 9, 9, 9, 9};
    uint32_t losses[6] = {9, 9, 9, 9, 9, 9};
    struct EnergyTraceAnswer traced = energy_trace((struct EnergyFigures){capacity, 2, 2}, harvest, 6, budgets, 6,
                                                   charges, 6, losses, losses_length);
    refusal("trace", traced.refusal);
    printf(" %" PRIu32 " %" PRIu32 " charges", traced.verdict, traced.frame);
    for (int i = 0; i < 6; i++)
        printf(" %" PRId64, charges[i]);
    printf(" losses");
    for (int i = 0; i < 6; i++)
        printf(" %" PRIu32, losses[i]);
    printf("\n");
}

static void tracing(void)
{
    const uint32_t supplied[6] = {4, 4, 4, 4, 2, 2}, nothing[6] = {0};
    trace(22, supplied, 6);
    trace(5, nothing, 6);
    trace(5, nothing, 5);
}

/* Plans the rest of a shift by harvests, with the bounds as they are. */
static void plan_rest(struct EnergyShift shift, const uint32_t *lent)
{
    uint32_t budgets[6] = {4, 3, 3, 2, 4, 4};
    struct EnergyRestAnswer rest = energy_shift_plan_rest(shift, lent, 6, least, 6, most, 6, budgets, 6);
    refusal("rest", rest.refusal);
    printf(" %" PRIu32 " %" PRIu64, rest.is_short, rest.missing);
    struct EnergyPartAnswer part = energy_shift_rest_part(shift, budgets, 6);
    refusal(" part", part.refusal);
    printf(" %zu %zu:", part.from, part.length);
    for (size_t i = 0; i < 6; i++)
        printf(" %" PRIu32, budgets[i]);
    printf("\n");
}

static void shift(void)
{
    bound(1, 9, 1, 9);
    struct EnergyShiftAnswer start = energy_shift_start(figures, harvest, 6, least, 6, most, 6);
    refusal("start", start.refusal);
    record(start.shift);
    bound(1, 0, 1, 1);
    start = energy_shift_start(figures, harvest, 6, least, 6, most, 6);
    refusal("start", start.refusal);
    record(start.shift);
    struct EnergyShiftAnswer next = energy_shift_record(start.shift, 1, 9);
    refusal("record", next.refusal);
    record(next.shift);
    next = energy_shift_record(next.shift, 1, 3);
    refusal("record", next.refusal);
    record(next.shift);

    plan_rest(next.shift, harvest);
    bound(4, 3, 1, 0);
    plan_rest(next.shift, harvest);
    bound(2, 9, 1, 0);
    plan_rest(next.shift, harvest);
    bound(5, 2, 5, 1);
    plan_rest(next.shift, harvest);
    energy_no_bounds(least, most, 6);
    plan_rest(next.shift, (const uint32_t[]){9, 0, 0, 0, 0, 1});
}

/* Writes document 01's request with the bounds as they are, reads it back and lists it. */
static void file(void)
{
    static uint32_t harvests[ENERGY_MAX_FRAMES], leasts[ENERGY_MAX_FRAMES], mosts[ENERGY_MAX_FRAMES];
    static uint8_t bytes[ENERGY_MAX_FILE_BYTES], text[ENERGY_LISTING_BYTES];
    struct EnergyWriteAnswer written = energy_write(figures, harvest, 6, least, 6, most, 6, bytes, sizeof bytes);
    refusal("write", written.refusal);
    printf(" %zu %d", written.bytes, written.bytes <= ENERGY_FILE_BYTES(6));
    struct EnergyReadAnswer back = energy_read(bytes, written.bytes, harvests, 6, leasts, 6, mosts, 6);
    refusal("\nread", back.refusal);
    printf(" %d %zu", memcmp(&figures, &back.header.figures, sizeof figures), back.header.frames);
    printf(" %d %d %d", memcmp(harvest, harvests, sizeof harvest), memcmp(least, leasts, sizeof least),
           memcmp(most, mosts, sizeof most));
    back = energy_read(bytes, written.bytes - 1, harvests, 6, leasts, 6, mosts, 6);
    refusal("\nread", back.refusal);
    back = energy_read(bytes, written.bytes, harvests, 6, leasts, 5, mosts, 6);
    refusal("\nread", back.refusal);
    size_t listed = energy_listing(bytes, written.bytes, text, sizeof text);
    printf("\nlisting: %zu, NUL in it: %d\n%.*s", listed, memchr(text, 0, listed) != NULL, (int)listed,
           (const char *)text);
}

static void files(void)
{
    energy_no_bounds(least, most, 6);
    file();
    bound(4, 1, 1, 3);
    file();
    bound(4, 2, 4, 1);
    struct EnergyWriteAnswer written = energy_write(figures, harvest, 6, least, 6, most, 6, (uint8_t[48]){0}, 48);
    refusal("write", written.refusal);
    written = energy_write(figures, harvest, 6, least, 6, most, 6, (uint8_t[47]){0}, 47);
    refusal("\nwrite", written.refusal);
    printf("\n");
}

/* Tells how large a shift's record is and how large its numbers are together: without room between them it may be kept as
 * its bytes. */
static void sizes(void)
{
    printf("shift: %zu bytes, %zu of numbers\n", sizeof(struct EnergyShift), 6 * sizeof(uint32_t) + 3 * sizeof(uint64_t));
}

int main(void)
{
    planning();
    tracing();
    shift();
    sizes();
    files();
    return 0;
}
