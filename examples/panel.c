/* What a panel does with the library: a plan within bounds, refusals by their names, a shift that is recorded, planned
 * anew and brought back after the power was off, a word file and its listing.
 * Build: cc -Iinclude examples/panel.c crates/energy/out/libenergy.a -o target/panel_c */
#include <inttypes.h>
#include <stdio.h>

#include "energy.h"

#if ENERGY_VERSION_MAJOR == 0 && ENERGY_VERSION_MINOR < 2
#error "version 0.2 of energy.h, or a later one, is needed"
#endif

enum { K = 6 };

/* A recorded frame: what the panel keeps where it stays when the power is off. */
struct Recording {
    uint32_t harvest;
    uint32_t used;
};

static const struct EnergyFigures figures = {.capacity = 5, .start = 2, .end = 2};
static const uint32_t harvest[K] = {6, 4, 0, 0, 5, 5};
static uint32_t least[K], most[K], budgets[K];

/* Says a refusal in words. */
static void say(struct EnergyRefusal refusal)
{
    switch (refusal.number) {
    case ENERGY_REFUSED_HARVEST_ABOVE_LIMIT:
        printf("frame %" PRIu64 ": no frame harvests more than %d Wh\n", refusal.p, ENERGY_MAX_HARVEST);
        break;
    case ENERGY_REFUSED_OUT_OF_REACH:
        printf("%" PRIu64 " Wh are missing for the end charge\n", refusal.p);
        break;
    case ENERGY_REFUSED_BAD_BOUNDS:
        printf("frame %" PRIu64 ": its least is above its most, or one of them is too large\n", refusal.p);
        break;
    case ENERGY_REFUSED_LEASTS_OUT_OF_REACH:
        printf("the leasts are out of reach\n");
        break;
    case ENERGY_REFUSED_USE_TOO_GREAT:
        printf("%" PRIu64 " Wh more than there were\n", refusal.p);
        break;
    default:
        printf("refused %" PRIu32 " %" PRIu64 "\n", refusal.number, refusal.p);
    }
}

/* Prints budgets. */
static void show(const char *label, const uint32_t *list, size_t length)
{
    printf("%s:", label);
    for (size_t i = 0; i < length; i++)
        printf(" %" PRIu32, list[i]);
    printf("\n");
}

/* Plans with the bounds as they are. */
static void plan(void)
{
    struct EnergyPlanAnswer plan = energy_plan(figures, harvest, K, least, K, most, K, budgets, K);
    if (plan.refusal.number == ENERGY_ACCEPTED)
        show("plan", budgets, K);
    else
        say(plan.refusal);
}

/* Plans without bounds, within bounds, and with bounds that are refused. */
static void plans(void)
{
    energy_no_bounds(least, most, K);
    plan();
    most[0] = 3;
    least[3] = 3;
    plan();
    least[3] = 9;
    plan();
    least[0] = 4;
    plan();
    energy_no_bounds(least, most, K);
}

/* Plans the frames that are not recorded yet, and shows their budgets. */
static void plan_rest(struct EnergyShift shift)
{
    struct EnergyRestAnswer rest = energy_shift_plan_rest(shift, harvest, K, least, K, most, K, budgets, K);
    if (rest.refusal.number != ENERGY_ACCEPTED) {
        say(rest.refusal);
        return;
    }
    if (rest.is_short && rest.missing == 0)
        printf("nothing within the bounds is feasible\n");
    else if (rest.is_short)
        printf("nothing is feasible: with budgets of 0 the end charge misses %" PRIu64 " Wh\n", rest.missing);
    struct EnergyPartAnswer part = energy_shift_rest_part(shift, budgets, K);
    show("rest", budgets + part.from, part.length);
}

/* Records a frame: gives the shift after it, or after a refusal the same shift. */
static struct EnergyShift record(struct EnergyShift shift, struct Recording frame)
{
    struct EnergyShiftAnswer next = energy_shift_record(shift, frame.harvest, frame.used);
    if (next.refusal.number != ENERGY_ACCEPTED)
        say(next.refusal);
    return next.shift;
}

/* The shift after all recordings that were kept. */
static struct EnergyShift brought_back(struct EnergyShift shift, const struct Recording *kept, size_t count)
{
    for (size_t i = 0; i < count; i++)
        shift = record(shift, kept[i]);
    return shift;
}

/* A shift of which two frames are recorded. */
static void shift(void)
{
    static const struct Recording kept[2] = {{1, 3}, {5, 2}};
    struct EnergyShiftAnswer started = energy_shift_start(figures, harvest, K, least, K, most, K);
    if (started.refusal.number != ENERGY_ACCEPTED) {
        say(started.refusal);
        return;
    }
    struct EnergyShift shift = record(started.shift, kept[0]);
    plan_rest(shift);
    shift = record(shift, (struct Recording){0, 9});
    shift = record(shift, kept[1]);
    plan_rest(shift);

    shift = brought_back(started.shift, kept, 2);
    printf("brought back: %" PRIu32 " frames, charge %" PRIu32 "\n", shift.now.recorded, shift.now.charge);
}

/* Writes the request as a word file, and prints the file's listing. */
static void listing(void)
{
    static uint8_t file[ENERGY_FILE_BYTES(K)], text[ENERGY_LISTING_BYTES];
    struct EnergyWriteAnswer written = energy_write(figures, harvest, K, least, K, most, K, file, sizeof file);
    size_t length = energy_listing(file, written.bytes, text, sizeof text);
    fwrite(text, 1, length, stdout);
}

int main(void)
{
    plans();
    shift();
    listing();
    return 0;
}
