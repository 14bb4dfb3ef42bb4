/* Plans a request, records a frame that went otherwise, and plans the rest again.
 * Build: cc -Iinclude examples/plan.c crates/energy/out/libenergy.a -o target/plan_c */
#include <inttypes.h>
#include <stdio.h>

#include "energy.h"

/* Prints a label and the budgets. */
static void print_budgets(const char *label, const uint32_t *budgets, size_t count)
{
    printf("%s:", label);
    for (size_t i = 0; i < count; i++)
        printf(" %" PRIu32, budgets[i]);
    printf("\n");
}

/* Prints a refusal and gives the program's exit status. */
static int refused(struct EnergyRefusal refusal)
{
    printf("refused %" PRIu32 " %" PRIu64 "\n", refusal.number, refusal.p);
    return 1;
}

int main(void)
{
    const struct EnergyFigures figures = {.capacity = 5, .start = 2, .end = 2};
    const uint32_t harvest[6] = {6, 4, 0, 0, 5, 5};
    uint32_t least[6], most[6], budgets[6] = {0};

    energy_no_bounds(least, most, 6);
    struct EnergyPlanAnswer plan = energy_plan(figures, harvest, 6, least, 6, most, 6, budgets, 6);
    if (plan.refusal.number != 0)
        return refused(plan.refusal);
    print_budgets("plan", budgets, 6);

    struct EnergyNeededAnswer needed = energy_needed(figures, harvest, 6, least, 6, most, 6);
    if (needed.refusal.number != 0)
        return refused(needed.refusal);
    printf("needed: %" PRIu64 "\n", needed.capacity);

    struct EnergyShiftAnswer start = energy_shift_start(figures, harvest, 6, least, 6, most, 6);
    if (start.refusal.number != 0)
        return refused(start.refusal);
    struct EnergyShiftAnswer next = energy_shift_record(start.shift, 1, 3);
    if (next.refusal.number != 0)
        return refused(next.refusal);
    struct EnergyRestAnswer rest = energy_shift_plan_rest(next.shift, harvest, 6, least, 6, most, 6, budgets, 6);
    if (rest.refusal.number != 0)
        return refused(rest.refusal);
    struct EnergyPartAnswer part = energy_shift_rest_part(next.shift, budgets, 6);
    if (part.refusal.number != 0)
        return refused(part.refusal);
    print_budgets("rest", budgets + part.from, part.length);
    return 0;
}
