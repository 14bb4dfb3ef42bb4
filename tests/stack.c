/* The stack that each function of energy.h takes on requests of the most frames, without bounds and with them: more than
 * the KiB given is a failure.
 * A call runs on a stack of its own, filled with one byte beforehand; what is overwritten was taken. A refused call is a
 * failure too. */
#define _XOPEN_SOURCE 700
#include <stdio.h>
#include <stdlib.h>
#include <string.h>
#include <ucontext.h>

#include "energy.h"

enum { K = ENERGY_MAX_FRAMES, STACK = 1 << 20, UNTOUCHED = 0xA5 };

static const struct EnergyFigures figures = {.capacity = 9000, .start = 500, .end = 700};
static struct EnergyShift shift;
static uint32_t harvest[K], least[K], most[K], budgets[K], losses[K];
static int64_t charges[K];
static uint8_t file[ENERGY_MAX_FILE_BYTES], text[ENERGY_LISTING_BYTES];
static size_t file_length;

/* Each call tells the number of its refusal, which is 0: what a refused call takes says nothing. */
static uint32_t plan(void) { return energy_plan(figures, harvest, K, least, K, most, K, budgets, K).refusal.number; }
static uint32_t needed(void) { return energy_needed(figures, harvest, K, least, K, most, K).refusal.number; }
static uint32_t trace(void)
{
    return energy_trace(figures, harvest, K, budgets, K, charges, K, losses, K).refusal.number;
}
static uint32_t grade(void) { return energy_grade(budgets, K).refusal.number; }
static uint32_t start(void)
{
    struct EnergyShiftAnswer answer = energy_shift_start(figures, harvest, K, least, K, most, K);
    shift = answer.shift;
    return answer.refusal.number;
}
static uint32_t record(void) { return energy_shift_record(shift, 3, 2).refusal.number; }
static uint32_t plan_rest(void)
{
    return energy_shift_plan_rest(shift, harvest, K, least, K, most, K, budgets, K).refusal.number;
}
static uint32_t rest_part(void) { return energy_shift_rest_part(shift, budgets, K).refusal.number; }
static uint32_t write_file(void)
{
    struct EnergyWriteAnswer answer = energy_write(figures, harvest, K, least, K, most, K, file, sizeof file);
    file_length = answer.bytes;
    return answer.refusal.number;
}
static uint32_t read_file(void)
{
    return energy_read(file, file_length, harvest, K, least, K, most, K).refusal.number;
}
static uint32_t listing(void)
{
    energy_listing(file, file_length, text, sizeof text);
    return text[0] == 'r';
}

/* Every function, in an order in which each finds what it needs. */
static const struct {
    const char *name;
    uint32_t (*call)(void);
} calls[] = {
    {"energy_plan", plan}, {"energy_needed", needed}, {"energy_trace", trace},
    {"energy_grade", grade}, {"energy_shift_start", start}, {"energy_shift_record", record},
    {"energy_shift_plan_rest", plan_rest}, {"energy_shift_rest_part", rest_part}, {"energy_write", write_file},
    {"energy_read", read_file}, {"energy_listing", listing},
};

/* Harvests that scatter, rise and fall. */
static uint32_t scattered(uint32_t i) { return i * 7919 % 1009; }
static uint32_t rising(uint32_t i) { return i; }
static uint32_t falling(uint32_t i) { return K - i; }
static uint32_t (*const kinds[])(uint32_t) = {scattered, rising, falling};

/* Leasts that the start charge and the harvests cover, and mosts that scatter, in many of the frames. */
static void bound(void)
{
    for (uint32_t i = 0; i < K; i++) {
        least[i] = i % 3 == 1 ? i * 31 % 41 / 8 : 0;
        most[i] = i % 5 < 2 ? least[i] + i * 7907 % 1013 : ENERGY_NO_UPPER_END;
    }
}

/* The call that runs, and the number of its refusal. */
static uint32_t (*running)(void);
static uint32_t refusal;

static void run(void) { refusal = running(); }

/* How many bytes of stack a call takes. */
static size_t taken(uint32_t (*call)(void))
{
    static uint8_t stack[STACK];
    static ucontext_t here, there;
    memset(stack, UNTOUCHED, STACK);
    getcontext(&there);
    there.uc_stack.ss_sp = stack;
    there.uc_stack.ss_size = STACK;
    there.uc_link = &here;
    running = call;
    makecontext(&there, run, 0);
    swapcontext(&here, &there);
    size_t untouched = 0;
    while (untouched < STACK && stack[untouched] == UNTOUCHED)
        untouched++;
    return STACK - untouched;
}

int main(int count, char **words)
{
    size_t allowed = count == 2 ? strtoul(words[1], NULL, 10) * 1024 : 0;
    int status = EXIT_SUCCESS;
    for (size_t kind = 0; kind < 2 * (sizeof kinds / sizeof *kinds); kind++) {
        for (uint32_t i = 0; i < K; i++)
            harvest[i] = kinds[kind / 2](i);
        energy_no_bounds(least, most, K);
        if (kind % 2 == 1)
            bound();
        for (size_t i = 0; i < sizeof calls / sizeof *calls; i++) {
            size_t bytes = taken(calls[i].call);
            printf("%s: %zu bytes of stack, refusal %u\n", calls[i].name, bytes, (unsigned)refusal);
            if (bytes > allowed || refusal != 0)
                status = EXIT_FAILURE;
        }
    }
    return status;
}
