/* Gomzhiva, the blending-room energy planner: the C interface of libenergy.a. docs/C.md shows it in use.
 *
 * A request has a capacity, a start charge and an end charge, and for each of K frames a harvest and a least and a
 * most budget, in whole watt-hours; ENERGY_NO_UPPER_END as a most means that the frame has no upper end.
 * After a frame with harvest h and budget e the charge is the smaller of the capacity and (charge before + h - e), the
 * charge before the first frame being the start charge; what exceeds the capacity is lost, never more than h. So after
 * every frame start plus the harvests so far is the charge plus the budgets and the losses so far.
 * Budgets, one for each frame, are feasible if each is at least the least and at most the most of its frame, none is
 * above the charge before it plus its harvest, and the last charge is at least the end charge.
 * A reward table has a worth, which may be below 0, for every number of watt-hours from 0 on, and a request's budgets
 * are worth the sum of what it has for them. It is good if it never falls and is concave: each step up is no greater
 * than the one before it.
 * A plan is feasible, of all that is feasible worth the most by every good reward table at once, and of such budgets
 * the one that takes more in the first frame in which it differs from another. Where anything is feasible there is
 * just one plan. Where mosts bind, it may lose energy and end above the end charge.
 *
 * Every struct answered begins with a refusal: its `number`, ENERGY_ACCEPTED or one of ENERGY_REFUSED_.., and its `p`,
 * 0 unless named there.
 * Each function names its refusals in their order: the first that holds is given.
 * A refused call alters no list, and all that follows the refusal in its answer is 0, whatever is said of it below,
 * save the shift of a refused recording, which is the one given.
 * `energy_listing` answers no struct and refuses nothing: it writes the refusal of a file as text.
 *
 * A list is a pointer and then its length in entries. It must be aligned and valid for that length, and not null even
 * where the length is 0. A list that a call writes must not overlap another list of the same call. Frames are counted
 * from 1, entries of a list from 0.
 *
 * Of such lists all that is said here of answers, and of what lists hold afterwards, is proved, by contract or by a
 * theorem about what the contracts say; that the numbers and structs of this file are the library's is tested. The
 * language sees to it that a call keeps no pointer, touches nothing but its lists and its stack, allocates nothing,
 * and ends: so calls may run at the same time where none writes a list that another one uses. Its stack is measured: a
 * call takes at most 52 KiB of it.
 * Its time is measured too, on an Intel Xeon of 2.5 GHz: on the benchmark's requests of the most frames no call takes
 * more than 0.2 ms, caches emptied before it. Were no guess of the planner right, which no proof excludes and no
 * request has shown, it would search every budget, which takes a twin of the planner up to 20 ms (docs/BENCHMARKS.md,
 * "Calls").
 * The archive is for x86-64-v2 processors and the System V calling convention, as on Linux. It is position-independent,
 * has nothing that can be written, and needs memset from elsewhere and nothing else (docs/C.md, "Machines").
 */
#ifndef ENERGY_H
#define ENERGY_H

#include <stddef.h>
#include <stdint.h>

#ifdef __cplusplus
extern "C" {
#endif

/* The version of this header and of the archive that it goes with. As long as the first number is 0, the second goes up
 * where a program has to be compiled anew or would get other answers, and the third where it need not. */
#define ENERGY_VERSION_MAJOR 0
#define ENERGY_VERSION_MINOR 2
#define ENERGY_VERSION_PATCH 0

/* The most frames of a request: a week of quarter hours. */
#define ENERGY_MAX_FRAMES 672

/* The words of a word file: four besides those of the frames, and for each frame at most three: its harvest, its least
 * unless it is 0, and its most unless it is ENERGY_NO_UPPER_END. */
#define ENERGY_OTHER_WORDS 4
#define ENERGY_FRAME_WORDS 3

/* The most bytes of the word file of a request of k frames, and of any word file: those of the most frames, spelt out,
 * since bindgen expands no macro with an argument. */
#define ENERGY_FILE_BYTES(k) (4 * (ENERGY_FRAME_WORDS * (k) + ENERGY_OTHER_WORDS))
#define ENERGY_MAX_FILE_BYTES (4 * (ENERGY_FRAME_WORDS * ENERGY_MAX_FRAMES + ENERGY_OTHER_WORDS))

/* The largest capacity, and the largest harvest of a frame. */
#define ENERGY_MAX_CAPACITY 1000000000
#define ENERGY_MAX_HARVEST 400000

/* The largest least of a frame, and its largest most beside the one that means no upper end. */
#define ENERGY_MAX_BOUND 536870911
#define ENERGY_NO_UPPER_END 4294967295u

/* Room for any listing: a line of at most 49 bytes, one of at most 33 for each frame, and one of at most 42. */
#define ENERGY_LISTING_BYTES (49 + 33 * ENERGY_MAX_FRAMES + 42)

/* A refusal's number. */
#define ENERGY_ACCEPTED 0
/* No frames. */
#define ENERGY_REFUSED_NO_FRAMES 1
/* More than ENERGY_MAX_FRAMES frames, or a file above ENERGY_MAX_FILE_BYTES. */
#define ENERGY_REFUSED_TOO_MANY_FRAMES 2
/* Capacity above ENERGY_MAX_CAPACITY (energy_needed: start or end above it). */
#define ENERGY_REFUSED_CAPACITY_ABOVE_LIMIT 3
/* Start above capacity. */
#define ENERGY_REFUSED_START_ABOVE_CAPACITY 4
/* End above capacity. */
#define ENERGY_REFUSED_END_ABOVE_CAPACITY 5
/* A harvest above ENERGY_MAX_HARVEST; p is the earliest such frame, from 1. */
#define ENERGY_REFUSED_HARVEST_ABOVE_LIMIT 6
/* A list whose length is not K, or one too short for the file. */
#define ENERGY_REFUSED_WRONG_LENGTH 7
/* A malformed file; p is the word's place, from 0. */
#define ENERGY_REFUSED_BAD_WORD 8
/* Start plus all harvest is below the end charge; p is the amount missing. */
#define ENERGY_REFUSED_OUT_OF_REACH 9
/* A least above its most or above ENERGY_MAX_BOUND, or a most above that which is not ENERGY_NO_UPPER_END; p is the
 * earliest such frame, from 1. */
#define ENERGY_REFUSED_BAD_BOUNDS 10
/* The leasts taken as budgets are not feasible (energy_needed: not with unlimited storage), where 9 does not apply; so
 * nothing is feasible. */
#define ENERGY_REFUSED_LEASTS_OUT_OF_REACH 11
/* Every frame is recorded already. */
#define ENERGY_REFUSED_ALL_RECORDED 20
/* Use greater than charge plus harvest; p is the excess. */
#define ENERGY_REFUSED_USE_TOO_GREAT 21
/* A shift record that isn't one: struct EnergyShift says which. */
#define ENERGY_REFUSED_NOT_SHIFT 22

/* The tracer's verdicts. */
#define ENERGY_FEASIBLE 0
#define ENERGY_END_TOO_LOW 1
#define ENERGY_BELOW_ZERO 2

/* A request's capacity, start charge and end charge. */
struct EnergyFigures {
    uint32_t capacity;
    uint32_t start;
    uint32_t end;
};

struct EnergyRefusal {
    uint32_t number;
    uint64_t p;
};

struct EnergyPlanAnswer {
    struct EnergyRefusal refusal;
};

/* capacity: the needed capacity; it may exceed ENERGY_MAX_CAPACITY. */
struct EnergyNeededAnswer {
    struct EnergyRefusal refusal;
    uint64_t capacity;
};

/* verdict: ENERGY_BELOW_ZERO if the charge after a frame before the last one is below zero, else ENERGY_END_TOO_LOW if
 * the last charge is below the end charge, else ENERGY_FEASIBLE.
 * frame: with ENERGY_BELOW_ZERO the earliest frame whose charge is below zero, otherwise 0. */
struct EnergyTraceAnswer {
    struct EnergyRefusal refusal;
    uint32_t verdict;
    uint32_t frame;
};

/* What budgets are worth by three reward tables, the house curves: the sum over the budgets of what their watt-hours
 * are worth, each of them, counted from 1 in every budget,
 * 16 up to 100, 8 up to 300, 4 up to 700, 2 up to 1500, 1 above, by house curve 0;
 * 24 up to 50, 12 up to 200, 3 up to 800, 1 up to 2000, 0 above, by house curve 1;
 * 5 up to 1000, 4 up to 2000, 3 up to 4000, 2 up to 8000, 1 above, by house curve 2. */
struct EnergySums {
    uint64_t curve0;
    uint64_t curve1;
    uint64_t curve2;
};

struct EnergyGradeAnswer {
    struct EnergyRefusal refusal;
    struct EnergySums sums;
};

/* What a shift was started from: K, capacity, start and end charge. */
struct EnergyTerms {
    uint32_t frames;
    uint32_t capacity;
    uint32_t start;
    uint32_t end;
};

/* Sums over the recorded frames. */
struct EnergyTotals {
    uint64_t harvested;
    uint64_t used;
    uint64_t lost;
};

/* How a shift stands: frames recorded, charge, and the totals so far. */
struct EnergyPresent {
    uint32_t recorded;
    uint32_t charge;
    struct EnergyTotals totals;
};

/* A shift's record: numbers alone, kept by value. ENERGY_REFUSED_NOT_SHIFT refuses one in which frames, capacity,
 * start or end are not those of a request, recorded is above frames, charge above capacity, harvested above
 * ENERGY_MAX_HARVEST for each recorded frame, or start plus harvested is not charge plus used plus lost. */
struct EnergyShift {
    struct EnergyTerms terms;
    struct EnergyPresent now;
};

struct EnergyShiftAnswer {
    struct EnergyRefusal refusal;
    struct EnergyShift shift;
};

/* is_short: 1 if nothing is feasible for the rest, and then missing is what the end charge misses with budgets 0: end
 * less charge less remaining harvest, or 0 if that is below 0; otherwise both are 0. */
struct EnergyRestAnswer {
    struct EnergyRefusal refusal;
    uint32_t is_short;
    uint64_t missing;
};

/* The part of the budgets from index `from` on, `length` entries. */
struct EnergyPartAnswer {
    struct EnergyRefusal refusal;
    size_t from;
    size_t length;
};

/* What a file says before its frames, and frames: its count of harvests, K. */
struct EnergyHeader {
    struct EnergyFigures figures;
    size_t frames;
};

struct EnergyReadAnswer {
    struct EnergyRefusal refusal;
    struct EnergyHeader header;
};

/* bytes: how many bytes were written. */
struct EnergyWriteAnswer {
    struct EnergyRefusal refusal;
    size_t bytes;
};

/* Fills the lists of a request whose frames have no bounds: leasts of 0, mosts of ENERGY_NO_UPPER_END. */
static inline void energy_no_bounds(uint32_t *least, uint32_t *most, size_t frames)
{
    for (size_t i = 0; i < frames; i++) {
        least[i] = 0;
        most[i] = ENERGY_NO_UPPER_END;
    }
}

/* Writes the plan of a request into `budgets`. K is the length of `harvest`, and the other lists have K entries.
 * Refuses 1, 2, 7 (least, most or budgets), 3, 4, 5, 6, 10, 9, 11. */
struct EnergyPlanAnswer energy_plan(struct EnergyFigures figures,
                                    const uint32_t *harvest, size_t harvest_length,
                                    const uint32_t *least, size_t least_length,
                                    const uint32_t *most, size_t most_length,
                                    uint32_t *budgets, size_t budgets_length);

/* The least capacity, at least start and end, with which by every good reward table some feasible budgets are worth as
 * much as any that are feasible with unlimited storage, where nothing is lost; the capacity of the figures plays no
 * part.
 * Refuses 1, 2, 7 (least or most), 3, 6, 10, 9, 11. */
struct EnergyNeededAnswer energy_needed(struct EnergyFigures figures,
                                        const uint32_t *harvest, size_t harvest_length,
                                        const uint32_t *least, size_t least_length,
                                        const uint32_t *most, size_t most_length);

/* Writes the charge after each frame under any budgets into `charges`, by the rule above also from below zero on, and
 * what each frame loses into `losses`, and judges the budgets; no least and no most counts here.
 * Refuses 1, 2, 7 (budgets, charges or losses), 3, 4, 5, 6. */
struct EnergyTraceAnswer energy_trace(struct EnergyFigures figures,
                                      const uint32_t *harvest, size_t harvest_length,
                                      const uint32_t *budgets, size_t budgets_length,
                                      int64_t *charges, size_t charges_length,
                                      uint32_t *losses, size_t losses_length);

/* Grades any budgets by the three house curves. Refuses 1, 2. */
struct EnergyGradeAnswer energy_grade(const uint32_t *budgets, size_t budgets_length);

/* Starts a shift from a request: nothing is recorded, and the charge is the start charge. Refuses 1, 2, 7 (least or
 * most), 3, 4, 5, 6, 10, 9, 11. */
struct EnergyShiftAnswer energy_shift_start(struct EnergyFigures figures,
                                            const uint32_t *harvest, size_t harvest_length,
                                            const uint32_t *least, size_t least_length,
                                            const uint32_t *most, size_t most_length);

/* Records the actual harvest and use of the next frame, and hands the shift back as it stands after that frame, by the
 * rule above with the use as budget. No least and no most bounds the use.
 * Refuses 22, 20, 6 (p is the frame being recorded), 21; the answer's shift is then the one given. */
struct EnergyShiftAnswer energy_shift_record(struct EnergyShift shift, uint32_t harvest, uint32_t used);

/* Writes the plan of the frames not yet recorded into `budgets`, from the next frame to the last: the plan of the
 * request with the shift's capacity and end charge, its charge as start charge, and for these frames the harvests and
 * bounds lent. All lists have K entries; what they have for recorded frames plays no part, and stays in `budgets`. If
 * nothing is feasible, is_short is 1 and the budgets of these frames become 0, below their leasts too.
 * Refuses 22, 7 (any list), 20, and over the frames not yet recorded 6, 10. */
struct EnergyRestAnswer energy_shift_plan_rest(struct EnergyShift shift,
                                               const uint32_t *harvest, size_t harvest_length,
                                               const uint32_t *least, size_t least_length,
                                               const uint32_t *most, size_t most_length,
                                               uint32_t *budgets, size_t budgets_length);

/* Where the part of `budgets` (K entries) that begins at the next frame lies. Refuses 22, 7, 20. */
struct EnergyPartAnswer energy_shift_rest_part(struct EnergyShift shift,
                                               const uint32_t *budgets, size_t budgets_length);

/* Reads a word file, whose bytes docs/WORD-FILE.md shows: its header into the answer, its frames into `harvest`,
 * `least` and `most`, whose surplus keeps its values; a least that the file leaves out is 0, and a most
 * ENERGY_NO_UPPER_END. Refuses 2 (the file's size), 8, 2 (its frames), 7 if one of the lists is too short; it checks
 * nothing else. */
struct EnergyReadAnswer energy_read(const uint8_t *file, size_t file_length,
                                    uint32_t *harvest, size_t harvest_length,
                                    uint32_t *least, size_t least_length,
                                    uint32_t *most, size_t most_length);

/* Writes the word file of a request into `file`, at most ENERGY_FILE_BYTES(K) bytes; its surplus keeps its values.
 * Refuses 1, 2, 7 (least or most, or `file` too short for the words of the lists), 3, 4, 5, 6, 10. */
struct EnergyWriteAnswer energy_write(struct EnergyFigures figures,
                                      const uint32_t *harvest, size_t harvest_length,
                                      const uint32_t *least, size_t least_length,
                                      const uint32_t *most, size_t most_length,
                                      uint8_t *file, size_t file_length);

/* Writes what the plan program prints for a word file into `text`: if reading the file, or planning its request with
 * its leasts and mosts, refuses something, the line `refused NUMBER P`; else `frames K capacity CAPACITY needed
 * CAPACITY`, for each frame its number, budget, charge and loss, and `worth` with the plan's three sums. Returns the
 * number of bytes written: as much of the text as there is room for, and any listing has room in ENERGY_LISTING_BYTES.
 * The text is ASCII, one blank between words and a line feed behind every line, and no NUL ends it; the surplus of
 * `text` keeps its values. */
size_t energy_listing(const uint8_t *file, size_t file_length, uint8_t *text, size_t text_length);

#ifdef __cplusplus
}
#endif

#endif
