/*
 * The sides that are written in C: all values of row images laid end to end, summed up. Each function takes a record, presence bits and
 * images, and answers in out the sum of the kinds and parts of all values, and place and part of a refusal, whose number it returns.
 */
#include "../bindings/feed.h"

/* An image in which no column is present takes no bytes, so bytes are left over. */
static uint64_t left_over(uint64_t *out)
{
    out[1] = 0;
    out[2] = 0;
    return FEED_IMAGE_SHORT;
}

static uint64_t refused(uint64_t status, const uint64_t *answer, uint64_t *out)
{
    out[1] = answer[FEED_PLACE];
    out[2] = answer[FEED_PART];
    return status;
}

uint64_t rows_by_steps(const uint8_t *profile, size_t profile_length, const uint8_t *presence, size_t presence_length,
                       const uint8_t *images, size_t images_length, uint64_t *out)
{
    uint64_t answer[FEED_OUT_NUMBERS];
    uint64_t sum = 0;
    size_t start = 0;

    out[0] = 0;
    while (start < images_length) {
        uint64_t status = feed_first(profile, profile_length, presence, presence_length, answer, FEED_OUT_NUMBERS);
        size_t column;
        size_t offset;

        if (status != FEED_OK)
            return refused(status, answer, out);
        column = answer[FEED_CURSOR_COLUMN];
        offset = answer[FEED_CURSOR_OFFSET];
        for (;;) {
            size_t i;

            status = feed_step(profile, profile_length, presence, presence_length, images + start, images_length - start, column, offset,
                               answer, FEED_OUT_NUMBERS);
            if (status != FEED_OK)
                return refused(status, answer, out);
            column = answer[FEED_STEP_NEXT_COLUMN];
            offset = answer[FEED_STEP_NEXT_OFFSET];
            if (answer[FEED_STEP_KIND] == FEED_END)
                break;
            /* a step tells where bytes start in its image; the sum has where they start in the images */
            if (answer[FEED_STEP_KIND] == FEED_BYTES)
                sum += start;
            sum += answer[FEED_STEP_KIND];
            for (i = 0; i < FEED_VALUE_NUMBERS - 1; i++)
                sum += answer[FEED_STEP_PARTS + i];
            out[0] = sum;
        }
        if (offset == 0)
            return left_over(out);
        start += offset;
    }
    return FEED_OK;
}

/* How many values are asked for at a time. */
#define BATCH 256

/* the numbers of one value, added in pairs: a sum that waits for each number costs more than the reading of it */
static uint64_t value_sum(const uint64_t *v)
{
    return ((v[0] + v[1]) + (v[2] + v[3])) + ((v[4] + v[5]) + (v[6] + v[7]));
}

uint64_t rows_by_run(const uint8_t *profile, size_t profile_length, const uint8_t *presence, size_t presence_length,
                     const uint8_t *images, size_t images_length, uint64_t *out)
{
    static uint8_t plan[FEED_PLAN_BYTES(FEED_COLUMNS_MOST)];
    static uint64_t values[FEED_VALUE_NUMBERS * BATCH];
    uint64_t answer[FEED_OUT_NUMBERS];
    uint64_t sum = 0;
    size_t plan_length;
    size_t start = 0;
    size_t item = 0;
    size_t offset;
    uint64_t status = feed_plan(profile, profile_length, presence, presence_length, plan, sizeof plan, answer, FEED_OUT_NUMBERS);

    out[0] = 0;
    if (status != FEED_OK)
        return refused(status, answer, out);
    plan_length = answer[FEED_PLAN_LENGTH];
    offset = FEED_BYTES_FOR(answer[FEED_PLAN_ITEMS]);
    for (;;) {
        size_t numbers;
        size_t i;

        status = feed_run(plan, plan_length, images, images_length, start, item, offset, values, FEED_VALUE_NUMBERS * BATCH, answer,
                          FEED_OUT_NUMBERS);
        if (status != FEED_OK)
            return refused(status, answer, out);
        if (answer[FEED_RUN_VALUES] == 0)
            return FEED_OK;
        start = answer[FEED_RUN_START];
        item = answer[FEED_RUN_ITEM];
        offset = answer[FEED_RUN_OFFSET];
        numbers = FEED_VALUE_NUMBERS * answer[FEED_RUN_VALUES];
        for (i = 0; i < numbers; i += FEED_VALUE_NUMBERS)
            sum += value_sum(values + i);
        out[0] = sum;
    }
}
