#define _DEFAULT_SOURCE
#include "roll/longest.h"

#include <inttypes.h>
#include <stdio.h>
#include <string.h>
#include <sys/mman.h>

#include "roll/twin.h"
#include "turnip.h"

/* Bytes that no call reaches beyond: the roll's front, and what is added to it. */
enum { FRONT = 64 };

static const size_t longest = 4294967295;

/* FILED 7 `{x}`, and then a DONE of which the roll's end cuts off all but its front. The bytes behind are zeros that take no
   memory, since nothing looks at them. */
static const uint8_t front[] = {1,   2,   0,   0, 0, 1, 0, 0,   0,   '7', 3,   0,   0,  0,
                                '{', 'x', '}', 1, 0, 0, 0, 255, 255, 255, 255, '7', '7'};

struct side {
    uint8_t *buffer;
    uint32_t list[2], tally[2], answer[5];
};

static uint64_t differences;

static uint8_t *reserve(void)
{
    void *bytes = mmap(NULL, longest + 1, PROT_READ | PROT_WRITE, MAP_PRIVATE | MAP_ANONYMOUS | MAP_NORESERVE, -1, 0);
    return bytes == MAP_FAILED ? NULL : bytes;
}

static void lend(struct side *side)
{
    memset(side->buffer, 0, FRONT);
    memcpy(side->buffer, front, sizeof front);
    side->list[0] = side->list[1] = 7;
    side->tally[0] = 1;
    side->tally[1] = 0;
    memset(side->answer, 0xee, sizeof side->answer);
}

static void compare(const char *call, size_t length, const struct side *library, const struct side *twin)
{
    uint32_t expected = length <= longest ? ROLL_READ : ROLL_TOOLONG;
    if (memcmp(library->answer, twin->answer, sizeof twin->answer) == 0 && library->answer[0] == expected &&
        memcmp(library->buffer, twin->buffer, FRONT) == 0 && memcmp(library->list, twin->list, sizeof twin->list) == 0 &&
        memcmp(library->tally, twin->tally, sizeof twin->tally) == 0)
        return;
    differences++;
    printf("DIFFERENCE: %s, %zu bytes: library answers %" PRIu32 ", twin %" PRIu32 ", expected %" PRIu32 "\n", call, length,
           library->answer[0], twin->answer[0], expected);
}

static void compare_calls(size_t length, struct side *library, struct side *twin)
{
    static const uint8_t job[] = {'7'}, text[] = {'{', 'y', '}'};
    lend(library), lend(twin);
    turnip_roll_read(library->buffer, length, library->list, 2, library->answer);
    twin_roll_read(twin->buffer, length, twin->list, 2, twin->answer);
    compare("read", length, library, twin);
    lend(library), lend(twin);
    turnip_roll_entry(library->buffer, length, 1, library->answer);
    twin_roll_entry(twin->buffer, length, 1, twin->answer);
    compare("entry", length, library, twin);
    lend(library), lend(twin);
    turnip_roll_file(library->buffer, length, length, job, 1, text, 3, library->tally, library->answer);
    twin_roll_file(twin->buffer, length, length, job, 1, text, 3, twin->tally, twin->answer);
    compare("file", length, library, twin);
    lend(library), lend(twin);
    turnip_roll_done(library->buffer, length, length, job, 1, library->tally, library->answer);
    twin_roll_done(twin->buffer, length, length, job, 1, twin->tally, twin->answer);
    compare("done", length, library, twin);
}

uint64_t longest_differences(void)
{
    static struct side library, twin;
    library.buffer = reserve();
    twin.buffer = reserve();
    if (library.buffer == NULL || twin.buffer == NULL) {
        fputs("no room for a roll of 4,294,967,296 bytes\n", stderr);
        return 1;
    }
    compare_calls(longest, &library, &twin);
    compare_calls(longest + 1, &library, &twin);
    printf("rolls of 4,294,967,295 bytes and of one more: %" PRIu64 " differences\n", differences);
    return differences;
}
