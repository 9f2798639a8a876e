/*
 * The door counter on six lines: each press takes the pattern p to p + 1, and
 * 728 back to 0. Makes its table, the cascade, tidies and prices it, runs it,
 * and walks it backwards. Ends with status 0 if every answer is as it must be.
 *
 *   tools/archive
 *   cc -Iinclude examples/c/count.c target/staticlib/libexports.a -o count && ./count
 */
#include <stdio.h>
#include <tiles.h>

enum { LINES = 6, VALUE = 2, FITTED = 7 };

static uint16_t table[TILES_MOST_ENTRIES];
static uint8_t cascade[TILES_MOST_FOUND * TILES_RECORD];
static uint8_t inverse[TILES_MOST_FOUND * TILES_RECORD];
static int wrong;

/* The answer, if it was accepted; otherwise says which call was refused. */
static struct tiles_answer accepted(const char *call, struct tiles_answer answer)
{
    if (answer.number != 0) {
        printf("%s: refused %u at %u\n", call, (unsigned)answer.number, (unsigned)answer.place);
        wrong++;
    }
    return answer;
}

static void expect(const char *what, int holds)
{
    if (!holds) {
        printf("wrong: %s\n", what);
        wrong++;
    }
}

int main(void)
{
    static const uint16_t patterns[] = {0, 1, 2, 8, 242, 364, 727, 728};
    struct tiles_answer answer;
    uint64_t found, cost;
    size_t bytes, i;

    for (i = 0; i < TILES_MOST_ENTRIES; i++)
        table[i] = (uint16_t)((i + 1) % TILES_MOST_ENTRIES);

    answer = tiles_synthesize(LINES, table, TILES_MOST_ENTRIES, cascade, sizeof cascade);
    found = accepted("synthesize", answer).first;
    bytes = (size_t)found * TILES_RECORD;
    cost = accepted("price", tiles_price(LINES, VALUE, FITTED, cascade, bytes)).first;
    printf("found:  %u gates, cost %u\n", (unsigned)found, (unsigned)cost);

    /* Tidying may find nothing, as here. What it frees is cut off. */
    answer = accepted("tidy", tiles_tidy(LINES, cascade, bytes));
    expect("tidying adds no gate", answer.first <= found);
    found = answer.first;
    bytes = (size_t)found * TILES_RECORD;
    printf("tidied: %u steps", (unsigned)answer.second);
    answer = accepted("price", tiles_price(LINES, VALUE, FITTED, cascade, bytes));
    expect("tidying makes nothing dearer", answer.first <= cost);
    printf(", %u gates, cost %u\n", (unsigned)found, (unsigned)answer.first);

    answer = accepted("invert", tiles_invert(LINES, cascade, bytes, inverse, sizeof inverse));
    expect("the inverse has as many gates", answer.first == found);

    for (i = 0; i < sizeof patterns / sizeof patterns[0]; i++) {
        uint16_t pattern = patterns[i];
        answer = accepted("run", tiles_run(LINES, cascade, bytes, pattern));
        printf("%3u -> %3u\n", (unsigned)pattern, (unsigned)answer.first);
        expect("one more", answer.first == table[pattern]);
        answer = accepted("run", tiles_run(LINES, inverse, bytes, (uint16_t)answer.first));
        expect("and back", answer.first == pattern);
    }

    /* Refusals have their number and their place. */
    answer = tiles_run(LINES, cascade, bytes, TILES_MOST_ENTRIES);
    expect("729 is no pattern", answer.number == 8 && answer.place == 0 && answer.first == 0);
    table[5] = 0;
    answer = tiles_check_table(LINES, table, TILES_MOST_ENTRIES);
    expect("0 stands twice", answer.number == 4 && answer.place == TILES_MOST_ENTRIES - 1);
    answer = tiles_synthesize(LINES, table, TILES_MOST_ENTRIES - 1, cascade, 0);
    expect("an entry is missing", answer.number == 2 && answer.place == 0);

    if (wrong == 0)
        printf("all as it must be\n");
    return wrong != 0;
}
