/* "House A, all lights on": its burst, heard on the mains for tables with one dark lamp, A1, and no
 * shutter; how many are lit then; and the refusal of a buffer that is one byte short. */
#include <stdio.h>
#include "x10.h"

enum { CLEAR = 3, MOST = CLEAR + X10_LONGEST_BURST };

int main(void)
{
    uint8_t line[MOST] = {0}, state[X10_RECEIVER_BYTES];
    uint8_t table[X10_TABLE_BYTES] = {1}, shutters[X10_SHUTTER_TABLE_BYTES] = {0};
    uint8_t events[MOST * X10_EVENT_BYTES], answers[MOST * X10_ANSWER_BYTES];

    uint64_t answer = x10_burst(X10_FUNCTION, 0, X10_ALL_LIGHTS_ON, 0, 0, line + CLEAR, X10_LONGEST_BURST);
    size_t n = CLEAR + x10_count(answer);
    for (size_t i = 0; i < n; i++) putchar('0' + line[i]);

    x10_receiver_fresh(state, sizeof state);
    answer = x10_mains_route(state, sizeof state, line, n, table, sizeof table, shutters, sizeof shutters,
                             events, sizeof events, answers, sizeof answers);
    printf("\nnumber %d, modules %d, A1 at %d\n", x10_number(answer), x10_modules(answer), table[1]);
    for (size_t i = 0; i < n; i++) {
        uint64_t to = x10_answer_at(answers, i);
        if (events[X10_EVENT_BYTES * i] == X10_GIVEN)
            printf("%zu: message, number %d, modules %d\n", i + 1, x10_number(to), x10_modules(to));
        if (events[X10_EVENT_BYTES * i] == X10_REPEAT) printf("%zu: repeat\n", i + 1);
    }
    printf("lit in house A: %d\n", (int)x10_count(x10_lit(table, sizeof table, 0)));

    answer = x10_burst(X10_FUNCTION, 0, X10_ALL_LIGHTS_ON, 0, 0, line, 43);
    printf("number %d, count %d\n", x10_number(answer), (int)x10_count(answer));
}
