/* One press of a keypad, as `press A1 ON`: the address and then the function, each sent by the station as soon
 * as the line lets it. The line stands as text on standard input, a 0 or 1 for what others send in each
 * half-cycle; after its end nobody else sends. Writes what the line then had, which `trace` reads. */
#include <stdio.h>
#include <string.h>
#include "x10.h"

static uint8_t others(void)
{
    int c = getchar();
    while (c == '\n' || c == '\r') c = getchar();
    return c == EOF ? 0 : (uint8_t)(c - '0');
}

/* A wait of 8 to 10. A keypad draws it by chance; these come in turn, so that a run can be repeated. */
static uint8_t draw(void)
{
    static unsigned drawn;
    return (uint8_t)(8 + drawn++ % 3);
}

/* The number that the station gave back last: 0 where the burst is out. */
static uint8_t send(uint8_t *station, uint8_t kind, uint8_t house, uint8_t third)
{
    uint64_t answer = x10_station_load(station, X10_STATION_BYTES, kind, house, third, 0, 0, draw());
    int done = 0;
    while (x10_number(answer) == X10_OK && !done) {
        uint8_t sent = (uint8_t)x10_count(x10_station_sends(station, X10_STATION_BYTES));
        uint8_t line = sent | others();
        answer = x10_station_half_cycle(station, X10_STATION_BYTES, line, draw());
        if (x10_number(answer) == X10_OK) putchar('0' + line);
        done = x10_count(answer) == 1;
    }
    putchar('\n');
    return x10_number(answer);
}

/* The code of a function by its name, or one that there is not. */
static uint8_t code_of(const char *name)
{
    for (uint8_t code = 0; code < 16; code++)
        if (*name && strcmp(name, x10_function_name(code)) == 0) return code;
    return 16;
}

/* The unit of a place A1 to P16, 0 to 15, or 16 where it is none. */
static uint8_t unit_of(const char *place)
{
    if (*place < 'A' || *place > 'P') return 16;
    for (uint8_t unit = 0; unit < 16; unit++) {
        char number[4];
        snprintf(number, sizeof number, "%d", unit + 1);
        if (strcmp(place + 1, number) == 0) return unit;
    }
    return 16;
}

int main(int argc, char **argv)
{
    uint8_t unit = argc == 3 ? unit_of(argv[1]) : 16, code = argc == 3 ? code_of(argv[2]) : 16;
    if (unit == 16 || code == 16) {
        fputs("usage: press A1 ON < line\n", stderr);
        return 2;
    }
    uint8_t house = (uint8_t)(argv[1][0] - 'A'), station[X10_STATION_BYTES];
    x10_station_empty(station, sizeof station);

    uint8_t number = send(station, X10_ADDRESS, house, unit);
    if (number == X10_OK) number = send(station, X10_FUNCTION, house, code);
    if (number != X10_OK) fprintf(stderr, "press: %s\n", x10_text(number));
    return number != X10_OK;
}
