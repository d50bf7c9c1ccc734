/* A thermometer with parameters, as crates/example_sensor: its line is this program's input and output. `wake`, `send A2
 * 00`, `press up`, `down` or `reset`, and `power` are what comes; the answers are those of crates/example_sensor. */
#include "iolink_params.h"
#include <stdio.h>
#include <stdlib.h>

/* Above the switching POINT it is too hot, until it is cooler by the hysteresis; temperatures are tenths of a degree. */
enum { HYSTERESIS = 40, POINT = 41, HOTTEST = 1000, PRESS = 5, FETCHES = 4, SIZE = 1 + 7 * 65 + 2 * 3 };
enum { OUT_OF_RANGE = 0x8C10, APPEARS = 0xE4, DISAPPEARS = 0xA4 };

#define OF(octets) (const uint8_t *)(octets), sizeof(octets) - 1
#define MADE(index, octets) {index, 0, IOL_TEXT, IOL_READ_ONLY, 64, 0, 0, OF(octets)}
#define NUMBER(index, octets) {index, 0, IOL_UINT16, IOL_STORED, 0, 0, HOTTEST, OF(octets)}
#define TWO_OCTETS(number) (uint8_t[2]){(uint8_t)((number) >> 8), (uint8_t)(number)}, 2
static const iol_param_row rows[] = {MADE(16, "Sensors of Example"), MADE(17, "Measured with care"),
    MADE(18, "Thermometer"), MADE(19, "T-100"), MADE(20, "0 to 100 degrees, one switching point"), MADE(21, "00012345"),
    {24, 0, IOL_TEXT, IOL_STORED, 64, 0, 0, OF("***")}, NUMBER(HYSTERESIS, "\0\x0A"), NUMBER(POINT, "\0\xE6")};
static const iol_order_rule rules[] = {{HYSTERESIS, 0, POINT, 0}};
static const uint8_t page[10] = {0x17, 0x2D, 0x11, 0x10, 0x00, 0x12, 0x34, 0x00, 0x01, 0x07};

static iol_params device;
static uint8_t saved[SIZE], error; /* `saved` is yours: memory that outlives the power */
static int tenths = 200, is_hot, fetches;

static void power(void)
{
    iol_params_close(&device);
    if (iol_params_open(&device, page, rows, sizeof rows / sizeof *rows, rules, 1, saved, SIZE, &(size_t){0}) != 0)
        exit(1);
    is_hot = 0, fetches = FETCHES;
}

/* What the power is to leave, before the master hears that it is written. */
static void save(void)
{
    iol_params_image(&device, saved, SIZE);
    iol_params_saved(&device);
}

static int number(uint16_t index)
{
    iol_value value;
    return iol_params_value(&device, index, 0, &value, &error) == 0 ? value.octets[0] << 8 | value.octets[1] : 0;
}

static void measure(void)
{
    int was_hot = is_hot, limit = number(POINT) - (is_hot ? number(HYSTERESIS) : 0);
    is_hot = ++tenths > limit;
    iol_params_set_input(&device, TWO_OCTETS(tenths));
    if (is_hot != was_hot)
        iol_params_raise(&device, is_hot ? APPEARS : DISAPPEARS, OUT_OF_RANGE);
}

static void press(int button)
{
    int point = number(POINT) + (button == 'u' ? PRESS : -PRESS);
    int refused = button == 'r' ? iol_params_reset(&device, &error)
        : iol_params_set(&device, POINT, 0, TWO_OCTETS(point), &error);
    refused ? printf("refused 80 %02X\n", error) : (save(), puts("done"));
}

/* After a reset that the master asked for, it is silent until it begins anew. */
static void hear(char *words)
{
    uint8_t octets[66], count = 0, restart, i;
    iol_reply reply = {0};
    while (count < sizeof octets && *words >= ' ')
        octets[count++] = (uint8_t)strtoul(words, &words, 16);
    iol_params_restart(&device, &restart);
    if (restart == 0 || fetches-- > 0)
        iol_params_hear(&device, octets, count, &reply);
    else if (restart == 1)
        power();
    while (iol_params_work(&device) == IOL_TO_SAVE)
        save();
    for (i = 0; i < reply.length; i++)
        printf(i ? " %02X" : "%02X", reply.octets[i]);
    puts("");
}

int main(void)
{
    char line[256];
    for (power(); fgets(line, sizeof line, stdin);) {
        measure();
        switch (line[1]) {
        case 'a': iol_params_wake(&device), puts("COM2"); break;
        case 'o': power(), puts(""); break;
        case 'r': press(line[6]); break;
        default: hear(line + 5);
        }
    }
    return iol_params_close(&device);
}
