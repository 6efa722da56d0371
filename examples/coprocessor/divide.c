/* Divides by the coprocessor, and compares with the division of the machine that runs this program, bit by bit. */
#include <math.h>
#include <stdio.h>
#include <stdlib.h>
#include <string.h>

#include "bus.h"
#include "divider.h"

static uint32_t word_of(float value)
{
    uint32_t word;
    memcpy(&word, &value, sizeof word);
    return word;
}

static float number_of(uint32_t word)
{
    float value;
    memcpy(&value, &word, sizeof value);
    return value;
}

static float divide(float dividend, float divisor)
{
    bus_write(DIVIDER_IN_a, word_of(dividend));
    bus_write(DIVIDER_IN_b, word_of(divisor));
    bus_write(DIVIDER_CONTROL, DIVIDER_CONTROL_START);
    while (!(bus_read(DIVIDER_STATUS) & DIVIDER_STATUS_DONE))
        ;
    return number_of(bus_read(DIVIDER_RESULT));
}

/* The next word of a generator of Marsaglia's. */
static uint32_t drawn(void)
{
    static uint32_t state = 2463534242u;
    state ^= state << 13;
    state ^= state >> 17;
    state ^= state << 5;
    return state;
}

int main(int count, char **words)
{
    int number = count > 1 ? atoi(words[1]) : 1000, wrong = 0;
    for (int i = 0; i < number; i++) {
        float dividend = number_of(drawn()), divisor = number_of(drawn());
        float wanted = dividend / divisor, got = divide(dividend, divisor);
        if (isnan(wanted) ? !isnan(got) : word_of(wanted) != word_of(got)) {
            printf("%a by %a is %a, and the coprocessor gives %a\n", dividend, divisor, wanted, got);
            wrong++;
        }
    }
    printf("1 by 3 is %.9g\n%d quotients, %d differ\n", divide(1, 3), number, wrong);
    return wrong != 0;
}
