/* The label station: reads requests and prints their cuts, as the cutting program does, by way of the C
 * library. Build it at the repository's root, after `packaging/proved label`:
 *
 *   gcc -std=c11 -O2 -Wall -Wextra -Werror -Iinclude examples/label_station.c \
 *       target/staticlib/liblabel.a -o target/label_station
 */
#include <inttypes.h>
#include <stdbool.h>
#include <stdio.h>

#include "oddersnow.h"

enum { FIELD = 8, LINE = FIELD + 1 + FIELD };

/* The line that is being read. Of a line longer than LINE only that it is so matters. */
struct line {
    uint64_t number;
    size_t length;
    unsigned char bytes[LINE];
};

/* Eight lower-case hexadecimal digits. */
static bool field(const unsigned char *text, uint32_t *value)
{
    *value = 0;
    for (int i = 0; i < FIELD; i++) {
        uint32_t digit;
        if (text[i] >= '0' && text[i] <= '9')
            digit = text[i] - '0';
        else if (text[i] >= 'a' && text[i] <= 'f')
            digit = text[i] - 'a' + 10;
        else
            return false;
        *value = *value * 16 + digit;
    }
    return true;
}

static bool request(const struct line *line, uint32_t *base, uint32_t *length)
{
    return line->length == LINE && field(line->bytes, base) && line->bytes[FIELD] == '\t'
        && field(line->bytes + FIELD + 1, length);
}

/* Prints what belongs to the line, and starts the next one. */
static void answer(struct line *line)
{
    uint32_t base, length;
    if (!request(line, &base, &length))
        printf("%" PRIu64 "\tbad\tline\n", line->number);
    else if (oddersnow_cut_number(base, length) != 0)
        printf("%" PRIu64 "\tbad\t%" PRIu32 "\n", line->number, oddersnow_cut_number(base, length));
    else
        printf("%" PRIu64 "\t%08" PRIx32 "\t%09" PRIx64 "\t%s\n", line->number, oddersnow_cut_low(base, length),
               oddersnow_cut_high(base, length), oddersnow_cut_exact(base, length) ? "yes" : "no");
    line->number++;
    line->length = 0;
}

int main(void)
{
    struct line line = { .number = 1, .length = 0 };
    int byte;
    printf("cut\tlow\thigh\texact\n");
    while ((byte = getchar()) != EOF) {
        if (byte == '\n') {
            answer(&line);
        } else if (line.length < LINE) {
            line.bytes[line.length++] = (unsigned char)byte;
        } else {
            line.length = LINE + 1;
        }
    }
    if (line.length > 0)
        answer(&line);
    return ferror(stdin) || fflush(stdout) != 0;
}
