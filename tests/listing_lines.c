/* Reads lines of WORD, tab, WORD, tab, LINE from standard input, words in four or eight hexadecimal digits, and asks the proved
   library: the first word lists as the line, and the line assembles to the second word. Says what differs, and how many were asked. */
#include <inttypes.h>
#include <stdio.h>
#include <stdlib.h>
#include <string.h>

#include "../include/oddersnow.h"

static size_t bytes_of(const char *digits, uint8_t *bytes)
{
    size_t size = strlen(digits) / 2;
    unsigned long word = strtoul(digits, NULL, 16);
    for (size_t i = 0; i < size; i++)
        bytes[i] = (uint8_t)(word >> (8 * i));
    return size;
}

int main(void)
{
    char asked[256], line[256];
    unsigned checked = 0, wrong = 0;
    while (fgets(asked, sizeof asked, stdin) != NULL) {
        char *first = strtok(asked, "\t"), *chosen = strtok(NULL, "\t"), *rest = strtok(NULL, "");
        uint8_t word[4], back[4], expected[4], text[80];
        memset(text, 'x', sizeof text);
        uint64_t answer = oddersnow_list(word, bytes_of(first, word), text, 64);
        snprintf(line, sizeof line, "%s", rest);
        int listed = answer == strlen(line) && memcmp(text, line, strlen(line)) == 0 && text[answer] == 'x';
        size_t size = bytes_of(chosen, expected);
        answer = oddersnow_assemble((const uint8_t *)line, strlen(line), back, sizeof back);
        int assembled = answer == size && memcmp(back, expected, size) == 0;
        if (!listed || !assembled) {
            wrong++;
            printf("%s: %s%s%s", first, listed ? "" : "not listed so; ", assembled ? "" : "not assembled so; ", line);
        }
        checked++;
    }
    printf("%u words, %u differ\n", checked, wrong);
    return checked == 0 || wrong != 0;
}
