/* The same lines, split into words by a plain loop in C that reads their numbers. */
#include <stdint.h>
#include <stdio.h>
#include <stdlib.h>
#include <string.h>
#include <time.h>

static const char pattern[] =
    "set 2 on\ntick 100\nsetpoint 6 1 215\nassoc 10 1 18\nconfig 8 255 999999999\nset 7.3 off\nlink 1 10\nloseack 1\nrepeat 12345\nstore 232\n";

static uint64_t sum;

static uint64_t read_words(const char *text, size_t length)
{
    uint64_t words = 0;
    size_t i = 0;
    while (i < length) {
        while (i < length && (text[i] == ' ' || text[i] == '\t')) i++;
        if (i == length) break;
        uint64_t number = 0;
        int digits = 1;
        for (; i < length && text[i] != ' ' && text[i] != '\t'; i++) {
            if (text[i] >= '0' && text[i] <= '9') number = number * 10 + (uint64_t)(text[i] - '0');
            else digits = 0;
        }
        if (digits) sum += number;
        words++;
    }
    return words;
}

int main(void)
{
    const size_t laps[2] = {8256, 132104};
    for (int k = 0; k < 2; k++) {
        size_t unit = sizeof pattern - 1, size = unit * laps[k];
        char *text = malloc(size);
        if (!text) return 1;
        for (size_t i = 0; i < laps[k]; i++) memcpy(text + i * unit, pattern, unit);
        struct timespec a, b;
        clock_gettime(CLOCK_MONOTONIC, &a);
        uint64_t lines = 0;
        for (size_t i = 0; i < size;) {
            const char *end = memchr(text + i, '\n', size - i);
            size_t length = end ? (size_t)(end - (text + i)) : size - i;
            if (read_words(text + i, length) > 0) lines++;
            i += length + 1;
        }
        clock_gettime(CLOCK_MONOTONIC, &b);
        double seconds = (double)(b.tv_sec - a.tv_sec) + (double)(b.tv_nsec - a.tv_nsec) / 1e9;
        printf("C loop: %zu bytes, %llu lines, %.0f bytes a second (sum %llu)\n", size, (unsigned long long)lines, (double)size / seconds, (unsigned long long)sum);
        free(text);
    }
    return 0;
}
