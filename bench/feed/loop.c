/* The same stream, split by a plain loop in C that keeps the same state and copies the same bodies. */
#include <stdint.h>
#include <stdio.h>
#include <stdlib.h>
#include <string.h>
#include <time.h>

static const uint8_t pattern[24] = {
    0x01, 0x0e, 0x00, 0x13, 0x02, 0x07, 0x6c, 0x01, 0x01, 0x03, 0x25, 0x01, 0xff, 0x25, 0x01, 0x77,
    0x06, 0x01, 0x04, 0x01, 0x13, 0x01, 0xe8, 0x00};
enum { LAPS = 699050 };

struct item { uint8_t what, first, second; uint8_t *body; size_t length; };
struct decoder { uint8_t held[256]; size_t length; uint8_t sum; };

static size_t finish(struct decoder *d, uint8_t got, struct item *out)
{
    struct item item = {4, d->sum, got, NULL, 0};
    if (got == d->sum && d->held[2] <= 1) {
        item.what = 5;
        item.length = d->length - 4;
        item.body = malloc(item.length ? item.length : 1);
        if (!item.body) exit(1);
        memcpy(item.body, d->held + 4, item.length);
    }
    d->length = 0;
    *out = item;
    return 1;
}

static size_t feed(struct decoder *d, const uint8_t *piece, size_t n, struct item *out)
{
    size_t items = 0;
    for (size_t i = 0; i < n; i++) {
        uint8_t byte = piece[i];
        if (d->length == 0) {
            if (byte == 0x01) { d->held[d->length++] = byte; d->sum = 0xff; }
            else out[items++] = (struct item){byte == 0x06 || byte == 0x15 || byte == 0x18 ? 1 : 2, byte, 0, NULL, 0};
        } else if (d->length == 1 && byte < 3) {
            out[items++] = (struct item){3, byte, 0, NULL, 0};
            d->length = 0;
        } else if (d->length > 1 && d->length == (size_t)d->held[1] + 1) {
            items += finish(d, byte, out + items);
        } else {
            d->held[d->length++] = byte;
            d->sum ^= byte;
        }
    }
    return items;
}

static double seconds(void)
{
    struct timespec now;
    clock_gettime(CLOCK_MONOTONIC, &now);
    return (double)now.tv_sec + (double)now.tv_nsec / 1e9;
}

int main(void)
{
    size_t total = (size_t)LAPS * sizeof pattern;
    uint8_t *stream = malloc(total);
    static struct item out[4096];
    if (!stream) return 1;
    for (size_t i = 0; i < LAPS; i++) memcpy(stream + i * sizeof pattern, pattern, sizeof pattern);
    size_t sizes[3] = {1, 64, 4096};
    for (int s = 0; s < 3; s++) {
        struct decoder d = {{0}, 0, 0xff};
        size_t count = 0;
        double start = seconds();
        for (size_t at = 0; at < total; at += sizes[s]) {
            size_t n = total - at < sizes[s] ? total - at : sizes[s];
            size_t items = feed(&d, stream + at, n, out);
            for (size_t i = 0; i < items; i++) free(out[i].body);
            count += items;
        }
        double spent = seconds() - start;
        printf("loop: pieces of %zu: %zu items, %.0f bytes a second\n", sizes[s], count, (double)total / spent);
    }
    free(stream);
    return 0;
}
