/* A small C host: both calls, on frames whose bytes and answers follow from docs/FRAMES.md and docs/CLOCK.md. */
#include "zabrusko.h"
#include <stdio.h>
#include <string.h>

static int failures = 0;
static int cases = 0;

static void expect(const char *what, uint32_t got, uint32_t want) {
    cases++;
    if (got != want) {
        failures++;
        printf("%s: got %u, want %u\n", what, got, want);
    }
}

static uint32_t refusal(uint32_t number, uint32_t offset) { return 65536 * number + offset; }

/* A column field of one setting: tag 02, length 22, column, count 1, top, then the sixteen bytes of the value. */
static size_t column(uint8_t *at, uint8_t number, uint8_t top, uint8_t fill) {
    const uint8_t head[] = {0x02, 0x00, 0x16, number, 0x01, 0x00, 0x00, 0x00, top};
    memcpy(at, head, sizeof head);
    memset(at + sizeof head, fill, 16);
    return sizeof head + 16;
}

int main(void) {
    const uint8_t empty[] = {0x01, 0x00, 0x01, 0x0F};
    const uint8_t key16[] = {0x01, 0x00, 0x01, 0x10};
    const uint8_t context[] = {0x03, 0x00, 0x01, 0x0F};
    const uint8_t cut[] = {0x01, 0x00, 0x02, 0x0F};
    expect("key 15 without writes", zabrusko_check_frame(empty, sizeof empty), 0);
    expect("key 16", zabrusko_check_frame(key16, sizeof key16), refusal(4, 0));
    expect("no bytes", zabrusko_check_frame(empty, 0), refusal(1, 0));
    expect("a context", zabrusko_check_frame(context, sizeof context), refusal(2, 0));
    expect("a length past the end", zabrusko_check_frame(cut, sizeof cut), refusal(1, 0));

    /* key 5: column 0 with counter 2, and column 4 with counter 1 */
    uint8_t first[64], second[64], out[128], both[64];
    memcpy(first, (const uint8_t[]){0x01, 0x00, 0x01, 0x05}, 4);
    memcpy(second, first, 4);
    memcpy(both, first, 4);
    size_t n = 4 + column(first + 4, 0, 2, 0xAA);
    size_t m = 4 + column(second + 4, 4, 1, 0xBB);
    size_t b = 4 + column(both + 4, 0, 2, 0xAA);
    b += column(both + b, 4, 1, 0xBB);
    expect("one column", zabrusko_check_frame(first, n), 0);
    expect("columns out of order", (memcpy(out, first, n), column(out + n, 0, 1, 0xCC), zabrusko_check_frame(out, n + 25)), refusal(5, (uint32_t)n));

    memset(out, 0x77, sizeof out);
    expect("a merge", zabrusko_merge_frames(first, n, second, m, out, sizeof out), (uint32_t)b);
    expect("its bytes", (uint32_t)memcmp(out, both, b), 0);
    expect("the bytes beyond", out[b], 0x77);
    expect("a merge with itself", zabrusko_merge_frames(first, n, first, n, out, sizeof out), (uint32_t)n);

    memset(out, 0x77, sizeof out);
    expect("too little room", zabrusko_merge_frames(first, n, second, m, out, b - 1), refusal(9, 0));
    expect("nothing written", out[0], 0x77);
    expect("just enough room", zabrusko_merge_frames(first, n, second, m, out, b), (uint32_t)b);
    second[3] = 0x06;
    expect("another key", zabrusko_merge_frames(first, n, second, m, out, 0), refusal(12, 0));
    expect("the first frame comes first", zabrusko_merge_frames(key16, sizeof key16, cut, sizeof cut, out, 0), refusal(4, 0));
    expect("then the second", zabrusko_merge_frames(first, n, cut, sizeof cut, out, 0), refusal(1, 0));

    printf("host: %d cases, %d failures\n", cases, failures);
    return failures != 0;
}
