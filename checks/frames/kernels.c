/* The sample kernels as plain C loops. Each line that is printed has a name, frames, nanoseconds and a checksum. */
#include <stdint.h>
#include <stdio.h>
#include <string.h>
#include <time.h>

enum { BLOCK = 1024, ROUNDS = 50000 };

typedef struct { int16_t side[2]; } frame;

static int16_t sample_at(const uint8_t *bytes, size_t at, int width) {
    switch (width) {
    case 1: return (int16_t)((bytes[at] - 128) * 256);
    case 2: return (int16_t)(bytes[at] | bytes[at + 1] << 8);
    default: return (int16_t)(bytes[at + 1] | bytes[at + 2] << 8);
    }
}

__attribute__((noinline)) void from_bytes(const uint8_t *bytes, int width, int channels, frame *frames, size_t count) {
    for (size_t i = 0; i < count; i++) {
        if (channels == 1) {
            int16_t s = sample_at(bytes, i * width, width);
            frames[i] = (frame){{s, s}};
        } else {
            size_t at = i * 2 * width;
            frames[i] = (frame){{sample_at(bytes, at, width), sample_at(bytes, at + width, width)}};
        }
    }
}

__attribute__((noinline)) void gain(frame *frames, size_t count, int volume) {
    for (size_t i = 0; i < count; i++)
        for (int side = 0; side < 2; side++)
            frames[i].side[side] = (int16_t)(frames[i].side[side] * volume / 100);
}

__attribute__((noinline)) void fade(frame *frames, const frame *others, size_t count, uint32_t place, uint32_t length) {
    for (size_t i = 0; i < count; i++)
        for (int side = 0; side < 2; side++) {
            int64_t at = place + (uint32_t)i;
            frames[i].side[side] = (int16_t)((frames[i].side[side] * (length - at) + others[i].side[side] * at) / (int64_t)length);
        }
}

__attribute__((noinline)) void to_bytes(const frame *frames, size_t count, uint8_t *bytes) {
    for (size_t i = 0; i < count; i++)
        for (int side = 0; side < 2; side++) {
            uint16_t s = (uint16_t)frames[i].side[side];
            bytes[4 * i + 2 * side] = (uint8_t)s;
            bytes[4 * i + 2 * side + 1] = (uint8_t)(s >> 8);
        }
}

static uint32_t sum_of(const frame *frames) {
    uint32_t sum = 0;
    for (int i = 0; i < BLOCK; i++) sum = sum * 31 + (uint16_t)frames[i].side[0] + (uint16_t)frames[i].side[1];
    return sum;
}

static uint32_t sum_of_bytes(const uint8_t *bytes, size_t count) {
    uint32_t sum = 0;
    for (size_t i = 0; i < count; i++) sum = sum * 31 + bytes[i];
    return sum;
}

static uint64_t now(void) {
    struct timespec t;
    clock_gettime(CLOCK_MONOTONIC, &t);
    return (uint64_t)t.tv_sec * 1000000000u + (uint64_t)t.tv_nsec;
}

static void tell(const char *name, uint64_t start, uint32_t sum) {
    printf("%s %llu %llu %u\n", name, (unsigned long long)ROUNDS * BLOCK, (unsigned long long)(now() - start), sum);
}

static uint8_t bytes[6 * BLOCK], out[4 * BLOCK];
static frame frames[BLOCK], others[BLOCK], mixed[BLOCK];

static void read_kernel(const char *name, int width, int channels) {
    uint64_t start = now();
    uint32_t sum = 0;
    for (int round = 0; round < ROUNDS; round++) {
        from_bytes(bytes, width, channels, frames, BLOCK);
        sum ^= (uint16_t)frames[sum % BLOCK].side[0];
    }
    tell(name, start, sum ^ sum_of(frames));
}

int main(void) {
    uint32_t state = 1, sum = 0;
    for (size_t i = 0; i < sizeof bytes; i++) {
        state = state * 1664525u + 1013904223u;
        bytes[i] = (uint8_t)(state >> 24);
    }
    read_kernel("from_bytes_8_mono", 1, 1);
    read_kernel("from_bytes_16_stereo", 2, 2);
    read_kernel("from_bytes_24_stereo", 3, 2);
    from_bytes(bytes + BLOCK, 2, 2, others, BLOCK);
    uint64_t start = now();
    sum = 0;
    for (int round = 0; round < ROUNDS; round++) {
        memcpy(mixed, frames, sizeof mixed);
        gain(mixed, BLOCK, 57);
        sum ^= (uint16_t)mixed[sum % BLOCK].side[0];
    }
    tell("gain", start, sum ^ sum_of(mixed));
    start = now();
    sum = 0;
    for (int round = 0; round < ROUNDS; round++) {
        memcpy(mixed, frames, sizeof mixed);
        fade(mixed, others, BLOCK, 1000, 44100);
        sum ^= (uint16_t)mixed[sum % BLOCK].side[0];
    }
    tell("fade", start, sum ^ sum_of(mixed));
    start = now();
    sum = 0;
    for (int round = 0; round < ROUNDS; round++) {
        to_bytes(frames, BLOCK, out);
        sum ^= out[sum % (4 * BLOCK)];
    }
    tell("to_bytes", start, sum ^ sum_of_bytes(out, sizeof out));
    return 0;
}
