#include "bytes.h"

#include <stdarg.h>
#include <stdio.h>
#include <stdlib.h>
#include <string.h>
#include <unistd.h>

void give_up(int status, const char *format, ...) {
    va_list given;
    va_start(given, format);
    fputs("foresight-server: ", stderr);
    vfprintf(stderr, format, given);
    fputc('\n', stderr);
    va_end(given);
    _exit(status);
}

void say(const char *format, ...) {
    va_list given;
    va_start(given, format);
    fputs("foresight-server: ", stderr);
    vfprintf(stderr, format, given);
    fputc('\n', stderr);
    va_end(given);
}

uint8_t *bytes_reserve(struct bytes *bytes, size_t more) {
    if (bytes->size + more > bytes->room) {
        size_t room = 2 * (bytes->size + more) + 64;
        uint8_t *at = realloc(bytes->at, room);
        if (at == NULL) give_up(STATUS_MEMORY, "no memory");
        bytes->at = at;
        bytes->room = room;
    }
    return bytes->at + bytes->size;
}

void bytes_put(struct bytes *bytes, const void *more, size_t size) {
    if (size == 0) return;
    memcpy(bytes_reserve(bytes, size), more, size);
    bytes->size += size;
}

void bytes_text(struct bytes *bytes, const char *text) { bytes_put(bytes, text, strlen(text)); }

void bytes_format(struct bytes *bytes, const char *format, ...) {
    va_list given, again;
    va_start(given, format);
    va_copy(again, given);
    int size = vsnprintf(NULL, 0, format, given);
    bytes_reserve(bytes, (size_t)size + 1);
    vsnprintf((char *)bytes->at + bytes->size, (size_t)size + 1, format, again);
    bytes->size += (size_t)size;
    va_end(again);
    va_end(given);
}

void bytes_drop(struct bytes *bytes, size_t first) {
    if (first == 0) return;
    bytes->size -= first;
    memmove(bytes->at, bytes->at + first, bytes->size);
}

void bytes_free(struct bytes *bytes) {
    free(bytes->at);
    *bytes = (struct bytes){ NULL, 0, 0 };
}

bool bytes_read_file(struct bytes *bytes, const char *path) {
    FILE *file = fopen(path, "rb");
    if (file == NULL) return false;
    size_t got = 1;
    while (got > 0) {
        got = fread(bytes_reserve(bytes, 65536), 1, 65536, file);
        bytes->size += got;
    }
    bool fine = !ferror(file);
    fclose(file);
    return fine;
}

/* ---- SHA-256 (FIPS 180-4). */

static const uint32_t ROUND[64] = { 0x428a2f98, 0x71374491, 0xb5c0fbcf, 0xe9b5dba5, 0x3956c25b,
    0x59f111f1, 0x923f82a4, 0xab1c5ed5, 0xd807aa98, 0x12835b01, 0x243185be, 0x550c7dc3, 0x72be5d74,
    0x80deb1fe, 0x9bdc06a7, 0xc19bf174, 0xe49b69c1, 0xefbe4786, 0x0fc19dc6, 0x240ca1cc, 0x2de92c6f,
    0x4a7484aa, 0x5cb0a9dc, 0x76f988da, 0x983e5152, 0xa831c66d, 0xb00327c8, 0xbf597fc7, 0xc6e00bf3,
    0xd5a79147, 0x06ca6351, 0x14292967, 0x27b70a85, 0x2e1b2138, 0x4d2c6dfc, 0x53380d13, 0x650a7354,
    0x766a0abb, 0x81c2c92e, 0x92722c85, 0xa2bfe8a1, 0xa81a664b, 0xc24b8b70, 0xc76c51a3, 0xd192e819,
    0xd6990624, 0xf40e3585, 0x106aa070, 0x19a4c116, 0x1e376c08, 0x2748774c, 0x34b0bcb5, 0x391c0cb3,
    0x4ed8aa4a, 0x5b9cca4f, 0x682e6ff3, 0x748f82ee, 0x78a5636f, 0x84c87814, 0x8cc70208, 0x90befffa,
    0xa4506ceb, 0xbef9a3f7, 0xc67178f2 };

static uint32_t turn(uint32_t x, int by) { return x >> by | x << (32 - by); }

static void sum_block(uint32_t state[8], const uint8_t *block) {
    uint32_t w[64], a = state[0], b = state[1], c = state[2], d = state[3], e = state[4],
                    f = state[5], g = state[6], h = state[7];
    for (int i = 0; i < 16; i++) {
        w[i] = (uint32_t)block[4 * i] << 24 | (uint32_t)block[4 * i + 1] << 16
               | (uint32_t)block[4 * i + 2] << 8 | block[4 * i + 3];
    }
    for (int i = 16; i < 64; i++) {
        uint32_t low = turn(w[i - 15], 7) ^ turn(w[i - 15], 18) ^ w[i - 15] >> 3;
        uint32_t high = turn(w[i - 2], 17) ^ turn(w[i - 2], 19) ^ w[i - 2] >> 10;
        w[i] = w[i - 16] + low + w[i - 7] + high;
    }
    for (int i = 0; i < 64; i++) {
        uint32_t t =
            h + (turn(e, 6) ^ turn(e, 11) ^ turn(e, 25)) + ((e & f) ^ (~e & g)) + ROUND[i] + w[i];
        uint32_t u = (turn(a, 2) ^ turn(a, 13) ^ turn(a, 22)) + ((a & b) ^ (a & c) ^ (b & c));
        h = g, g = f, f = e, e = d + t;
        d = c, c = b, b = a, a = t + u;
    }
    state[0] += a, state[1] += b, state[2] += c, state[3] += d;
    state[4] += e, state[5] += f, state[6] += g, state[7] += h;
}

void sum_of(const void *text, size_t size, uint8_t sum[SUM_SIZE]) {
    uint32_t state[8] = { 0x6a09e667, 0xbb67ae85, 0x3c6ef372, 0xa54ff53a, 0x510e527f, 0x9b05688c,
        0x1f83d9ab, 0x5be0cd19 };
    const uint8_t *at = text;
    size_t left = size;
    for (; left >= 64; left -= 64, at += 64) sum_block(state, at);
    uint8_t last[128] = { 0 };
    if (left > 0) memcpy(last, at, left);
    last[left] = 0x80;
    size_t whole = left < 56 ? 64 : 128;
    for (int i = 0; i < 8; i++)
        last[whole - 1 - (size_t)i] = (uint8_t)((uint64_t)size * 8 >> 8 * i);
    sum_block(state, last);
    if (whole == 128) sum_block(state, last + 64);
    for (int i = 0; i < SUM_SIZE; i++) sum[i] = (uint8_t)(state[i / 4] >> (24 - 8 * (i % 4)));
}

uint64_t hash_of(const void *text, size_t size) {
    uint8_t sum[SUM_SIZE];
    uint64_t hash;
    sum_of(text, size, sum);
    memcpy(&hash, sum, sizeof hash);
    return hash;
}

void hex_of(const uint8_t *bytes, size_t size, char *hex) {
    for (size_t i = 0; i < size; i++) sprintf(hex + 2 * i, "%02x", bytes[i]);
}
