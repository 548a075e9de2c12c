/* Pictures, draws and files of plain_grow.c. */
#include <stdint.h>
#include <stdio.h>
#include <stdlib.h>
#include <string.h>

typedef struct {
    int w, h, maxval;
    uint8_t *bytes;
} Picture;

/* A place of the sample; y is NONE where there is none. */
typedef struct {
    uint16_t x, y;
} Place;

enum { NONE = 65535 };

/* A box of the output. */
typedef struct {
    int x, y, w, h;
} Box;

static Picture sample, out;
static Place *map;
/* The records so far. No file is begun before all is made, as weave begins none. */
static FILE *record;
static int side, overlap, tol;
static uint64_t seed;
static uint32_t draws;

static void *take(size_t bytes)
{
    void *memory = malloc(bytes ? bytes : 1);
    if (!memory)
        exit(7);
    return memory;
}

static int least(int a, int b)
{
    return a < b ? a : b;
}

static int most(int a, int b)
{
    return a > b ? a : b;
}

static Picture read_picture(const char *name)
{
    FILE *file = fopen(name, "rb");
    Picture p;
    if (!file || fscanf(file, "P6 %d %d %d", &p.w, &p.h, &p.maxval) != 3)
        exit(3);
    fgetc(file);
    p.bytes = take((size_t)p.w * p.h * 3);
    if (fread(p.bytes, 3, (size_t)p.w * p.h, file) != (size_t)p.w * p.h)
        exit(3);
    fclose(file);
    return p;
}

/* A word of ChaCha8 (Bernstein 2008), whose key is the seed and zeros. */
static void quarter(uint32_t *s, int a, int b, int c, int d)
{
    s[a] += s[b], s[d] ^= s[a], s[d] = s[d] << 16 | s[d] >> 16;
    s[c] += s[d], s[b] ^= s[c], s[b] = s[b] << 12 | s[b] >> 20;
    s[a] += s[b], s[d] ^= s[a], s[d] = s[d] << 8 | s[d] >> 24;
    s[c] += s[d], s[b] ^= s[c], s[b] = s[b] << 7 | s[b] >> 25;
}

static uint32_t draw(uint32_t count)
{
    uint32_t start[16] = {0x61707865, 0x3320646e, 0x79622d32, 0x6b206574}, s[16], number = draws++;
    start[4] = __builtin_bswap32(seed >> 32), start[5] = __builtin_bswap32((uint32_t)seed), start[12] = number / 16;
    memcpy(s, start, sizeof s);
    for (int round = 0; round < 4; round++) {
        for (int i = 0; i < 4; i++)
            quarter(s, i, i + 4, i + 8, i + 12);
        for (int i = 0; i < 4; i++)
            quarter(s, i, 4 + (i + 1) % 4, 8 + (i + 2) % 4, 12 + (i + 3) % 4);
    }
    return (s[number % 16] + start[number % 16]) % count;
}

static uint32_t squares_of(const uint8_t *a, const uint8_t *b, int n)
{
    uint32_t sum = 0;
    for (int i = 0; i < n; i++)
        sum += (a[i] - b[i]) * (a[i] - b[i]);
    return sum;
}

static int is_filled(int x, int y)
{
    return map[(size_t)y * out.w + x].y != NONE;
}

static const uint8_t *sample_at(int x, int y)
{
    return sample.bytes + 3 * ((size_t)y * sample.w + x);
}

static uint8_t *out_at(int x, int y)
{
    return out.bytes + 3 * ((size_t)y * out.w + x);
}

static void put(FILE *file, uint32_t number, int bytes)
{
    while (bytes--)
        putc_unlocked(number >> 8 * bytes & 255, file);
}

static void put_sizes(FILE *file, const char *magic, int kind)
{
    fputs(magic, file);
    put(file, 1, 1), put(file, kind, 1);
    put(file, out.w, 4), put(file, out.h, 4), put(file, 1, 4);
    put(file, sample.w, 4), put(file, sample.h, 4), put(file, 1, 4);
}

static void put_cell(int x, int y, Place from)
{
    map[(size_t)y * out.w + x] = from;
    memcpy(out_at(x, y), sample_at(from.x, from.y), 3);
}

static FILE *begin(const char *name)
{
    FILE *file = fopen(name, "wb");
    if (!file)
        exit(6);
    return file;
}

static void end(FILE *file)
{
    if (fclose(file))
        exit(6);
}

static void write_picture(const char *name)
{
    FILE *file = begin(name);
    fprintf(file, "P6\n%d %d\n%d\n", out.w, out.h, sample.maxval);
    fwrite(out.bytes, 3, (size_t)out.w * out.h, file);
    end(file);
}

static void write_map(const char *name)
{
    FILE *file = begin(name);
    put_sizes(file, "WEAVEMAP", 0);
    for (size_t i = 0; i < (size_t)out.w * out.h; i++)
        put(file, map[i].x, 2), put(file, map[i].y, 2), put(file, 0, 2);
    end(file);
}

static void write_records(const char *name, int kind, uint32_t number, const char *records, size_t size)
{
    FILE *file = begin(name);
    put_sizes(file, "WEAVEREC", kind);
    put(file, number, 4);
    fwrite(records, 1, size, file);
    end(file);
}
