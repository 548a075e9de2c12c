/* Paints a target with blocks of a sample, as weave transfer does, and writes the picture, the map and the record, which are
   those of weave byte for byte. Its time is what weave's is compared with.

     plain_transfer [all] SAMPLE TARGET OUT MAP RECORD BLOCK OVERLAP TOL ALPHA SEED

   Each candidate of a block is rated, up to the error that still matters (Efros and Freeman 2001). Without `all` most of them
   are ruled out before that: for blocks of 8x8, 4x4 and 2x2 cells and for single cells, the squared difference of two blocks'
   sums bounds that of their bytes (Li and Salari 1995; Gao, Duanmu and Zou 2000). The places from which the blocks laid before
   would go on are rated first. Boundaries are least ones by dynamic programming. It wants SSE2, and takes what it reads on
   trust. */
#include <emmintrin.h>
#include <stdint.h>
#include <stdio.h>
#include <stdlib.h>
#include <string.h>

enum { LANES = 32, SIZES = 4, STRETCH = 8, PAUSE = 8 };

/* The sides of blocks, and how many places of a run have to be left for a size to be tried. */
static const int SIDES[SIZES] = {8, 4, 2, 1}, FEW[SIZES] = {0, 3, 3, 16};

typedef struct {
    int w, h, maxval;
    uint8_t *bytes;
} Picture;

/* A block: where the sum to hold it against is, from a candidate's place on, and its own sum. */
typedef struct {
    int at;
    uint16_t sum;
} Square;

typedef struct {
    int y, x, n;
} Cells;

/* What candidates of a box are held against: rows of cells, and blocks of these in all sizes. Of the overlap it is what is
   laid already, and of the target the whole box. */
typedef struct {
    unsigned weight;
    int is_overlap, rows, count[SIZES];
    const uint8_t *bytes;
    Cells *row;
    Square *squares[SIZES];
} Term;

typedef struct {
    uint64_t error;
    int x, y;
} Candidate;

static Picture sample, target;
static uint8_t *out, *in;
static int32_t *sources; /* of each output cell the number of its sample cell, or -1 */
static uint16_t *sums[SIZES];
static int has_bounds, mean, middle, pitch, cx, cy, bw, bh;
static Term overlap, aim;

static void *take(size_t bytes)
{
    void *memory = malloc(bytes ? bytes : 1);
    if (!memory)
        exit(7);
    return memory;
}

static Picture read_picture(const char *name)
{
    FILE *file = fopen(name, "rb");
    Picture p;
    if (!file || fscanf(file, "P6 %d %d %d", &p.w, &p.h, &p.maxval) != 3)
        exit(3);
    fgetc(file);
    p.bytes = take((size_t)p.w * p.h * 3);
    if (fread(p.bytes, 3, (size_t)p.w * p.h, file) != (size_t)p.w * p.h)
        exit(3);
    fclose(file);
    return p;
}

/* A word of ChaCha8 (Bernstein 2008), whose key is the seed and zeros. */
static void quarter(uint32_t *s, int a, int b, int c, int d)
{
    s[a] += s[b], s[d] ^= s[a], s[d] = s[d] << 16 | s[d] >> 16;
    s[c] += s[d], s[b] ^= s[c], s[b] = s[b] << 12 | s[b] >> 20;
    s[a] += s[b], s[d] ^= s[a], s[d] = s[d] << 8 | s[d] >> 24;
    s[c] += s[d], s[b] ^= s[c], s[b] = s[b] << 7 | s[b] >> 25;
}

static uint32_t draw(uint64_t seed, uint32_t number, uint32_t count)
{
    uint32_t start[16] = {0x61707865, 0x3320646e, 0x79622d32, 0x6b206574}, s[16];
    start[4] = __builtin_bswap32(seed >> 32), start[5] = __builtin_bswap32((uint32_t)seed), start[12] = number / 16;
    memcpy(s, start, sizeof s);
    for (int round = 0; round < 4; round++) {
        for (int i = 0; i < 4; i++)
            quarter(s, i, i + 4, i + 8, i + 12);
        for (int i = 0; i < 4; i++)
            quarter(s, i, 4 + (i + 1) % 4, 8 + (i + 2) % 4, 12 + (i + 3) % 4);
    }
    return (s[number % 16] + start[number % 16]) % count;
}

/* The sums of all blocks of a side, from each place on. */
static uint16_t *block_sums(int side)
{
    uint16_t *table = take(((size_t)pitch * sample.h + LANES) * sizeof *table);
    int *columns = calloc(sample.w, sizeof *columns);
    memset(table, 0, ((size_t)pitch * sample.h + LANES) * sizeof *table);
    for (int y = 0; y < sample.h; y++) {
        const uint8_t *row = sample.bytes + (size_t)3 * y * sample.w, *gone = row - (size_t)3 * side * sample.w;
        for (int x = 0; x < sample.w; x++) {
            columns[x] += row[3 * x] + row[3 * x + 1] + row[3 * x + 2];
            if (y >= side)
                columns[x] -= gone[3 * x] + gone[3 * x + 1] + gone[3 * x + 2];
        }
        for (int x = 0, sum = 0; x < sample.w && y + 1 >= side; x++) {
            sum += columns[x] - (x >= side ? columns[x - side] : 0);
            if (x + 1 >= side)
                table[(size_t)(y + 1 - side) * pitch + x + 1 - side] = (uint16_t)sum;
        }
    }
    free(columns);
    return table;
}

static Term new_term(unsigned weight, int is_overlap, const uint8_t *bytes)
{
    Term term = {weight, is_overlap, 0, {0}, bytes, take(2 * bh * sizeof(Cells)), {0}};
    for (int size = 0; size < SIZES; size++)
        term.squares[size] = take((bw / SIDES[size] + 1) * (bh / SIDES[size] + 1) * sizeof(Square));
    return term;
}

static uint32_t squares_of(const uint8_t *a, const uint8_t *b, int n)
{
    uint32_t sum = 0;
    for (int i = 0; i < n; i++)
        sum += (a[i] - b[i]) * (a[i] - b[i]);
    return sum;
}

/* The sum of a term at a candidate, where it is within the limit, and else something above it. */
static uint64_t sum_within(const Term *term, int x, int y, uint64_t limit)
{
    uint64_t sum = 0;
    for (int i = 0; i < term->rows && sum <= limit; i++) {
        const Cells *cells = &term->row[i];
        size_t old = (size_t)(cy + cells->y) * target.w + cx + cells->x, new = (size_t)(y + cells->y) * sample.w + x + cells->x;
        sum += squares_of(term->bytes + 3 * old, sample.bytes + 3 * new, 3 * cells->n);
    }
    return sum;
}

static uint64_t error_within(int x, int y, uint64_t limit)
{
    uint64_t error = overlap.weight ? overlap.weight * sum_within(&overlap, x, y, limit / overlap.weight) : 0;
    if (error > limit || !aim.weight)
        return error;
    return error + aim.weight * sum_within(&aim, x, y, (limit - error) / aim.weight);
}

static int is_filled(int x, int y)
{
    return sources[(size_t)(cy + y) * target.w + cx + x] >= 0;
}

static int by_distance(const void *a, const void *b)
{
    return abs(((const Square *)b)->sum - middle) - abs(((const Square *)a)->sum - middle);
}

static void gather_rows(Term *term)
{
    term->rows = 0;
    for (int y = 0; y < bh; y++)
        for (int x = 0, n; x < bw; x += n + 1) {
            for (n = 0; x + n < bw && (!term->is_overlap || is_filled(x + n, y));)
                n++;
            if (n)
                term->row[term->rows++] = (Cells){y, x, n};
        }
}

/* Disjoint blocks of a side, of the cells that a term has; those far from the mean come first. */
static void gather_squares(Term *term, int size)
{
    int side = SIDES[size], n = 0;
    memset(in, 0, (size_t)bw * bh);
    for (int i = 0; i < term->rows; i++)
        memset(in + term->row[i].y * bw + term->row[i].x, 1, term->row[i].n);
    for (int y = 0; y + side <= bh; y++)
        for (int x = 0; x + side <= bw; x++) {
            int is_whole = 1, sum = 0;
            for (int j = 0; j < side && is_whole; j++)
                is_whole = !memchr(in + (y + j) * bw + x, 0, side);
            for (int j = 0; j < side && is_whole; j++) {
                const uint8_t *row = term->bytes + 3 * ((size_t)(cy + y + j) * target.w + cx + x);
                memset(in + (y + j) * bw + x, 0, side);
                for (int i = 0; i < 3 * side; i++)
                    sum += row[i];
            }
            if (is_whole)
                term->squares[size][n++] = (Square){y * pitch + x, (uint16_t)sum};
        }
    term->count[size] = n;
    middle = mean * 3 * side * side;
    qsort(term->squares[size], n, sizeof(Square), by_distance);
}

static void gather(Term *term)
{
    gather_rows(term);
    for (int size = 0; size < SIZES && has_bounds && term->weight; size++)
        gather_squares(term, size);
}

/* Which of a run of places are above a limit, by the blocks of one size. Totals are in units of 2^16; a difference is taken
   times a factor, and where that doesn't fit in 16 bits, what is left of it is less. */
static uint32_t marks_of(const Term *term, int size, int x, int y, uint32_t all, uint64_t limit)
{
    uint64_t bytes = 3 * SIDES[size] * SIDES[size], bound = limit >> 40 ? 1ull << 60 : limit * bytes, factor = 1;
    while (factor < 256 && 2 * factor * 255 * bytes < 1 << 16 && bound * 4 * factor * factor >> 16 < 65535)
        factor *= 2;
    if (bound * factor * factor >> 16 >= 65535)
        return 0;
    __m128i most = _mm_set1_epi16((short)(bound * factor * factor >> 16)), times = _mm_set1_epi16((short)factor);
    __m128i totals[LANES / 8] = {_mm_setzero_si128(), _mm_setzero_si128(), _mm_setzero_si128(), _mm_setzero_si128()};
    uint32_t marks = 0;
    for (int i = 0; i < term->count[size] && (marks & all) != all;) {
        for (int end = i + STRETCH; i < end && i < term->count[size]; i++) {
            const uint16_t *there = sums[size] + (size_t)y * pitch + x + term->squares[size][i].at;
            __m128i sum = _mm_set1_epi16((short)term->squares[size][i].sum);
            for (int k = 0; k < LANES / 8; k++) {
                __m128i d = _mm_sub_epi16(_mm_loadu_si128((const __m128i *)(there + 8 * k)), sum);
                d = _mm_mullo_epi16(d, times);
                totals[k] = _mm_adds_epu16(totals[k], _mm_mulhi_epi16(d, d));
            }
        }
        marks = 0;
        for (int k = 0; k < LANES / 8; k++) {
            __m128i is_below = _mm_cmpeq_epi16(_mm_subs_epu16(totals[k], most), _mm_setzero_si128());
            marks |= (~(uint32_t)_mm_movemask_epi8(_mm_packs_epi16(is_below, is_below)) & 255) << 8 * k;
        }
    }
    return marks & all;
}

static uint64_t limit_of(uint64_t best, unsigned tol)
{
    return best == UINT64_MAX ? best : best * (100 + tol) / 100;
}

/* Which places of a run needn't be rated. A size that rules out less than half of what it is tried for is left out for some
   runs. */
static uint32_t ruled_out(int x, int y, int n, uint64_t limit)
{
    static int pause[2][SIZES];
    uint32_t all = n < LANES ? (1u << n) - 1 : UINT32_MAX, marks = 0;
    for (int t = 0; t < 2; t++)
        for (int size = 0; size < SIZES; size++) {
            const Term *term = t ? &overlap : &aim;
            int left = __builtin_popcount(all & ~marks);
            if (!term->weight || left <= FEW[size] || (size && pause[t][size] > 0 && pause[t][size]--))
                continue;
            marks |= marks_of(term, size, x, y, all, limit / term->weight);
            if (2 * __builtin_popcount(all & ~marks) > left)
                pause[t][size] = PAUSE;
        }
    return marks;
}

/* The least error of the candidates from which what is laid would go on, at 16 cells of the box. */
static uint64_t least_hint(void)
{
    uint64_t best = UINT64_MAX;
    for (int i = 0; i < 16; i++) {
        int dx = (bw - 1) * (i % 4) / 3, dy = (bh - 1) * (i / 4) / 3;
        if (!is_filled(dx, dy))
            continue;
        int source = sources[(size_t)(cy + dy) * target.w + cx + dx];
        int x = source % sample.w - dx, y = source / sample.w - dy;
        if (x < 0 || y < 0 || x + bw > sample.w || y + bh > sample.h)
            continue;
        uint64_t error = error_within(x, y, best);
        best = error < best ? error : best;
    }
    return best;
}

static Candidate *list;
static size_t listed, room;

static void keep(Candidate candidate)
{
    if (listed == room) {
        room = room ? 2 * room : 1024;
        if (!(list = realloc(list, room * sizeof *list)))
            exit(7);
    }
    list[listed++] = candidate;
}

/* The candidate of a draw. */
static Candidate pick(unsigned tol, uint64_t seed, uint32_t number)
{
    uint64_t best;
    gather(&overlap);
    gather(&aim);
    best = least_hint();
    listed = 0;
    for (int y = 0; y + bh <= sample.h; y++)
        for (int x = 0, n; x + bw <= sample.w; x += n) {
            uint64_t limit = limit_of(best, tol);
            n = sample.w - bw + 1 - x < LANES ? sample.w - bw + 1 - x : LANES;
            uint32_t marks = has_bounds ? ruled_out(x, y, n, limit) : 0;
            for (int i = 0; i < n; i++) {
                if (marks >> i & 1)
                    continue;
                uint64_t error = error_within(x + i, y, limit);
                if (error > limit)
                    continue;
                keep((Candidate){error, x + i, y});
                if (error < best)
                    best = error, limit = limit_of(best, tol);
            }
        }
    size_t eligible = 0;
    for (size_t i = 0; i < listed; i++)
        if (list[i].error * 100 <= best * (100 + tol))
            list[eligible++] = list[i];
    return list[draw(seed, number, (uint32_t)eligible)];
}

static void put(FILE *file, uint32_t number, int bytes)
{
    while (bytes--)
        putc_unlocked(number >> 8 * bytes & 255, file);
}

static void put_sizes(FILE *file, const char *magic, int kind)
{
    fputs(magic, file);
    put(file, 1, 1), put(file, kind, 1);
    put(file, target.w, 4), put(file, target.h, 4), put(file, 1, 4);
    put(file, sample.w, 4), put(file, sample.h, 4), put(file, 1, 4);
}

/* The least boundary through a strip of rows of so many columns, and its sums. Of equal ones it is the one that is first, read
   from the last row on. */
static void least_boundary(int rows, int columns, uint32_t *table, int *path)
{
    for (int row = 1; row < rows; row++)
        for (int c = 0; c < columns; c++) {
            uint32_t *before = table + (row - 1) * columns, least = before[c];
            if (c > 0 && before[c - 1] < least)
                least = before[c - 1];
            if (c + 1 < columns && before[c + 1] < least)
                least = before[c + 1];
            table[row * columns + c] += least;
        }
    for (int row = rows - 1; row >= 0; row--) {
        int from = row == rows - 1 || path[row + 1] == 0 ? 0 : path[row + 1] - 1;
        int to = row == rows - 1 ? columns - 1 : path[row + 1] + 1;
        path[row] = from;
        for (int c = from + 1; c <= to && c < columns; c++)
            if (table[row * columns + c] < table[row * columns + path[row]])
                path[row] = c;
    }
}

/* Marks what a strip leaves as it is, and writes the strip. */
static void lay_strip(FILE *file, Candidate at, int is_left, int columns)
{
    static uint32_t *table;
    static int *path;
    static size_t most;
    int rows = is_left ? bh : bw;
    if (most < (size_t)rows * columns) {
        most = (size_t)rows * columns;
        table = realloc(table, most * sizeof *table), path = realloc(path, most * sizeof *path);
    }
    for (int row = 0; row < rows; row++)
        for (int c = 0; c < columns; c++) {
            int x = is_left ? c : row, y = is_left ? row : c;
            const uint8_t *old = out + 3 * ((size_t)(cy + y) * target.w + cx + x);
            table[row * columns + c] = squares_of(old, sample.bytes + 3 * ((size_t)(at.y + y) * sample.w + at.x + x), 3);
        }
    least_boundary(rows, columns, table, path);
    put(file, columns, 2);
    for (int row = 0; row < rows; row++) {
        put(file, path[row], 2);
        for (int c = 0; c < path[row]; c++)
            in[is_left ? row * bw + c : c * bw + row] = 0;
    }
    for (int i = 0; i < rows * columns; i++)
        put(file, table[i], 4);
}

static void lay_block(FILE *file, Candidate at, int columns, int rows)
{
    int has_left = cx > 0 && columns > 0, has_top = cy > 0 && rows > 0;
    put(file, cx, 2), put(file, cy, 2), put(file, bw, 2), put(file, bh, 2), put(file, at.x, 2), put(file, at.y, 2);
    put(file, has_left + 2 * has_top, 1);
    memset(in, 1, (size_t)bw * bh);
    if (has_left)
        lay_strip(file, at, 1, columns);
    if (has_top)
        lay_strip(file, at, 0, rows);
    for (int y = 0; y < bh; y++)
        for (int x = 0; x < bw; x++)
            if (in[y * bw + x]) {
                size_t cell = (size_t)(cy + y) * target.w + cx + x;
                sources[cell] = (at.y + y) * sample.w + at.x + x;
                memcpy(out + 3 * cell, sample.bytes + 3 * (size_t)sources[cell], 3);
            }
}

static int least(int a, int b, int c)
{
    int ab = a < b ? a : b;
    return ab < c ? ab : c;
}

int main(int argc, char **argv)
{
    int is_all = argc > 1 && strcmp(argv[1], "all") == 0;
    char **words = argv + 1 + is_all;
    if (argc != 11 + is_all)
        exit(2);
    int block = atoi(words[5]), shared = atoi(words[6]), tol = atoi(words[7]), alpha = atoi(words[8]);
    uint64_t seed = strtoull(words[9], NULL, 10);
    sample = read_picture(words[0]), target = read_picture(words[1]);
    int wide = least(block, sample.w, target.w), high = least(block, sample.h, target.h);
    int columns = shared < wide ? shared : wide - 1, rows = shared < high ? shared : high - 1;
    size_t cells = (size_t)target.w * target.h;
    uint32_t blocks = 0;
    uint64_t all = 0;
    has_bounds = !is_all, pitch = sample.w + LANES, bw = wide, bh = high;
    out = take(3 * cells), in = take((size_t)wide * high), sources = take(cells * sizeof *sources);
    memset(sources, 255, cells * sizeof *sources);
    overlap = new_term(alpha, 1, out), aim = new_term(100 - alpha, 0, target.bytes);
    for (size_t i = 0; i < (size_t)3 * sample.w * sample.h; i++)
        all += sample.bytes[i];
    mean = (int)(all / (3 * (uint64_t)sample.w * sample.h));
    for (int size = 0; size < SIZES && has_bounds; size++)
        sums[size] = block_sums(SIDES[size]);

    FILE *record = fopen(words[4], "wb");
    if (!record)
        exit(6);
    put_sizes(record, "WEAVEREC", 1);
    put(record, 0, 4);
    for (cy = 0; cy == 0 || cy + rows < target.h; cy += high - rows)
        for (cx = 0; cx == 0 || cx + columns < target.w; cx += wide - columns) {
            bw = least(wide, target.w - cx, wide), bh = least(high, target.h - cy, high);
            lay_block(record, pick(tol, seed, blocks), columns, rows);
            blocks++;
        }
    fseek(record, 34, SEEK_SET);
    put(record, blocks, 4);
    if (fclose(record))
        exit(6);

    FILE *picture = fopen(words[2], "wb"), *map = fopen(words[3], "wb");
    if (!picture || !map)
        exit(6);
    fprintf(picture, "P6\n%d %d\n%d\n", target.w, target.h, sample.maxval);
    fwrite(out, 3, cells, picture);
    put_sizes(map, "WEAVEMAP", 0);
    for (size_t i = 0; i < cells; i++)
        put(map, sources[i] % sample.w, 2), put(map, sources[i] / sample.w, 2), put(map, 0, 2);
    if (fclose(picture) || fclose(map))
        exit(6);
    return 0;
}
