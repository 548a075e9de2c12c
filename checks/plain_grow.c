/* Grows or quilts a picture from a sample, as weave grow and weave quilt do, and writes the picture, the map, the record and
   the report, which are those of weave byte for byte. Its time is what weave's is compared with.

     plain_grow MODE SAMPLE OUT MAP RECORD WIDTH HEIGHT SIDE OVERLAP TOL SEED ROUNDS

   MODE is grid, random, whole, sub or quilt. SIDE is that of patches, windows and blocks. It searches and cuts as weave does
   (plain_picks.h, plain_cuts.h), but a search of a cut goes on where weave ends it after many steps and solves the cut in
   another way: flows of such a record may be others. It wants SSE2, and takes what it reads on trust. */
#include "plain_files.h"
#include "plain_picks.h"
#include "plain_cuts.h"

/* Where the copy of a grid begins on an axis that has a cell. */
static int grid_corner(int q, int cells)
{
    int step = cells - least(overlap, cells - 1);
    return q < cells ? 0 : (q - cells) / step * step + step;
}

static int patch_corner(int q, int cells, int all)
{
    return least(all - cells, most(q - least(overlap, cells - 1), 0));
}

/* The next box for the first cell that isn't filled, and the place from which it is laid. */
static Box next_box(char mode, int qx, int qy, Place *from)
{
    Box box = {grid_corner(qx, sample.w), grid_corner(qy, sample.h), 0, 0};
    *from = (Place){0, 0};
    if (mode == 'r')
        return drawn_box(qx, qy, draw((uint32_t)((sample.w + 1) / 2) * ((sample.h + 1) / 2)), from);
    if (mode == 'w')
        return pick_laid(qx, qy, from);
    box.w = least(sample.w, out.w - box.x), box.h = least(sample.h, out.h - box.y);
    if (mode == 'g')
        return box;
    box.w = least(side, least(sample.w, out.w)), box.h = least(side, least(sample.h, out.h));
    box.x = patch_corner(qx, box.w, out.w), box.y = patch_corner(qy, box.h, out.h);
    *from = pick(box);
    return box;
}

static uint32_t grow_all(char mode)
{
    uint32_t number = 0;
    for (int y = 0; y < out.h; y++)
        for (int x = 0; x < out.w; x++)
            if (!is_filled(x, y)) {
                Place from;
                Box box = next_box(mode, x, y, &from);
                cut(box, from);
                number++;
            }
    return number;
}

/* Rounds: the sums of all windows, and the greatest of each row of corners. */

static uint64_t *windows, *tops, *costs;

/* Makes each entry the sum of so many from it on, at a step. */
static void sum_runs(size_t n, size_t step, size_t length)
{
    if (length == 1)
        return;
    for (size_t i = n - least(step, n); i--;)
        costs[i] += costs[i + step];
    for (size_t i = 0; i + step * length < n; i++)
        costs[i] -= costs[i + step * length];
}

/* Makes the sums of the windows right whose corners are in a box. */
static void refresh(Box box, int w, int h)
{
    int wide = out.w - w + 1, rw = box.w + w - 1, rh = box.h + h - 1;
    for (int axis = 0; axis < 2; axis++) {
        for (int y = 0; y < rh; y++)
            for (int x = 0; x < rw; x++)
                costs[(size_t)y * rw + x] = pair_cost(axis, box.x + x, box.y + y);
        sum_runs((size_t)rw * rh, 1, w - !axis);
        sum_runs((size_t)rw * rh, rw, h - axis);
        for (int y = 0; y < box.h; y++)
            for (int x = 0; x < box.w; x++) {
                uint64_t *sum = windows + (size_t)(box.y + y) * wide + box.x + x;
                *sum = (axis ? *sum : 0) + costs[(size_t)y * rw + x];
            }
    }
    for (int y = box.y; y < box.y + box.h; y++) {
        tops[y] = 0;
        for (int x = 0; x < wide; x++)
            tops[y] = windows[(size_t)y * wide + x] > tops[y] ? windows[(size_t)y * wide + x] : tops[y];
    }
}

static Box worst_window(int w, int h)
{
    int wide = out.w - w + 1, high = out.h - h + 1;
    Box box = {0, 0, w, h};
    for (int y = 1; y < high; y++)
        if (tops[y] > tops[box.y])
            box.y = y;
    while (windows[(size_t)box.y * wide + box.x] != tops[box.y])
        box.x++;
    return box;
}

/* The corners on an axis whose windows meet a run of cells: the first, and how many. */
static int touched(int corner, int cells, int n, int *count)
{
    int first = most(corner - cells + 1, 0);
    *count = least(corner + cells, n - cells + 1) - first;
    return first;
}

static uint32_t refine(int rounds)
{
    int w = least(side, least(sample.w, out.w)), h = least(side, least(sample.h, out.h)), number = 0;
    size_t cells = (size_t)out.w * out.h;
    if (rounds == 0)
        return 0;
    windows = take(cells * sizeof *windows), costs = take(cells * sizeof *costs), tops = take(out.h * sizeof *tops);
    refresh((Box){0, 0, out.w - w + 1, out.h - h + 1}, w, h);
    for (; number < rounds; number++) {
        Box box = worst_window(w, h), changed;
        if (tops[box.y] == 0)
            break;
        cut(box, pick(box));
        changed.x = touched(box.x, w, out.w, &changed.w), changed.y = touched(box.y, h, out.h, &changed.h);
        refresh(changed, w, h);
    }
    return (uint32_t)number;
}

static uint64_t all_seams(void)
{
    uint64_t sum = 0;
    for (int y = 0; y < out.h; y++)
        for (int x = 0; x < out.w; x++)
            sum += pair_cost(0, x, y) + pair_cost(1, x, y);
    return sum;
}

/* Quilting. */

/* The least boundary through a strip of rows of so many columns, and its sums. Of equal ones it is the one that is first, read
   from the last row on. */
static void least_boundary(int rows, int columns, uint32_t *table, int *path)
{
    for (int row = 1; row < rows; row++)
        for (int c = 0; c < columns; c++) {
            uint32_t *before = table + (row - 1) * columns, sum = before[c];
            if (c > 0 && before[c - 1] < sum)
                sum = before[c - 1];
            if (c + 1 < columns && before[c + 1] < sum)
                sum = before[c + 1];
            table[row * columns + c] += sum;
        }
    for (int row = rows - 1; row >= 0; row--) {
        int from = row == rows - 1 || path[row + 1] == 0 ? 0 : path[row + 1] - 1;
        int to = row == rows - 1 ? columns - 1 : path[row + 1] + 1;
        path[row] = from;
        for (int c = from + 1; c <= to && c < columns; c++)
            if (table[row * columns + c] < table[row * columns + path[row]])
                path[row] = c;
    }
}

/* Marks what a strip leaves as it is, and writes the strip. Gives its cost. */
static uint32_t lay_strip(Box box, Place at, int is_left, int columns)
{
    int rows = is_left ? box.h : box.w, *path = take(rows * sizeof *path);
    uint32_t *table = take((size_t)rows * columns * sizeof *table), cost;
    for (int row = 0; row < rows; row++)
        for (int c = 0; c < columns; c++) {
            int x = is_left ? c : row, y = is_left ? row : c;
            table[row * columns + c] = squares_of(out_at(box.x + x, box.y + y), sample_at(at.x + x, at.y + y), 3);
        }
    least_boundary(rows, columns, table, path);
    put(record, columns, 2);
    for (int row = 0; row < rows; row++) {
        put(record, path[row], 2);
        for (int c = 0; c < path[row]; c++)
            in[is_left ? row * box.w + c : c * box.w + row] = 0;
    }
    for (int i = 0; i < rows * columns; i++)
        put(record, table[i], 4);
    cost = table[(rows - 1) * columns + path[rows - 1]];
    free(table), free(path);
    return cost;
}

/* Lays a block whose strips have so many columns and rows. */
static void lay_block(Box box, Place at, int columns, int rows, uint32_t *strips, uint64_t *cost)
{
    int has_left = box.x > 0 && columns > 0, has_top = box.y > 0 && rows > 0;
    in = take((size_t)box.w * box.h);
    put(record, box.x, 2), put(record, box.y, 2), put(record, box.w, 2), put(record, box.h, 2);
    put(record, at.x, 2), put(record, at.y, 2), put(record, has_left + 2 * has_top, 1);
    memset(in, 1, (size_t)box.w * box.h);
    if (has_left)
        *cost += lay_strip(box, at, 1, columns);
    if (has_top)
        *cost += lay_strip(box, at, 0, rows);
    for (int i = 0; i < box.w * box.h; i++)
        if (in[i])
            put_cell(box.x + i % box.w, box.y + i / box.w,
                     (Place){(uint16_t)(at.x + i % box.w), (uint16_t)(at.y + i / box.w)});
    *strips += has_left + has_top;
    free(in);
}

static uint32_t quilt_all(uint32_t *strips, uint64_t *cost)
{
    int wide = least(side, least(sample.w, out.w)), high = least(side, least(sample.h, out.h));
    int columns = least(overlap, wide - 1), rows = least(overlap, high - 1);
    uint32_t blocks = 0;
    for (int y = 0; y == 0 || y + rows < out.h; y += high - rows)
        for (int x = 0; x == 0 || x + columns < out.w; x += wide - columns, blocks++) {
            Box box = {x, y, least(wide, out.w - x), least(high, out.h - y)};
            lay_block(box, pick(box), columns, rows, strips, cost);
        }
    return blocks;
}

int main(int argc, char **argv)
{
    if (argc != 13)
        exit(2);
    char mode = argv[1][0];
    int rounds = atoi(argv[12]);
    uint32_t number, strips = 0;
    uint64_t cost = 0;
    char *records;
    size_t size;
    sample = read_picture(argv[2]);
    out = (Picture){atoi(argv[6]), atoi(argv[7]), sample.maxval, NULL};
    side = atoi(argv[8]), overlap = atoi(argv[9]), tol = atoi(argv[10]), seed = strtoull(argv[11], NULL, 10);
    size_t cells = (size_t)out.w * out.h;
    out.bytes = take(3 * cells), map = take(cells * sizeof *map);
    memset(map, 255, cells * sizeof *map);
    if (mode == 's' || mode == 'q' || rounds)
        make_sums();
    if (!(record = open_memstream(&records, &size)))
        exit(7);
    number = mode == 'q' ? quilt_all(&strips, &cost) : grow_all(mode);
    rounds = mode == 'q' ? 0 : (int)refine(rounds);
    if (fclose(record))
        exit(7);
    write_picture(argv[3]), write_map(argv[4]);
    write_records(argv[5], mode == 'q', number + rounds, records, size);
    free(records);
    if (mode == 'q')
        printf("quilt %dx%dx1\nblocks %u\nboundaries %u\ncost %llu\n", out.w, out.h, number, strips, (unsigned long long)cost);
    else
        printf("grow %dx%dx1\nplacements %u\nrounds %d\nseams %llu\n", out.w, out.h, number, rounds,
               (unsigned long long)all_seams());
    return 0;
}
