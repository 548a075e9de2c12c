/* Reads a YUV4MPEG2 clip of 420 or 444 into memory, cell by cell, and writes it again: from the planes of each frame to cells of 6
   or 3 bytes, and back. Its times are what those of weave's reading and writing are compared with.

       plain_clip CLIP READS [OUT WRITES]

   reads CLIP so often, and writes OUT so often. It prints a byte of the cells, so that no compiler drops the work. */
#include <stdio.h>
#include <stdlib.h>
#include <string.h>

static int width, height, is_420;

/* The cells of a frame, from its planes. */
static void cells_of(const unsigned char *planes, unsigned char *cells)
{
    if (!is_420) {
        const unsigned char *blue = planes + width * height, *red = blue + width * height;
        for (int i = 0; i < width * height; i++) {
            *cells++ = planes[i];
            *cells++ = blue[i];
            *cells++ = red[i];
        }
        return;
    }
    const unsigned char *blue = planes + width * height, *red = blue + width * height / 4;
    for (int y = 0; y < height; y += 2)
        for (int x = 0; x < width; x += 2) {
            const unsigned char *upper = planes + y * width + x;
            *cells++ = upper[0];
            *cells++ = upper[1];
            *cells++ = upper[width];
            *cells++ = upper[width + 1];
            *cells++ = *blue++;
            *cells++ = *red++;
        }
}

/* The planes of a frame, from its cells. */
static void planes_of(const unsigned char *cells, unsigned char *planes)
{
    if (!is_420) {
        unsigned char *blue = planes + width * height, *red = blue + width * height;
        for (int i = 0; i < width * height; i++) {
            planes[i] = *cells++;
            blue[i] = *cells++;
            red[i] = *cells++;
        }
        return;
    }
    unsigned char *blue = planes + width * height, *red = blue + width * height / 4;
    for (int y = 0; y < height; y += 2)
        for (int x = 0; x < width; x += 2) {
            unsigned char *upper = planes + y * width + x;
            upper[0] = *cells++;
            upper[1] = *cells++;
            upper[width] = *cells++;
            upper[width + 1] = *cells++;
            *blue++ = *cells++;
            *red++ = *cells++;
        }
}

/* Reads a clip. It gives the cells of all frames, and counts the frames. */
static unsigned char *read_clip(const char *name, char *line, size_t *frame, int *count)
{
    FILE *file = fopen(name, "rb");
    char head[4096];
    if (file == NULL || fgets(line, 4096, file) == NULL || sscanf(line, "YUV4MPEG2 W%d H%d", &width, &height) != 2)
        exit(3);
    is_420 = strstr(line, " C444") == NULL;
    *frame = is_420 ? width * height * 3 / 2 : width * height * 3;
    unsigned char *planes = malloc(*frame), *cells = NULL;
    size_t room = 0;
    *count = 0;
    while (fgets(head, 4096, file) != NULL) {
        if (memcmp(head, "FRAME", 5) != 0 || fread(planes, 1, *frame, file) != *frame)
            exit(3);
        if ((*count + 1) * *frame > room) {
            room += room / 8 > *frame ? room / 8 : *frame;
            cells = realloc(cells, room);
        }
        cells_of(planes, cells + *count * *frame);
        *count += 1;
    }
    free(planes);
    fclose(file);
    return cells;
}

static void write_clip(const char *name, const char *line, const unsigned char *cells, size_t frame, int count)
{
    FILE *file = fopen(name, "wb");
    unsigned char *planes = malloc(frame);
    if (file == NULL)
        exit(3);
    fputs(line, file);
    for (int f = 0; f < count; f++) {
        planes_of(cells + f * frame, planes);
        fputs("FRAME\n", file);
        fwrite(planes, 1, frame, file);
    }
    free(planes);
    fclose(file);
}

int main(int words, char **word)
{
    char line[4096];
    size_t frame = 0;
    int count = 0, sum = 0;
    unsigned char *cells = NULL;
    if (words < 3)
        return 2;
    for (int i = 0; i < atoi(word[2]); i++) {
        free(cells);
        cells = read_clip(word[1], line, &frame, &count);
        sum += cells[frame / 2];
    }
    for (int i = 0; words == 5 && i < atoi(word[4]); i++)
        write_clip(word[3], line, cells, frame, count);
    printf("%d %d %d %d\n", width, height, count, sum);
    return 0;
}
