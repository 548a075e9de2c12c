/* Reads a binary PPM picture of one byte a sample into memory and checks it: its header, each sample against
   maxval, and that nothing follows. Its time is what the reading of the same bytes by weave is compared with.
   It prints a sample, so that no compiler drops the work. */
#include <stdio.h>
#include <stdlib.h>

/* A number behind white space. */
static unsigned long number(FILE *file)
{
    unsigned long value;
    if (fscanf(file, "%lu", &value) != 1)
        exit(3);
    return value;
}

/* Whether each sample is at most maxval, and nothing of the file is left. */
static int is_whole(FILE *file, const unsigned char *raster, size_t count, unsigned long maxval)
{
    for (size_t i = 0; i < count; i++)
        if (raster[i] > maxval)
            return 0;
    return fgetc(file) == EOF;
}

int main(int words, char **word)
{
    FILE *file = words == 2 ? fopen(word[1], "rb") : NULL;
    if (file == NULL || fgetc(file) != 'P' || fgetc(file) != '6')
        return 3;
    unsigned long width = number(file), height = number(file), maxval = number(file);
    fgetc(file);
    if (width == 0 || height == 0 || maxval == 0 || maxval > 255 || width > 4096 || height > 4096)
        return 3;
    size_t count = 3 * width * height;
    unsigned char *raster = malloc(count);
    if (raster == NULL || fread(raster, 1, count, file) != count || !is_whole(file, raster, count, maxval))
        return 3;
    printf("%lu %lu %lu %d\n", width, height, maxval, raster[count / 2]);
    return 0;
}
