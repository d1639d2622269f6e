/* Writes pairs of lists of rectangles, a list a line: how often to repeat, then "x y w h" after each other.
   lists KIND COUNT REPEATS: `scatter` has rectangles of 1 to 40 pixels a side at random places of 640 x 480, which overlap;
   `grid` has bands of 10 separate rectangles, and is canonical as it stands. */
#include <stdint.h>
#include <stdio.h>
#include <stdlib.h>
#include <string.h>

static uint64_t state;

static int draw(int n)
{
    state = state * 6364136223846793005ULL + 1442695040888963407ULL;
    return (int)((state >> 33) % (uint64_t)n);
}

static void scatter(int count)
{
    for (int i = 0; i < count; i++) {
        int x = draw(600), y = draw(440), w = 1 + draw(40), h = 1 + draw(40);
        printf("%d %d %d %d ", x, y, w, h);
    }
}

static void grid(int count)
{
    int bands = count / 10, height = 480 / bands, width = 640 / 10;
    for (int band = 0; band < bands; band++) {
        int h = height - draw(2);
        for (int i = 0; i < 10; i++) {
            int from = draw(width / 2);
            int w = 1 + draw(width - from - 1);
            printf("%d %d %d %d ", i * width + from, band * height, w, h);
        }
    }
}

int main(int argc, char **argv)
{
    if (argc != 4)
        return 1;
    int count = atoi(argv[2]);
    state = 7 + (uint64_t)count;
    printf("%s\n", argv[3]);
    for (int list = 0; list < 16; list++) {
        if (strcmp(argv[1], "grid") == 0)
            grid(count);
        else
            scatter(count);
        printf("\n");
    }
    return 0;
}
