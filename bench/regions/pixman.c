/* Times pixman's regions over the lists on standard input: nanoseconds of processor time for making a region of each first
   list, uniting, intersecting and subtracting each pair, then how many rectangles each of the four gave. */
#include <pixman.h>
#include <stdio.h>
#include <stdlib.h>
#include <time.h>

enum { PAIRS = 8, MOST = 4096 };

static pixman_box32_t boxes[2 * PAIRS][MOST];
static int counts[2 * PAIRS];
static pixman_region32_t regions[2 * PAIRS];

static long long now(void)
{
    struct timespec t;
    clock_gettime(CLOCK_THREAD_CPUTIME_ID, &t);
    return t.tv_sec * 1000000000LL + t.tv_nsec;
}

static void read_list(char *line, int list)
{
    int n = 0, x, y, w, h, used;
    while (n < MOST && sscanf(line, "%d %d %d %d%n", &x, &y, &w, &h, &used) == 4) {
        boxes[list][n++] = (pixman_box32_t){ x, y, x + w, y + h };
        line += used;
    }
    counts[list] = n;
    pixman_region32_init_rects(&regions[list], boxes[list], n);
}

static long long run(int operation, long repeats, long long *rects)
{
    long long start = now();
    for (long i = 0; i < repeats; i++)
        for (int p = 0; p < 2 * PAIRS; p += 2) {
            pixman_region32_t made;
            if (operation == 0)
                pixman_region32_init_rects(&made, boxes[p], counts[p]);
            else
                pixman_region32_init(&made);
            if (operation == 1)
                pixman_region32_union(&made, &regions[p], &regions[p + 1]);
            if (operation == 2)
                pixman_region32_intersect(&made, &regions[p], &regions[p + 1]);
            if (operation == 3)
                pixman_region32_subtract(&made, &regions[p], &regions[p + 1]);
            *rects += pixman_region32_n_rects(&made);
            pixman_region32_fini(&made);
        }
    return now() - start;
}

int main(void)
{
    char *line = NULL;
    size_t room = 0;
    long repeats;
    if (getline(&line, &room, stdin) < 0)
        return 1;
    repeats = atol(line);
    for (int list = 0; list < 2 * PAIRS && getline(&line, &room, stdin) > 0; list++)
        read_list(line, list);
    long long times[4], rects[4] = { 0, 0, 0, 0 };
    for (int operation = 0; operation < 4; operation++)
        times[operation] = run(operation, repeats, &rects[operation]);
    for (int operation = 0; operation < 4; operation++)
        printf("%lld ", times[operation]);
    for (int operation = 0; operation < 4; operation++)
        printf("%lld%s", rects[operation], operation < 3 ? " " : "\n");
    return 0;
}
