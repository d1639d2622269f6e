/* Times pixman on what a Move of the backmost of 32 windows asks of regions: the moved window's request, and from front to
   back each request less what stands before it, united to what stands before the next. Standard input has the number of
   moves, then the windows from back to front, one a line, as "x y w h" of each rectangle. Prints nanoseconds of processor
   time, and how many rectangles all regions had after the moves. */
#include <pixman.h>
#include <stdio.h>
#include <stdlib.h>
#include <time.h>

enum { WINDOWS = 32, MOST = 32 };

static pixman_box32_t boxes[WINDOWS][MOST];
static int counts[WINDOWS];
static pixman_region32_t requests[WINDOWS], regions[WINDOWS];

static long long now(void)
{
    struct timespec t;
    clock_gettime(CLOCK_THREAD_CPUTIME_ID, &t);
    return t.tv_sec * 1000000000LL + t.tv_nsec;
}

static void read_window(char *line, int window)
{
    int n = 0, x, y, w, h, used;
    while (n < MOST && sscanf(line, "%d %d %d %d%n", &x, &y, &w, &h, &used) == 4) {
        boxes[window][n++] = (pixman_box32_t){ x, y, x + w, y + h };
        line += used;
    }
    counts[window] = n;
    pixman_region32_init_rects(&requests[window], boxes[window], n);
    pixman_region32_init(&regions[window]);
}

static void move(int window, int x, int y)
{
    pixman_box32_t moved[MOST];
    for (int i = 0; i < counts[window]; i++) {
        pixman_box32_t b = boxes[window][i];
        moved[i] = (pixman_box32_t){ b.x1 + x, b.y1 + y, b.x2 + x, b.y2 + y };
    }
    pixman_region32_fini(&requests[window]);
    pixman_region32_init_rects(&requests[window], moved, counts[window]);
}

static long long share_out(void)
{
    long long rects = 0;
    pixman_region32_t before;
    pixman_region32_init(&before);
    for (int window = WINDOWS - 1; window >= 0; window--) {
        pixman_region32_subtract(&regions[window], &requests[window], &before);
        pixman_region32_union(&before, &before, &requests[window]);
        rects += pixman_region32_n_rects(&regions[window]);
    }
    pixman_region32_fini(&before);
    return rects;
}

int main(void)
{
    char *line = NULL;
    size_t room = 0;
    long moves;
    long long rects = 0;
    if (getline(&line, &room, stdin) < 0)
        return 1;
    moves = atol(line);
    for (int window = 0; window < WINDOWS && getline(&line, &room, stdin) > 0; window++)
        read_window(line, window);
    long long start = now();
    for (long i = 0; i < moves; i++) {
        int place = 1 + (int)(i % 16);
        move(0, place, place);
        rects += share_out();
    }
    printf("%lld %lld\n", now() - start, rects);
    return 0;
}
