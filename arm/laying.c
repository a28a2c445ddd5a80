/*
 * For the benchmark alone: the part of the engine that lays the turn list, as a
 * function of its own, so that it can be timed by itself.
 */
typedef unsigned long size;

typedef struct {
    const void *numbers;
    size length;
} slice;

void lay_turns(const slice *, const slice *, size, const slice *);

void outline_lay_turns(const unsigned *p, size pl, const unsigned *s, size sl, size count, unsigned *t, size tl)
{
    slice polygons = {p, pl}, sequences = {s, sl}, turns = {t, tl};
    lay_turns(&polygons, &sequences, count, &turns);
}
