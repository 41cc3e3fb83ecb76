/*
 * How many of the library's edges the inputs have reached: the two functions that clang's marks call
 * (-fsanitize-coverage=trace-pc-guard), in the place of AFL++'s. At the end it is said on standard output.
 */
#include <stdbool.h>
#include <stdint.h>
#include <stdio.h>

static const uint32_t *first, *end;
static bool reached[64 * 1024];

/* Called for the whole program, once or more; a mark is its number, from 1 on. */
void __sanitizer_cov_trace_pc_guard_init(uint32_t *start, uint32_t *stop)
{
    first = start;
    end = stop;
    for (uint32_t *mark = start; mark < stop; mark++)
        *mark = (uint32_t)(mark - start) + 1;
}

void __sanitizer_cov_trace_pc_guard(uint32_t *mark)
{
    reached[*mark] = true;
}

__attribute__((destructor)) static void report(void)
{
    size_t count = 0;
    for (const uint32_t *mark = first; mark < end; mark++)
        count += reached[*mark];
    printf("%zu of %zu edges of the library\n", count, (size_t)(end - first));
}
