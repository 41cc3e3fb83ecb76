/*
 * attack [--heap] FILE...             the calls of each file, or of standard input where none is named
 * attack [--heap] --made FIRST COUNT  those of the seeds and of COUNT made inputs; FIRST and 1 replay one
 * attack --seeds FOLDER               writes the seeds to files
 *
 * Compiled for AFL++ and called with no word, it takes its inputs from the fuzzer.
 */
#include <signal.h>
#include <stdio.h>
#include <stdlib.h>
#include <string.h>
#include <unistd.h>

#include "inputs.h"
#include "loans.h"
#include "promises.h"

static uint8_t input[1024 * 1024];

#ifdef __AFL_FUZZ_TESTCASE_LEN
__AFL_FUZZ_INIT();

static int from_fuzzer(void)
{
    loans_open(false);
    __AFL_INIT();
    const uint8_t *given = __AFL_FUZZ_TESTCASE_BUF;
    while (__AFL_LOOP(10000))
        attack(given, (size_t)__AFL_FUZZ_TESTCASE_LEN);
    return 0;
}
#endif

static char now[256]; /* what is being tried, for whoever has to replay it */

static void crashed(int signal)
{
    ssize_t ignored = write(STDERR_FILENO, now, strlen(now));
    (void)ignored;
    raise(signal); /* its handler is gone by now */
}

static void watch(void)
{
    static const int signals[] = {SIGSEGV, SIGBUS, SIGABRT, SIGILL, SIGFPE};
    struct sigaction action = {.sa_handler = crashed, .sa_flags = (int)(SA_RESETHAND | SA_NODEFER)};
    for (size_t k = 0; k < sizeof signals / sizeof *signals; k++)
        sigaction(signals[k], &action, NULL);
}

static void from_file(FILE *file)
{
    if (!file) {
        perror(now);
        exit(2);
    }
    attack(input, fread(input, 1, sizeof input, file));
    fclose(file);
}

static void from_generator(uint64_t first, uint64_t count)
{
    size_t length, seeds = 0;
    for (; first == 0 && (length = seed(seeds, input)) > 0; seeds++) {
        snprintf(now, sizeof now, "seed %zu\n", seeds);
        attack(input, length);
    }
    if (first == 0) {
        snprintf(now, sizeof now, "the longest chunks\n");
        try_longest_chunks();
        snprintf(now, sizeof now, "the longest run\n");
        try_longest_run();
    }
    for (uint64_t number = first; number < first + count; number++) {
        snprintf(now, sizeof now, "made input %llu\n", (unsigned long long)number);
        attack(input, made_input(number, input));
    }
    printf("%zu seeds and %llu made inputs\n", seeds, (unsigned long long)count);
    printf("21, the count below 0: %zu\n21, the count above the number of blocks: %zu\n", fallen_below, risen_above);
    printf("sizes told: %zu\nsizes refused: %zu\n", sizes_told, sizes_refused);
    printf("steps with a chunk: %zu\nsteps without: %zu\n", steps_read, steps_ended);
}

static int write_seeds(const char *folder)
{
    size_t length;
    for (size_t number = 0; (length = seed(number, input)) > 0; number++) {
        char name[4096];
        snprintf(name, sizeof name, "%s/%02zu", folder, number);
        FILE *file = fopen(name, "wb");
        if (!file || fwrite(input, 1, length, file) != length || fclose(file) != 0) {
            perror(name);
            return 2;
        }
    }
    return 0;
}

int main(int count, char **words)
{
#ifdef __AFL_FUZZ_TESTCASE_LEN
    if (count == 1)
        return from_fuzzer();
#endif
    int at = 1;
    if (count == 3 && strcmp(words[1], "--seeds") == 0)
        return write_seeds(words[2]);
    bool heap = count > 1 && strcmp(words[1], "--heap") == 0;
    at += heap;
    loans_open(heap);
    watch();
    if (count == at + 3 && strcmp(words[at], "--made") == 0) {
        from_generator(strtoull(words[at + 1], NULL, 10), strtoull(words[at + 2], NULL, 10));
        return 0;
    }
    if (at == count)
        from_file(stdin);
    for (; at < count; at++) {
        snprintf(now, sizeof now, "%.250s\n", words[at]);
        from_file(fopen(words[at], "rb"));
    }
    return 0;
}
