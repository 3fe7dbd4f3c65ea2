/* The calls of a script by the library for C, each timed: reads the script at the path, and prints the calls, the seconds
   of the processor, and the median and the 99th percentile of a call in nanoseconds. */
#define _POSIX_C_SOURCE 200809L
#include <aim.h>
#include <stdio.h>
#include <stdlib.h>
#include <time.h>

static uint64_t now(clockid_t clock) {
    struct timespec at;
    clock_gettime(clock, &at);
    return (uint64_t)at.tv_sec * 1000000000u + (uint64_t)at.tv_nsec;
}

static int by_size(const void *a, const void *b) {
    uint64_t x = *(const uint64_t *)a, y = *(const uint64_t *)b;
    return (x > y) - (x < y);
}

int main(int argc, char **argv) {
    FILE *file = argc == 2 ? fopen(argv[1], "rb") : NULL;
    if (file == NULL) return 2;
    fseek(file, 0, SEEK_END);
    size_t size = (size_t)ftell(file), calls = 0;
    rewind(file);
    char *text = malloc(size + 1);
    uint64_t *times = malloc((size / 8 + 1) * sizeof *times);
    aim_session *session = malloc(aim_session_size());
    if (text == NULL || times == NULL || session == NULL || fread(text, 1, size, file) != size) return 7;
    text[size] = '\n';
    aim_session_make(session);
    uint64_t began = 0;
    for (char *line = text; line < text + size;) {
        char *end = memchr(line, '\n', (size_t)(text + size + 1 - line));
        if (began == 0 && aim_session_stage(session) == AIM_IN_BODY) began = now(CLOCK_PROCESS_CPUTIME_ID);
        uint64_t from = now(CLOCK_MONOTONIC);
        aim_answer answer = aim_session_take(session, line, (size_t)(end - line));
        uint64_t took = now(CLOCK_MONOTONIC) - from;
        if (answer.outcome == AIM_ENTRY) times[calls++] = took;
        else if (answer.outcome != AIM_TAKEN) return 3;
        line = end + 1;
    }
    double seconds = (double)(now(CLOCK_PROCESS_CPUTIME_ID) - began) / 1e9;
    qsort(times, calls, sizeof *times, by_size);
    printf("%zu %.3f %llu %llu\n", calls, seconds, (unsigned long long)times[calls / 2],
           (unsigned long long)times[calls * 99 / 100]);
    aim_session_end(session);
    return 0;
}
