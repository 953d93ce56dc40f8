/* The options of `canbusd-run --virtual`: see virtual.h. */
#define _GNU_SOURCE
#include "virtual.h"

#include <math.h>
#include <stdlib.h>
#include <string.h>
#include <time.h>

#define BILLION 1000000000ull
/* The maximum of a date or a duration in seconds: 2^63 nanoseconds are 292 years. */
#define MOST_SECONDS 9000000000.0

/* Parses a decimal number of seconds. Returns a negative number if the string is invalid. */
static double seconds_in(const char *value) {
    char *end;
    double seconds = *value >= '0' && *value <= '9' ? strtod(value, &end) : -1;
    return seconds >= 0 && !*end && isfinite(seconds) && seconds <= MOST_SECONDS ? seconds : -1;
}

/* Parses a count of at most `most`. Returns false if the string is invalid. */
static bool count_in(const char *value, uint64_t most, uint64_t *count) {
    char *end;
    *count = *value >= '0' && *value <= '9' ? strtoull(value, &end, 10) : most + 1;
    return *count <= most && !*end;
}

/* Parses a date: 2026-01-31, 2026-01-31T12:00:00 (UTC; a space may replace the T), a number of seconds since 1970, or
 * `now`. */
static bool read_date(const char *value, uint64_t *epoch) {
    static const char *const forms[] = {"%Y-%m-%d", "%Y-%m-%dT%H:%M:%S", "%Y-%m-%d %H:%M:%S"};
    if (!strcmp(value, "now")) {
        struct timespec now;
        clock_gettime(CLOCK_REALTIME, &now);
        *epoch = (uint64_t)now.tv_sec * BILLION + (uint64_t)now.tv_nsec;
        return true;
    }
    for (size_t i = 0; i < sizeof forms / sizeof *forms; i++) {
        struct tm date = {0};
        const char *end = strptime(value, forms[i], &date);
        if (end && (!*end || !strcmp(end, "Z")) && date.tm_year >= 70) {
            *epoch = (uint64_t)timegm(&date) * BILLION;
            return true;
        }
    }
    double seconds = seconds_in(value);
    *epoch = seconds < 0 ? 0 : (uint64_t)(seconds * 1e6 + 0.5) * 1000;
    return seconds >= 0;
}

const char *virtual_option(struct virtual_options *options, const char *name, const char *value) {
    uint64_t count;
    if (!strcmp(name, "date")) {
        return read_date(value, &options->epoch) ? NULL
                                                 : "a date is as 2026-01-31 or 2026-01-31T12:00:00 (UTC), seconds "
                                                   "since 1970, or now";
    }
    if (!strcmp(name, "until")) {
        double seconds = seconds_in(value);
        options->until = seconds < 0 ? 0 : (uint64_t)(seconds * 1e6 + 0.5) * 1000;
        return seconds > 0 ? NULL : "it is the seconds of the run, above 0";
    }
    if (!strcmp(name, "stall")) {
        options->stall = seconds_in(value);
        return options->stall >= 0 ? NULL : "it is seconds of real time; 0 waits without end";
    }
    if (!strcmp(name, "seed")) {
        return count_in(value, UINT32_MAX, &options->seed) ? NULL : "it is a number from 0 to 4294967295";
    }
    bool is_count = count_in(value, 1000000, &count);
    options->jitter = count * 1000;
    return is_count ? NULL : "it is microseconds, from 0 to 1000000";
}
