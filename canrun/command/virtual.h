/* The options of `canbusd-run --virtual`. */
#ifndef COMMAND_VIRTUAL_H
#define COMMAND_VIRTUAL_H

#include "../virtual/coordinator.h"

#include <stdbool.h>

/* The default options: the run starts in 2026, has no time limit, and is given up after 30 seconds without progress. */
#define VIRTUAL_DEFAULTS \
    { .epoch = 1767225600ull * 1000000000ull, .until = UINT64_MAX, .stall = 30 }

/* Parses the value of `--date D`, `--until S`, `--stall S`, `--seed N` or `--jitter MICROS`. `name` is the option
 * without --. Returns NULL, or an error message. */
const char *virtual_option(struct virtual_options *options, const char *name, const char *value);

#endif
