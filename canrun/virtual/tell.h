/* Messages that a program asks the coordinator to print, because the program's own standard error may be captured, for
 * example by pytest. */
#ifndef TELL_H
#define TELL_H

#include <stdbool.h>

/* Prints a line to the run's standard error, without waiting until it is printed. If there is no coordinator, or no
 * free notice, the line is written to this program's own standard error. If `ends_run` is true, the run ends with
 * status 125, and this function does not return. */
void tell(bool ends_run, const char *format, ...) __attribute__((format(printf, 2, 3)));

/* Returns `, in TEST` if this program runs a pytest test, or was started by one; otherwise returns an empty string. */
#define TEST_ROOM 220
const char *tell_test(char room[TEST_ROOM]);

/* Replaces characters that are not printable ASCII, because programs choose the names in messages. */
void make_printable(char *text);

#endif
