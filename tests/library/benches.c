/* Tests of the benches of libcanbusd. With arguments, the program creates a bench, carries out the lines of standard
 * input, and writes their output. The arguments are NAMES ACK LIMIT AUTO_RESTART BITRATE DATA_BITRATE SHOWS_FAULTS
 * FAULTS STEP. Each call passes at least STEP bytes, up to the end of a line. Without arguments, the program tests
 * which calls are refused, and that a refused call leaves the state unchanged. */
#include <canbusd.h>

#include <stdio.h>
#include <stdlib.h>
#include <string.h>

static int failed;

static void expect(uint64_t found, uint64_t wanted, const char *what, int line) {
    if (found != wanted) {
        fprintf(stderr, "benches.c:%d: %s is %llu, not %llu\n", line, what, (unsigned long long)found,
                (unsigned long long)wanted);
        failed = 1;
    }
}

#define EQ(found, wanted) expect((uint64_t)(found), (uint64_t)(wanted), #found, __LINE__)

static canbusd_bench *made(void) {
    canbusd_config config = CANBUSD_CONFIG;
    canbusd_bench *bench = NULL;
    config.limit = 100;
    EQ(canbusd_bench_new("can0,can1", &config, 256, 0, NULL, 0, &bench, NULL), CANBUSD_OK);
    if (bench == NULL)
        exit(1);
    return bench;
}

/* Carries out lines, and checks the return code, the number of the wrong line, and the output. */
static void takes(canbusd_bench *bench, const char *lines, uint32_t code, size_t wrong, const char *output, int place) {
    char found[1000];
    size_t len = 99, line = 99;
    expect(canbusd_bench_take(bench, lines, strlen(lines), found, sizeof found, &len, &line), code, "the code", place);
    expect(line, wrong, "the number of the line", place);
    expect(len, strlen(output), "the length of the output", place);
    if (len == strlen(output))
        expect(memcmp(found, output, len) == 0, 1, "the output is as it should be", place);
}

#define TAKES(bench, lines, code, wrong, output) takes(bench, lines, code, wrong, output, __LINE__)

static const char started[] =
    "session 1\nsession 2\nfeed 1 < open can0 >< rawmode >\nfeed 2 < open can1 >< rawmode >\n";
static const char greeted[] = "1 < hi >\n2 < hi >\n1 < ok >< ok >\n2 < ok >< ok >\n";

static void a_wrong_line_keeps_the_others(void) {
    canbusd_bench *bench = made();
    char text[2000];
    size_t len = 0, again = 0;
    TAKES(bench, started, CANBUSD_OK, 0, greeted);
    TAKES(bench, "feed 1 < send 123 2 11 22 >\nattempt\nnonsense\ndrain 2\n", CANBUSD_BAD_LINE, 3,
          "tried can0 0 done can1 -\n");
    /* The lines after the wrong one were not carried out. */
    TAKES(bench, "drain 2", CANBUSD_OK, 0, "2 < frame 123 0.000000 1122 >\n");
    TAKES(bench, "", CANBUSD_OK, 0, "");
    TAKES(bench, "session 1\n", CANBUSD_BAD_LINE, 1, "");
    TAKES(bench, "\nfeed 3 < stats >\n", CANBUSD_BAD_LINE, 2, "");
    TAKES(bench, "run 1\n", CANBUSD_BAD_LINE, 1, "");
    EQ(canbusd_bench_record(bench, text, sizeof text, &len), CANBUSD_OK);
    /* The bus refuses to bring up an interface that is already up. The record has an entry for that. */
    TAKES(bench, "up can0\nattempt\n", CANBUSD_BAD_LINE, 1, "");
    EQ(canbusd_bench_record(bench, NULL, 0, &again), CANBUSD_OK);
    EQ(again > len, 1);
    EQ(canbusd_bench_log(bench, text, sizeof text, &len), CANBUSD_OK);
    EQ(len, strlen("(0000000000.000000) can0 123#1122\n"));
    EQ(memcmp(text, "(0000000000.000000) can0 123#1122\n", len), 0);
    canbusd_bench_free(bench);
}

/* A line has at most 4,096 bytes, and the whole input has at most 16,777,216 bytes. */
static void lines_have_their_limits(void) {
    canbusd_bench *bench = made();
    size_t many = 16777217, len = 99, line = 99, end;
    char *text = malloc(many);
    if (text == NULL)
        exit(1);
    memset(text, '#', 4097);
    text[4096] = '\n';
    EQ(canbusd_bench_take(bench, text, 4097, NULL, 0, &len, &line), CANBUSD_OK);
    text[4096] = '#';
    EQ(canbusd_bench_take(bench, text, 4097, NULL, 0, &len, &line), CANBUSD_BAD_LINE);
    EQ(line, 1);
    memset(text, '#', many);
    for (end = 4095; end < many; end += 4096)
        text[end] = '\n';
    EQ(canbusd_bench_take(bench, text, many - 1, NULL, 0, &len, &line), CANBUSD_OK);
    EQ(canbusd_bench_take(bench, text, many, NULL, 0, &len, &line), CANBUSD_TOO_LONG);
    EQ(line, 0);
    EQ(len, 0);
    TAKES(bench, started, CANBUSD_OK, 0, greeted);
    free(text);
    canbusd_bench_free(bench);
}

static void output_is_kept(void) {
    canbusd_bench *bench = made();
    char room[16] = "................";
    size_t len = 99;
    EQ(canbusd_bench_output(bench, NULL, 0, &len), CANBUSD_OK);
    EQ(len, 0);
    EQ(canbusd_bench_take(bench, "session 1\n", 10, room, 4, &len, NULL), CANBUSD_OK);
    EQ(len, 9);
    EQ(memcmp(room, "1 < ............", sizeof room), 0);
    EQ(canbusd_bench_output(bench, room, sizeof room, &len), CANBUSD_OK);
    EQ(len, 9);
    EQ(memcmp(room, "1 < hi >\n.......", sizeof room), 0);
    EQ(canbusd_bench_take(bench, "nonsense\n", 9, NULL, 0, &len, NULL), CANBUSD_BAD_LINE);
    EQ(canbusd_bench_output(bench, room, sizeof room, &len), CANBUSD_OK);
    EQ(len, 0);
    canbusd_bench_free(bench);
}

/* Checks that no bench is created, and that the call reports this error code and this line number. */
static void refuses(const char *names, canbusd_config config, uint32_t capacity, const char *faults, uint32_t code,
                    size_t wrong, int place) {
    canbusd_bench *bench = (canbusd_bench *)&config;
    size_t line = 99, len = faults != NULL ? strlen(faults) : 0;
    expect(canbusd_bench_new(names, &config, capacity, 0, faults, len, &bench, &line), code, "the code", place);
    expect(line, wrong, "the number of the line", place);
    expect(bench == NULL, 1, "there is no bench", place);
}

#define REFUSES(names, config, capacity, faults, code, wrong) \
    refuses(names, config, capacity, faults, code, wrong, __LINE__)

static void what_is_no_bench_is_refused(void) {
    canbusd_config usual = CANBUSD_CONFIG, wrong = CANBUSD_CONFIG;
    REFUSES("can0,can0", usual, 256, NULL, CANBUSD_BAD_NAMES, 0);
    REFUSES("can0", usual, 0, NULL, CANBUSD_BAD_CONFIG, 0);
    REFUSES("can0", usual, 65537, NULL, CANBUSD_BAD_CONFIG, 0);
    REFUSES("can0", usual, 256, "0 good\n1 nonsense\n", CANBUSD_BAD_LINE, 2);
    REFUSES("can0", usual, 256, "0 good\n0 good\n", CANBUSD_REPEATED_ATTEMPT, 2);
    REFUSES("can0", usual, 256, "always from can1 good\n", CANBUSD_NO_INTERFACE, 1);
    REFUSES("can0", usual, 256, "\xff", CANBUSD_BAD_LINE, 0);
    wrong.ack = 2;
    REFUSES("can0", wrong, 256, "1 nonsense\n", CANBUSD_BAD_CONFIG, 0);
    wrong = usual, wrong.limit = 0;
    REFUSES("can0", wrong, 256, "1 nonsense\n", CANBUSD_BAD_LINE, 1);
    REFUSES("can0", wrong, 256, NULL, CANBUSD_BAD_CONFIG, 0);
    wrong = usual, wrong.data_bitrate = 500000;
    REFUSES("can0", wrong, 256, NULL, CANBUSD_BAD_BIT_RATES, 0);
}

/* A bus holds 64 rules, and refuses one more. */
static void rules_have_their_limit(void) {
    canbusd_config config = CANBUSD_CONFIG;
    canbusd_bench *bench = NULL;
    char rules[65 * 12];
    size_t i, line = 99, each = strlen("always good\n");
    for (i = 0; i < 65; i++)
        memcpy(rules + i * each, "always good\n", each);
    EQ(canbusd_bench_new("can0", &config, 256, 0, rules, 64 * each, &bench, &line), CANBUSD_OK);
    canbusd_bench_free(bench);
    EQ(canbusd_bench_new("can0", &config, 256, 0, rules, 65 * each, &bench, &line), CANBUSD_TOO_MANY_RULES);
    EQ(line, 65);
    EQ(bench == NULL, 1);
}

static void null_pointers_are_found(void) {
    canbusd_config config = CANBUSD_CONFIG;
    canbusd_bench *bench = made(), *none = bench;
    size_t len = 99;
    char room[1] = "";
    EQ(canbusd_bench_new("can0", &config, 256, 0, NULL, 0, NULL, NULL), CANBUSD_NULL);
    EQ(canbusd_bench_new(NULL, &config, 256, 0, NULL, 0, &none, NULL), CANBUSD_NULL);
    EQ(none == NULL, 1);
    EQ(canbusd_bench_new("can0", NULL, 256, 0, NULL, 0, &none, NULL), CANBUSD_NULL);
    EQ(canbusd_bench_new("can0", &config, 256, 0, NULL, 1, &none, NULL), CANBUSD_NULL);
    EQ(canbusd_bench_take(NULL, "", 0, room, 1, &len, NULL), CANBUSD_NULL);
    EQ(canbusd_bench_take(bench, NULL, 1, room, 1, &len, NULL), CANBUSD_NULL);
    EQ(canbusd_bench_take(bench, "", 0, NULL, 1, &len, NULL), CANBUSD_NULL);
    EQ(canbusd_bench_take(bench, "", 0, room, 1, NULL, NULL), CANBUSD_NULL);
    EQ(canbusd_bench_output(NULL, room, 1, &len), CANBUSD_NULL);
    EQ(canbusd_bench_output(bench, NULL, 1, &len), CANBUSD_NULL);
    EQ(canbusd_bench_record(NULL, room, 1, &len), CANBUSD_NULL);
    EQ(canbusd_bench_record(bench, room, 1, NULL), CANBUSD_NULL);
    EQ(canbusd_bench_log(NULL, room, 1, &len), CANBUSD_NULL);
    EQ(canbusd_bench_log(bench, NULL, 1, &len), CANBUSD_NULL);
    EQ(len, 99);
    EQ(canbusd_bench_take(bench, NULL, 0, NULL, 0, &len, NULL), CANBUSD_OK);
    EQ(len, 0);
    canbusd_bench_free(bench);
    canbusd_bench_free(NULL);
}

/* Two benches are independent, and both free their memory. */
static void benches_are_apart(void) {
    int i;
    for (i = 0; i < 1000; i++) {
        canbusd_bench *one = made(), *other = made();
        TAKES(one, started, CANBUSD_OK, 0, greeted);
        TAKES(other, "feed 1 < stats >\n", CANBUSD_BAD_LINE, 1, "");
        TAKES(other, started, CANBUSD_OK, 0, greeted);
        canbusd_bench_free(one);
        TAKES(other, "attempt\n", CANBUSD_OK, 0, "idle\n");
        canbusd_bench_free(other);
    }
}

/* Returns the whole standard input. */
static char *input(size_t *len) {
    char *text = NULL;
    size_t room = 0, more;
    *len = 0;
    do {
        room += 65536;
        text = realloc(text, room);
        if (text == NULL)
            exit(1);
        more = fread(text + *len, 1, room - *len, stdin);
        *len += more;
    } while (*len == room);
    return text;
}

/* Writes the output that the bench produces for these lines. */
static int writes(canbusd_bench *bench, const char *lines, size_t len) {
    char few[8], *all;
    size_t size = 0;
    uint32_t code = canbusd_bench_take(bench, lines, len, few, sizeof few, &size, NULL);
    if (code != CANBUSD_OK)
        fprintf(stderr, "%s\n", canbusd_strerror(code));
    all = malloc(size + 1);
    if (all == NULL || canbusd_bench_output(bench, all, size, &size) != CANBUSD_OK)
        exit(1);
    fwrite(all, 1, size, stdout);
    free(all);
    return code != CANBUSD_OK;
}

static int runs(char **words) {
    canbusd_config config = CANBUSD_CONFIG;
    canbusd_bench *bench;
    size_t len, done = 0, end, step = strtoul(words[8], NULL, 10);
    char *lines = input(&len);
    int wrong = 0;
    config.ack = strtoul(words[1], NULL, 10);
    config.limit = strtoul(words[2], NULL, 10);
    config.auto_restart = strtoul(words[3], NULL, 10);
    config.bitrate = strtoul(words[4], NULL, 10);
    config.data_bitrate = strtoul(words[5], NULL, 10);
    if (canbusd_bench_new(words[0], &config, 256, words[6][0] == '1', words[7], strlen(words[7]), &bench, NULL) !=
        CANBUSD_OK)
        exit(1);
    for (; done < len; done = end) {
        end = done + step < len ? done + step : len;
        while (end < len && lines[end - 1] != '\n')
            end++;
        wrong |= writes(bench, lines + done, end - done);
    }
    canbusd_bench_free(bench);
    free(lines);
    return wrong;
}

int main(int argc, char **argv) {
    if (argc == 10)
        return runs(argv + 1);
    a_wrong_line_keeps_the_others();
    lines_have_their_limits();
    output_is_kept();
    what_is_no_bench_is_refused();
    rules_have_their_limit();
    null_pointers_are_found();
    benches_are_apart();
    return failed;
}
