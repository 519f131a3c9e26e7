/* Reads a chain at a record, checks a rules text, runs it by messages, and reads the chain again:
 * reading REGISTER RULES CHAIN RECORD */
#include <plot.h>
#include <stdio.h>
#include <stdlib.h>
#include <string.h>

/* The bytes of a file and their number; NULL where it cannot be read. */
static uint8_t *bytes_of(const char *name, size_t *length)
{
    FILE *file = fopen(name, "rb");
    uint8_t *bytes = malloc(1 << 20); /* larger than any register and any text that is taken */
    *length = file && bytes ? fread(bytes, 1, 1 << 20, file) : 0;
    if (file && fclose(file) == 0)
        return bytes;
    free(bytes);
    return NULL;
}

static int refused(const char *what, uint32_t number, const uint64_t answer[8])
{
    fprintf(stderr, "%s: refused %u at line %llu\n", what, (unsigned)number, (unsigned long long)answer[PLOT_ANSWER_LINE]);
    return 1;
}

/* Prints what the chain is at the record. */
static int print_reading(const uint8_t *file, size_t length, const char *chain, uint64_t record)
{
    uint64_t answer[PLOT_ANSWER_LENGTH];
    int64_t value = 0;
    uint32_t number = plot_read(file, length, (const uint8_t *)chain, strlen(chain), record, &value, answer);
    if (number != 0)
        return refused("reading", number, answer);
    if (answer[PLOT_ANSWER_FILLED] == 1)
        printf("%s at %llu is %lld\n", chain, (unsigned long long)record, (long long)value);
    else
        printf("%s at %llu is unfilled\n", chain, (unsigned long long)record);
    return 0;
}

int main(int argc, char **argv)
{
    size_t length = 0, text_length = 0;
    uint64_t answer[PLOT_ANSWER_LENGTH];
    uint8_t *file = argc == 5 ? bytes_of(argv[1], &length) : NULL;
    uint8_t *text = argc == 5 ? bytes_of(argv[2], &text_length) : NULL;
    if (file == NULL || text == NULL)
        return fprintf(stderr, "usage: reading REGISTER RULES CHAIN RECORD\n"), 2;
    uint64_t record = strtoull(argv[4], NULL, 10);
    if (print_reading(file, length, argv[3], record) != 0)
        return 1;
    uint32_t number = plot_check(file, length, text, text_length, answer);
    if (number != 0)
        return refused("check", number, answer);
    /* The register has passed, so it has its sizes: n, r and m. */
    size_t n = file[0] + 256u * file[1], fields = (size_t)file[4] + file[8];
    size_t places = n * (answer[PLOT_ANSWER_MOST_LINES] + fields + 1);
    uint8_t *out = malloc(length), *marks = malloc(places + 1);
    int64_t *values = malloc((places + 1) * sizeof *values);
    if (out == NULL || marks == NULL || values == NULL)
        return 2;
    number = plot_run_messages(file, length, text, text_length, 1000, out, length, values, places, marks, places, answer);
    if (number != 0)
        return refused("run", number, answer);
    printf("%llu steps, %llu exchanges, %llu messages\n", (unsigned long long)answer[PLOT_ANSWER_FINISHED],
           (unsigned long long)answer[PLOT_ANSWER_EXCHANGES], (unsigned long long)answer[PLOT_ANSWER_MESSAGES]);
    int status = print_reading(out, length, argv[3], record);
    return free(file), free(text), free(out), free(marks), free(values), status;
}
