/* hubtally of document 02 by hand in C, to measure against: records on standard input, their page on standard output.
 *
 * A buffer is filled until it is full or the input ends, and then its records are counted. A failed read or write is told
 * on standard error and ends the program, status 1. */
#include <inttypes.h>
#include <stdint.h>
#include <stdio.h>
#include <stdlib.h>
#include <unistd.h>

enum { RECORD = 16, BUFFER = 65536, ROWS = 33, COUNTS = 19, BYTES = COUNTS };

static uint8_t buf[BUFFER];
static uint64_t cell[ROWS][COUNTS + 1];

static void fail(const char *what)
{
    perror(what);
    exit(1);
}

/* Less than a buffer only at the end of the input. */
static size_t fill(void)
{
    size_t done = 0;
    while (done < BUFFER) {
        ssize_t n = read(0, buf + done, BUFFER - done);
        if (n < 0)
            fail("standard input");
        if (n == 0)
            break;
        done += (size_t)n;
    }
    return done;
}

static void count(size_t n)
{
    for (const uint8_t *r = buf; r < buf + n; r += RECORD) {
        uint64_t *row = cell[r[1] < ROWS - 1 ? r[1] : ROWS - 1];
        row[r[3] < COUNTS - 1 ? r[3] : COUNTS - 1]++;
        row[BYTES] += r[4];
    }
}

static void print_page(void)
{
    printf("caller");
    for (int k = 0; k < COUNTS - 1; k++)
        printf(" n%d", k);
    printf(" more bytes\n");
    for (int caller = 0; caller < ROWS; caller++) {
        if (caller < ROWS - 1)
            printf("%d", caller);
        else
            printf("more");
        for (int k = 0; k <= BYTES; k++)
            printf(" %" PRIu64, cell[caller][k]);
        printf("\n");
    }
}

int main(void)
{
    size_t n;
    do {
        n = fill();
        if (n % RECORD)
            break;
        count(n);
    } while (n == BUFFER);
    if (n % RECORD)
        printf("refused 12\n");
    else
        print_page();
    if (fflush(stdout))
        fail("standard output");
    return 0;
}
