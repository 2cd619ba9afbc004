/* The writes and syncs of so many commits of a gated log, and nothing else: the length, the body and a closed gate, a
   sync, the open gate, a sync. It prints the seconds that they took. */
#define _GNU_SOURCE
#include <fcntl.h>
#include <stdio.h>
#include <stdlib.h>
#include <string.h>
#include <time.h>
#include <unistd.h>

/* the body of a commit that inserts a row of two numbers into a table whose name has one letter */
#define BODY 36

static void put(int file, const void *bytes, size_t count, off_t place)
{
    if (pwrite(file, bytes, count, place) != (ssize_t)count) {
        perror("write");
        exit(1);
    }
}

static void put_on_disk(int file)
{
    if (fdatasync(file) != 0) {
        perror("sync");
        exit(1);
    }
}

int main(int words, char **word)
{
    if (words != 3) {
        fprintf(stderr, "usage: bare FILE COMMITS\n");
        return 2;
    }
    int file = open(word[1], O_RDWR | O_CREAT | O_TRUNC, 0666);
    if (file < 0) {
        perror(word[1]);
        return 1;
    }
    const unsigned char length[4] = {0, 0, 0, BODY}, closed = 0x00, opened = 0xA7;
    unsigned char body[BODY];
    memset(body, 1, sizeof body);

    struct timespec start, end;
    clock_gettime(CLOCK_MONOTONIC, &start);
    put(file, &closed, 1, 0);
    put_on_disk(file);
    off_t place = 0;
    for (long left = atol(word[2]); left > 0; left--) {
        put(file, length, sizeof length, place + 1);
        put(file, body, sizeof body, place + 5);
        put(file, &closed, 1, place + 5 + BODY);
        put_on_disk(file);
        put(file, &opened, 1, place);
        put_on_disk(file);
        place += 5 + BODY;
    }
    clock_gettime(CLOCK_MONOTONIC, &end);
    printf("%.3f\n", (double)(end.tv_sec - start.tv_sec) + (double)(end.tv_nsec - start.tv_nsec) / 1e9);
    return 0;
}
