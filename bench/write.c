/*
 * What one write for each answer costs, with nothing else done.
 *
 *   write COUNT SIZE       COUNT pieces of SIZE bytes to the standard output, each by a write of its own
 */
#define _POSIX_C_SOURCE 200809L
#include <stdio.h>
#include <stdlib.h>
#include <string.h>
#include <unistd.h>

enum { LARGEST = 65536 };

int main(int count, char **words)
{
    static char piece[LARGEST];
    long pieces = count == 3 ? atol(words[1]) : 0, size = count == 3 ? atol(words[2]) : 0;
    if (pieces < 1 || size < 1 || size > LARGEST) {
        fprintf(stderr, "write COUNT SIZE\n");
        return 2;
    }
    memset(piece, '0', sizeof piece);
    for (long i = 0; i < pieces; i++)
        if (write(STDOUT_FILENO, piece, (size_t)size) != size) {
            perror("write");
            return 1;
        }
    return 0;
}
