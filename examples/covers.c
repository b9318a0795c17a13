/* Asks whether a packed call is in the family of a packed certificate over a packed rule
 * book:
 *
 *     covers BOOK CERTIFICATE CALL
 *
 * prints `covered` index, or `refuse` number W A B. The exit code is 0 if the call is
 * covered and 1 if it is not, or something is refused. It is 2, with the reason on
 * standard error, if this could not be asked or the answer could not be written.
 */
#include "gearcinder.h"

#include <errno.h>
#include <inttypes.h>
#include <stdio.h>
#include <string.h>

enum { COVERED = 0, REFUSED = 1, NOT_ASKED = 2 };

/* The 256 nodes that a call may have take at most 1,088 bytes. */
enum { CALL_BYTES = 1088 };

/* One byte more than a file may have is enough to be refused for its length. */
static uint8_t book[GEARCINDER_BOOK_BYTES + 1];
static uint8_t certificate[GEARCINDER_CERTIFICATE_BYTES + 1];
static uint8_t call[CALL_BYTES + 1];
static uint64_t work[GEARCINDER_WORK_NUMBERS];

/* Says on standard error why a file stops us. */
static int failed(const char *path, const char *what)
{
    fprintf(stderr, "%s: %s: %s\n", path, what, strerror(errno));
    return 0;
}

static int read_file(const char *path, uint8_t *bytes, size_t room, size_t *length)
{
    int is_read;
    FILE *file = fopen(path, "rb");
    if (file == NULL) {
        return failed(path, "can't be opened");
    }
    *length = fread(bytes, 1, room, file);
    is_read = !ferror(file) || failed(path, "can't be read");
    fclose(file);
    return is_read;
}

/* Prints the answer, and tells the exit code. */
static int print(const uint64_t answer[GEARCINDER_ANSWER_NUMBERS])
{
    int covered = answer[0] == 0;
    if (covered) {
        printf("covered %" PRIu64 "\n", answer[1]);
    } else {
        printf("refuse %" PRIu64 " %" PRIu64 " %" PRIu64 " %" PRIu64 "\n",
               answer[1], answer[2], answer[3], answer[4]);
    }
    if (fflush(stdout) != 0 || ferror(stdout)) {
        failed("standard output", "can't be written");
        return NOT_ASKED;
    }
    return covered ? COVERED : REFUSED;
}

int main(int count, char **words)
{
    size_t book_length, certificate_length, call_length;
    uint64_t answer[GEARCINDER_ANSWER_NUMBERS];

    if (count != 4) {
        fputs("usage: covers BOOK CERTIFICATE CALL\n", stderr);
        return NOT_ASKED;
    }
    if (!read_file(words[1], book, sizeof book, &book_length) ||
        !read_file(words[2], certificate, sizeof certificate, &certificate_length) ||
        !read_file(words[3], call, sizeof call, &call_length)) {
        return NOT_ASKED;
    }
    gearcinder_covers(book, book_length, certificate, certificate_length, call, call_length,
                      work, GEARCINDER_WORK_NUMBERS, answer);
    return print(answer);
}
