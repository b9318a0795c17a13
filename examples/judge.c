/* Judges a packed rule book and a packed certificate:
 *
 *     judge BOOK CERTIFICATE
 *
 * prints `accept` line k alpha, or `refuse` number W A B. The exit code is 0 if the
 * certificate is accepted and 1 if it is refused. It is 2, with the reason on standard
 * error, if the judge could not be asked or its answer could not be written.
 */
#include "gearcinder.h"

#include <errno.h>
#include <inttypes.h>
#include <stdio.h>
#include <string.h>

enum { ACCEPTED = 0, REFUSED = 1, NOT_ASKED = 2 };

/* One byte more than a file may have is enough to be refused for its length. */
static uint8_t book[GEARCINDER_BOOK_BYTES + 1];
static uint8_t certificate[GEARCINDER_CERTIFICATE_BYTES + 1];
static uint64_t work[GEARCINDER_WORK_NUMBERS];

/* Says on standard error why a file stops us. */
static int failed(const char *path, const char *what)
{
    fprintf(stderr, "%s: %s: %s\n", path, what, strerror(errno));
    return 0;
}

static int read_file(const char *path, uint8_t *bytes, size_t room, size_t *length)
{
    int is_read;
    FILE *file = fopen(path, "rb");
    if (file == NULL) {
        return failed(path, "can't be opened");
    }
    *length = fread(bytes, 1, room, file);
    is_read = !ferror(file) || failed(path, "can't be read");
    fclose(file);
    return is_read;
}

/* Prints the answer, and tells the exit code. */
static int print(const uint64_t answer[GEARCINDER_ANSWER_NUMBERS])
{
    int accepted = answer[0] == 0;
    if (accepted) {
        printf("accept %" PRIu64 " %" PRIu64 " %" PRIu64 "\n", answer[1], answer[2], answer[3]);
    } else {
        printf("refuse %" PRIu64 " %" PRIu64 " %" PRIu64 " %" PRIu64 "\n",
               answer[1], answer[2], answer[3], answer[4]);
    }
    if (fflush(stdout) != 0 || ferror(stdout)) {
        failed("standard output", "can't be written");
        return NOT_ASKED;
    }
    return accepted ? ACCEPTED : REFUSED;
}

int main(int count, char **words)
{
    size_t book_length, certificate_length;
    uint64_t answer[GEARCINDER_ANSWER_NUMBERS];

    if (count != 3) {
        fputs("usage: judge BOOK CERTIFICATE\n", stderr);
        return NOT_ASKED;
    }
    if (!read_file(words[1], book, sizeof book, &book_length) ||
        !read_file(words[2], certificate, sizeof certificate, &certificate_length)) {
        return NOT_ASKED;
    }
    gearcinder_judge(book, book_length, certificate, certificate_length,
                     work, GEARCINDER_WORK_NUMBERS, answer);
    return print(answer);
}
