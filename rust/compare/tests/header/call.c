/* One call of a function of gearcinder.h, as standard input tells it: the function's
 * place in the list below; how many bytes or fields the three inputs have, and how many
 * places the lent memory; the inputs, the lent memory and the answer, the last two
 * between guards. Writes the lent memory and the answer after the call, with guards.
 */
#include "gearcinder.h"
/* Made from gearcinder.h: CALL_f is a call of f whose arguments have the names of its
 * parameters, in the order that the header gives. */
#include "calls.h"

#include <stdio.h>
#include <stdlib.h>

/* What the library has. Where gearcinder.h says something else, this is an error. */
#ifdef __cplusplus
extern "C" {
#endif
void gearcinder_judge(const uint8_t *, size_t, const uint8_t *, size_t,
                      uint64_t *, size_t, uint64_t[5]);
void gearcinder_covers(const uint8_t *, size_t, const uint8_t *, size_t,
                       const uint8_t *, size_t, uint64_t *, size_t, uint64_t[5]);
void gearcinder_read_book(const uint8_t *, size_t, uint16_t *, size_t, uint64_t[5]);
void gearcinder_read_certificate(const uint8_t *, size_t, const uint8_t *, size_t,
                                 uint16_t *, size_t, uint64_t[5]);
void gearcinder_write_book(const uint16_t *, size_t, uint8_t *, size_t, uint64_t[5]);
void gearcinder_write_certificate(const uint8_t *, size_t, const uint16_t *, size_t,
                                  uint8_t *, size_t, uint64_t[5]);
#ifdef __cplusplus
}
#endif

enum { GUARDS = 32 };

struct call {
    void *first, *second, *third, *lent;
    size_t first_length, second_length, third_length, lent_length;
    uint64_t *answer;
};

static void judge(const struct call *call)
{
    const uint8_t *book = (const uint8_t *)call->first;
    const uint8_t *certificate = (const uint8_t *)call->second;
    uint64_t *work = (uint64_t *)call->lent + GUARDS;
    size_t book_length = call->first_length, certificate_length = call->second_length;
    size_t work_length = call->lent_length;
    uint64_t *answer = call->answer;
    CALL_gearcinder_judge;
}

static void covers(const struct call *asked)
{
    const uint8_t *book = (const uint8_t *)asked->first;
    const uint8_t *certificate = (const uint8_t *)asked->second;
    const uint8_t *call = (const uint8_t *)asked->third;
    uint64_t *work = (uint64_t *)asked->lent + GUARDS;
    size_t book_length = asked->first_length, certificate_length = asked->second_length;
    size_t call_length = asked->third_length, work_length = asked->lent_length;
    uint64_t *answer = asked->answer;
    CALL_gearcinder_covers;
}

static void read_book(const struct call *call)
{
    const uint8_t *book = (const uint8_t *)call->first;
    uint16_t *out = (uint16_t *)call->lent + GUARDS;
    size_t book_length = call->first_length, out_length = call->lent_length;
    uint64_t *answer = call->answer;
    CALL_gearcinder_read_book;
}

static void read_certificate(const struct call *call)
{
    const uint8_t *book = (const uint8_t *)call->first;
    const uint8_t *certificate = (const uint8_t *)call->second;
    uint16_t *out = (uint16_t *)call->lent + GUARDS;
    size_t book_length = call->first_length, certificate_length = call->second_length;
    size_t out_length = call->lent_length;
    uint64_t *answer = call->answer;
    CALL_gearcinder_read_certificate;
}

static void write_book(const struct call *call)
{
    const uint16_t *fields = (const uint16_t *)call->first;
    uint8_t *out = (uint8_t *)call->lent + GUARDS;
    size_t fields_length = call->first_length, out_length = call->lent_length;
    uint64_t *answer = call->answer;
    CALL_gearcinder_write_book;
}

static void write_certificate(const struct call *call)
{
    const uint8_t *book = (const uint8_t *)call->first;
    const uint16_t *fields = (const uint16_t *)call->second;
    uint8_t *out = (uint8_t *)call->lent + GUARDS;
    size_t book_length = call->first_length, fields_length = call->second_length;
    size_t out_length = call->lent_length;
    uint64_t *answer = call->answer;
    CALL_gearcinder_write_certificate;
}

/* Each function, with the sizes of what its memory holds. */
static const struct {
    void (*call)(const struct call *);
    size_t first, second, lent;
} functions[] = {
    { judge, sizeof(uint8_t), sizeof(uint8_t), sizeof(uint64_t) },
    { covers, sizeof(uint8_t), sizeof(uint8_t), sizeof(uint64_t) },
    { read_book, sizeof(uint8_t), sizeof(uint8_t), sizeof(uint16_t) },
    { read_certificate, sizeof(uint8_t), sizeof(uint8_t), sizeof(uint16_t) },
    { write_book, sizeof(uint16_t), sizeof(uint8_t), sizeof(uint8_t) },
    { write_certificate, sizeof(uint8_t), sizeof(uint16_t), sizeof(uint8_t) },
};

/* So many things of this size from standard input. */
static void *taken(size_t count, size_t size)
{
    void *memory = malloc(count * size + 1);
    if (memory == NULL || fread(memory, size, count, stdin) != count) {
        exit(2);
    }
    return memory;
}

int main(void)
{
    const uint64_t *head = (const uint64_t *)taken(5, sizeof(uint64_t));
    size_t number = head[0], lent_count = head[4] + 2 * GUARDS;
    size_t answer_count = GEARCINDER_ANSWER_NUMBERS + 2 * GUARDS;
    struct call call;

    call.first_length = head[1];
    call.second_length = head[2];
    call.third_length = head[3];
    call.lent_length = head[4];
    call.first = taken(call.first_length, functions[number].first);
    call.second = taken(call.second_length, functions[number].second);
    call.third = taken(call.third_length, sizeof(uint8_t));
    call.lent = taken(lent_count, functions[number].lent);
    call.answer = (uint64_t *)taken(answer_count, sizeof(uint64_t)) + GUARDS;
    functions[number].call(&call);
    fwrite(call.lent, functions[number].lent, lent_count, stdout);
    fwrite(call.answer - GUARDS, sizeof(uint64_t), answer_count, stdout);
    return 0;
}
