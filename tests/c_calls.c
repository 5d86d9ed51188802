/* Calls the library from C, for each input that standard input lists: eight bytes with its length, and its bytes.

   usage: c_calls MODE CALL

   CALL is the call that is made: `answer` is elasticlunr_answer, and then elasticlunr_answer_into for the same job;
   `index_documents` is elasticlunr_index_documents; `index_pieces` is elasticlunr_index_pieces; `search` is elasticlunr_search, and such an input is eight bytes with the
   length of an index, its text and the search. MODE is what is tried. `answers`: prints each answer: its status, eight bytes
   with its length, and its bytes. `once`: the same of the first call alone. `refused`: refuses each request for memory of each
   call in turn; where the bytes are malformed, none of them is of more than ROOM bytes for a byte of the input, even if its
   numbers are large. `threads`: four threads make all calls at the same time, and each answer is as alone. At a fault a line on
   the error stream says what is wrong, and the status is 3. */
#include "elasticlunr.h"
#include <pthread.h>
#include <stdio.h>
#include <stdlib.h>
#include <string.h>

enum { MOST = 65536, THREADS = 4, MORE = 32, MARK = 0xa5, LENGTH = 77, NONE = 9, ROOM = 64 };

struct bytes {
    uint8_t *first;
    size_t length;
};

/* The index stands alone where a search has one. */
struct input {
    struct bytes index, whole;
};

typedef uint32_t to_block(const struct input *input, uint8_t **text, size_t *length);
typedef size_t to_room(const uint8_t *input, size_t input_length, uint8_t *out, size_t room, uint32_t *status);

/* A call, and the one that answers alike to the caller's bytes, if there is one. */
struct call {
    const char *name;
    to_block *answer;
    to_room *answer_into;
    int has_index;
};

struct answer {
    uint8_t *text;
    size_t length;
    uint32_t status;
};

static uint32_t answer(const struct input *input, uint8_t **text, size_t *length)
{
    return elasticlunr_answer(input->whole.first, input->whole.length, text, length);
}

static uint32_t index_documents(const struct input *input, uint8_t **text, size_t *length)
{
    return elasticlunr_index_documents(input->whole.first, input->whole.length, text, length);
}

static uint32_t index_pieces(const struct input *input, uint8_t **text, size_t *length)
{
    return elasticlunr_index_pieces(input->whole.first, input->whole.length, text, length);
}

static uint32_t search(const struct input *input, uint8_t **text, size_t *length)
{
    return elasticlunr_search(input->index.first, input->index.length, input->whole.first, input->whole.length, text, length);
}

static const struct call calls[] = {
    {"answer", answer, elasticlunr_answer_into, 0},
    {"index_documents", index_documents, NULL, 0},
    {"index_pieces", index_pieces, NULL, 0},
    {"search", search, NULL, 1},
};
static const struct call *call;
static struct input inputs[MOST];
static struct answer answers[MOST];
static size_t count;
static uint8_t mark; /* where a text stands before a call */

/* The requests for memory of a call, the one of them that is refused, and the blocks that are not given back. */
static _Thread_local long requests, refused, blocks;
static _Thread_local size_t largest; /* request of a call */

#ifdef COUNTING
void *__real_malloc(size_t size);
void *__real_realloc(void *block, size_t size);
void __real_free(void *block);

static int is_refused(size_t size)
{
    largest = size > largest ? size : largest;
    return ++requests == refused;
}

void *__wrap_malloc(size_t size)
{
    if (is_refused(size))
        return NULL;
    blocks++;
    return __real_malloc(size);
}

void *__wrap_realloc(void *block, size_t size)
{
    if (is_refused(size))
        return NULL;
    blocks += !block;
    return __real_realloc(block, size);
}

void __wrap_free(void *block)
{
    blocks -= block != NULL;
    __real_free(block);
}
#endif

static void fail(size_t number, const char *what)
{
    fprintf(stderr, "input %zu: %s\n", number + 1, what);
    exit(3);
}

static uint64_t number_in(const uint8_t *bytes)
{
    uint64_t number = 0;
    for (int at = 7; at >= 0; at--)
        number = number << 8 | bytes[at];
    return number;
}

/* Bytes in a block of their own length, so a tool that watches memory sees a read past their end. */
static struct bytes read_bytes(size_t length)
{
    struct bytes read = {malloc(length + !length), length};
    if (fread(read.first, 1, length, stdin) != length)
        fail(count, "it is cut short");
    return read;
}

static void read_inputs(void)
{
    uint8_t head[8];
    for (; count < MOST && fread(head, 1, 8, stdin) == 8; count++) {
        size_t length = number_in(head);
        if (call->has_index) {
            if (length < 8 || fread(head, 1, 8, stdin) != 8 || number_in(head) > length - 8)
                fail(count, "it has no index");
            inputs[count].index = read_bytes(number_in(head));
            length -= 8 + number_in(head);
        }
        inputs[count].whole = read_bytes(length);
    }
}

static int has_text(struct answer made)
{
    return made.status == ELASTICLUNR_DONE || made.status == ELASTICLUNR_REFUSED;
}

static int are_equal(struct answer one, struct answer other)
{
    if (one.status != other.status || !has_text(one))
        return one.status == other.status;
    return one.length == other.length && !memcmp(one.text, other.text, one.length);
}

static void give_back(struct answer made)
{
    if (has_text(made))
        elasticlunr_free(made.text);
}

/* What a call answers. Where it has no text, the pointer and the length are as they were. */
static struct answer answer_to(size_t number)
{
    struct answer made = {&mark, LENGTH, NONE};
    made.status = call->answer(&inputs[number], &made.text, &made.length);
    if (made.status > ELASTICLUNR_MALFORMED)
        fail(number, "no status");
    if (has_text(made) == (made.text == &mark))
        fail(number, "a text without an answer, or an answer without a text");
    if (!has_text(made) && made.length != LENGTH)
        fail(number, "no answer, and a length is written");
    return made;
}

/* The same answer in so much room, with more bytes after it that stay. */
static void check_room(size_t number, struct answer wanted, size_t room)
{
    uint8_t *out = malloc(room + MORE);
    memset(out, MARK, room + MORE);
    uint32_t status = NONE;
    size_t length = call->answer_into(inputs[number].whole.first, inputs[number].whole.length, out, room, &status);
    if (status != wanted.status || length != wanted.length)
        fail(number, "another status or length in the caller's bytes");
    size_t written = length <= room ? length : 0;
    if (memcmp(out, wanted.text, written))
        fail(number, "another text in the caller's bytes");
    for (size_t at = written; at < room + MORE; at++)
        if (out[at] != MARK)
            fail(number, "a byte is written that is not of the answer");
    free(out);
}

static void print(struct answer made)
{
    size_t length = has_text(made) ? made.length : 0;
    uint8_t head[9] = {(uint8_t)made.status};
    for (int at = 0; at < 8; at++)
        head[at + 1] = (uint8_t)(length >> 8 * at);
    fwrite(head, 1, 9, stdout);
    fwrite(made.text, 1, length, stdout);
}

static void check_answers(void)
{
    for (size_t number = 0; number < count; number++) {
        struct answer made = answer_to(number);
        if (made.status == ELASTICLUNR_MEMORY)
            fail(number, "out of memory");
        if (call->answer_into) {
            check_room(number, made, made.length);
            check_room(number, made, made.length + MORE);
            check_room(number, made, made.length - 1);
            check_room(number, made, 0);
        }
        print(made);
        give_back(made);
    }
}

/* Each answer of the first call alone, for those who count what a call takes. */
static void call_once(void)
{
    for (size_t number = 0; number < count; number++) {
        struct answer made = answer_to(number);
        print(made);
        give_back(made);
    }
}

/* The call to the caller's bytes with the request of this number refused. They have no room for the answer. */
static void refuse_into(size_t number, struct answer whole, long request)
{
    uint8_t out[1] = {MARK};
    uint32_t status = NONE;
    requests = 0, refused = request;
    size_t length = call->answer_into(inputs[number].whole.first, inputs[number].whole.length, out, 1, &status);
    refused = 0;
    if (out[0] != MARK || length != (status == ELASTICLUNR_MEMORY ? 0 : whole.length))
        fail(number, "the caller's bytes after a refused request");
}

/* Out of memory at the request of this number, or the whole answer if the call goes on without it. Whether it was refused. */
static int refuse(size_t number, struct answer whole, long request)
{
    long before = blocks;
    requests = 0, refused = request;
    struct answer made = answer_to(number);
    refused = 0;
    if (made.status != ELASTICLUNR_MEMORY && !are_equal(made, whole))
        fail(number, "another answer after a refused request");
    give_back(made);
    if (call->answer_into)
        refuse_into(number, whole, request);
    if (blocks != before)
        fail(number, "a block is not given back");
    return made.status == ELASTICLUNR_MEMORY;
}

static void check_refused(void)
{
    long tried = 0, stopped = 0;
    for (size_t number = 0; number < count; number++) {
        requests = 0, largest = 0;
        struct answer whole = answer_to(number);
        long all = requests;
        if (whole.status == ELASTICLUNR_MALFORMED && largest > ROOM * (inputs[number].whole.length + 1))
            fail(number, "malformed bytes take more memory than they have items");
        for (long request = 1; request <= all; request++, tried++)
            stopped += refuse(number, whole, request);
        give_back(whole);
    }
    printf("%ld requests, %ld times out of memory\n", tried, stopped);
}

static void *call_all(void *unused)
{
    for (size_t number = 0; number < count; number++) {
        struct answer made = answer_to(number);
        if (!are_equal(made, answers[number]))
            fail(number, "another answer while other threads call");
        give_back(made);
    }
    return unused;
}

static void check_threads(void)
{
    pthread_t threads[THREADS];
    for (size_t number = 0; number < count; number++)
        answers[number] = answer_to(number);
    for (int at = 0; at < THREADS; at++)
        if (pthread_create(&threads[at], NULL, call_all, NULL))
            fail(0, "no thread");
    for (int at = 0; at < THREADS; at++)
        pthread_join(threads[at], NULL);
    printf("%zu answers in each of %d threads\n", count, THREADS);
}

static int is_word(const char *word, const char *other)
{
    return !strcmp(word, other);
}

int main(int words, char **word)
{
    for (size_t at = 0; words == 3 && at < sizeof calls / sizeof *calls; at++)
        if (is_word(word[2], calls[at].name))
            call = &calls[at];
    if (!call)
        return 2;
    read_inputs();
    if (is_word(word[1], "answers"))
        check_answers();
    else if (is_word(word[1], "once"))
        call_once();
    else if (is_word(word[1], "refused"))
        check_refused();
    else if (is_word(word[1], "threads"))
        check_threads();
    else
        return 2;
    return 0;
}
