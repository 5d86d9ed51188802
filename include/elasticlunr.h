/* elasticlunr.h: the search index that elasticlunr.js loads, from C.
 *
 * Link libelasticlunr.a or libelasticlunr.so; pkg-config has both as `elasticlunr`.
 *
 * Bytes are a pointer and a length. A pointer is never null, even of no bytes. What a call writes to lies apart from what it
 * reads. No call keeps a pointer, prints, aborts or has state, so threads may call at the same time, each with its own bytes.
 * Memory comes from the program's malloc, realloc and free. A call is not made from a signal handler, nor in the forked child
 * of a process with threads.
 */
#ifndef ELASTICLUNR_H
#define ELASTICLUNR_H

#include <stddef.h>
#include <stdint.h>

#ifdef __cplusplus
extern "C" {
#endif

/* What a call answers. */
enum {
    ELASTICLUNR_DONE = 0,      /* the text of an index, its head and its pieces, or the lines of hits */
    ELASTICLUNR_MEMORY = 1,    /* out of memory: nothing is written */
    ELASTICLUNR_REFUSED = 2,   /* the line of a refusal, such as "refused: not a job" */
    ELASTICLUNR_MALFORMED = 3  /* documents or a search that are not in the flat form: nothing is written */
};

/* The answer to a job of `job_length` bytes: a JSON object with fields, documents and settings, as docs/COMMAND.md describes
 * it under "Jobs". The answer is the text of the index, or the line of a refusal, and a line feed. It stands in a block of its
 * own, which `*text` points to and which elasticlunr_free frees; `*length` is its length. No zero byte
 * follows it. Returns the status. At ELASTICLUNR_MEMORY `*text` and `*length` are as they were.
 */
uint32_t elasticlunr_answer(const uint8_t *job, size_t job_length, uint8_t **text, size_t *length);

/* The same answer at the beginning of the caller's `room` bytes at `out`. Returns its length. If that is more than `room`,
 * nothing is written, and a second call with more room gives the answer. `*status` is the status. At ELASTICLUNR_MEMORY the
 * length is 0.
 */
size_t elasticlunr_answer_into(const uint8_t *job, size_t job_length, uint8_t *out, size_t room, uint32_t *status);

/* The index of documents in the flat form, `input_length` bytes at `input`. Tokens that another program made may come with a
 * text. The answer is the compact text of the index, and no line feed follows it; or it is the line of a refusal, and a line
 * feed. It stands in a block of its own, which `*text` points to and which elasticlunr_free frees; `*length`
 * is its length. No zero byte follows it. Returns the status. At ELASTICLUNR_MEMORY and ELASTICLUNR_MALFORMED `*text` and
 * `*length` are as they were.
 *
 * The flat form is made of three things:
 *
 *   number     four bytes, the lowest first
 *   text       the number of its bytes, and then its bytes, which are UTF-8
 *   list       the number of its items, and then the items
 *
 * The input is, one after the other and with nothing after it:
 *
 *   language   the number 0, and as a text the name of a built-in language, such as "German"; or the number 1, a name as a text,
 *              and a list of texts: the name of a custom language and the names of its stages. It makes words of a text, and
 *              its stages keep each token unchanged. Or the number 2, and as a text the name of a built-in language whose stemmer
 *              comes after its stages, as with `elasticlunr build --stems`; one without such a stemmer is as with 0.
 *   reference  as a text, the name under which an index has the reference of a document, such as "id"; a field of this name is
 *              stored and not indexed
 *   save       the number 1 if the index has the texts of the documents, or 0
 *   fields     a list of texts, their names
 *   documents  a list of documents: a reference as a text, and a list of values for the first fields. A document whose reference
 *              came before replaces the earlier one.
 *
 * A value is a text, and where its tokens come from: the number 0, for tokens that the language makes of the text; the number 1
 * and a list of texts, tokens that go through the stages of the language; or the number 2 and a list of texts, tokens that are
 * indexed as they are. The text is always stored.
 *
 * Refused are, in this order, a name that no built-in language has ("refused: unknown language"), a field that is listed twice
 * ("refused: duplicate field"), and a document with more values than there are fields ("refused: too many values").
 */
uint32_t elasticlunr_index_documents(const uint8_t *input, size_t input_length, uint8_t **text, size_t *length);

/* The head and the pieces of the index of documents, as `elasticlunr build --pieces` writes them to a folder. The input is in the
 * flat form, `input_length` bytes at `input`: one after the other and with nothing after it
 *
 *   title      as a text, the field of the titles, such as "title"
 *   size       the number of bytes that a piece of the tries may have, such as 8192; one of the texts may have an eighth of it, and
 *              one of the titles a 32nd. A piece that has more has one entry alone.
 *   input      the documents, as elasticlunr_index_documents takes them
 *
 * The answer is in the flat form, too: one after the other and with nothing after it
 *
 *   folder     as a text, the name of the folder of the pieces, such as "pieces-0123456789abcdef"
 *   head       as a text, the text of the file search.json, which stands next to this folder
 *   pieces     a list of the files of the folder, each its name as a text, such as "t0.json", and its text
 *
 * It stands in a block of its own, which `*text` points to and which elasticlunr_free frees; `*length` is its length. Returns the
 * status. At ELASTICLUNR_MEMORY and ELASTICLUNR_MALFORMED `*text` and `*length` are as they were. At ELASTICLUNR_REFUSED the answer
 * is a line, as of elasticlunr_index_documents, or "refused: too large for the flat form": then four bytes can't count the bytes of
 * the head or of a piece, or the pieces.
 */
uint32_t elasticlunr_index_pieces(const uint8_t *input, size_t input_length, uint8_t **text, size_t *length);

/* What a search finds in the text of an index, `index_length` bytes at `index`. The answer is a line of JSON for each hit, the
 * best first, as `elasticlunr search --json` prints it: an object with the reference `ref`, the score `score` and the stored
 * texts `doc`, and a line feed. It has no line where nothing is found. Or it is the line of a refusal, and a line feed. It
 * stands in a block of its own, which `*text` points to and which elasticlunr_free frees; `*length` is its length. No zero byte
 * follows it. Returns the status. At ELASTICLUNR_MEMORY and ELASTICLUNR_MALFORMED `*text` and `*length` are as they were.
 *
 * The search is in the flat form, `search_length` bytes at `search`: one after the other and with nothing after it
 *
 *   query    a text, the words that are searched for
 *   needed   the number 0 if a document must have one of the words, 1 if it must have each in one field, 2 if it must have
 *            each of them
 *   expand   the number 1 if tokens that begin with one of the query count, too, or 0
 *   fields   a list of texts, the names of the fields that are searched; an empty list is all
 *   boosts   a list of the boosts of fields: a name as a text, and a number from 0 to 255. The last one of a field counts. A field
 *            without one has 1, and the boost of a field that is not searched has no effect.
 *   limit    the number of hits that come at most, or 0 for all
 *
 * The index must have been built with the stages of the language that it names, with its stemmer after them or without. Refused are
 * a text that is not JSON ("refused: not JSON"), that nests too deep ("refused: nested deeper than 127 levels"), that names no
 * built-in language ("refused: unknown language") or other stages ("refused: other stages than its language has"), that has no list
 * of fields, no trie of a field or no document store ("refused: no fields", "refused: no trie of a field", "refused: no document
 * store"), and a field that the index doesn't have ("refused: no such field").
 */
uint32_t elasticlunr_search(const uint8_t *index, size_t index_length, const uint8_t *search, size_t search_length, uint8_t **text,
                            size_t *length);

/* Frees a text of elasticlunr_answer, elasticlunr_index_documents, elasticlunr_index_pieces or elasticlunr_search. */
void elasticlunr_free(uint8_t *text);

/* The version of this library, as "0.1.0". */
const char *elasticlunr_version(void);

#ifdef __cplusplus
}
#endif

#endif
