/* Peglinden for C: the commands of `peglinden`, over files in memory.
 *
 * A call of the first kind opens an answer. Calls of the second kind read it, and the last closes it. Each promise below is a clause
 * of the call's contract, which a machine checked; tools/checked_header compares this page with the calls that are exported.
 *
 * What the caller owes, and nothing checks:
 *
 * - A pointer is never null, not even with the length 0, is aligned, and leads to as much as is said. A length is below 2^63. While a
 *   call runs, nobody changes what it reads, and nobody else touches what it writes.
 * - What a call writes overlaps nothing else that it is given.
 * - An answer begins as PEG_CLOSED. Its members are neither read nor written, and it is not copied. It stays on its thread.
 * - Every answer that was opened is closed, or its memory is lost.
 * - `malloc`, `realloc` and `free` are of one allocator, and align to 16 bytes what is large enough for that.
 * - No call is made by a signal handler, or by the forked child of a process that has threads.
 * - The machine is Linux on x86-64.
 *
 * Calls on answers of their own may run on any threads at once. */
#ifndef PEGLINDEN_H
#define PEGLINDEN_H
#include <stdbool.h>
#include <stddef.h>
#include <stdint.h>
#ifdef __cplusplus
extern "C" {
#endif

/* What calls answer. */
enum {
  PEG_DONE = 0,      /* An answer is opened, and nothing is at fault. Or it was read. */
  PEG_FAULTS = 1,    /* An answer is opened, and something is at fault, or files or a coordinate are refused. */
  PEG_EXHAUSTED = 3, /* Out of memory, or the extensions of a schema would pass the largest number. */
  PEG_SHORT = 5,     /* The buffer is too short. */
  PEG_MISUSE = 6     /* The call may not be made so, or the answer is closed. */
};

/* Flags of calls. Each call takes the first two, of which one is given at most. */
enum {
  PEG_JSON = 1,           /* Reports are JSON: docs/JSON.md. */
  PEG_GITHUB = 2,         /* Reports are workflow commands of GitHub. */
  PEG_ADOPT = 4,          /* peg_schema: what has extensions and no definition is taken as defined. */
  PEG_IGNORE_BUILTIN = 8, /* peg_schema: further definitions of built-in types are passed over. */
  PEG_CHECK = 16          /* peg_format: the output has only the names of the files whose text differs. */
};

/* How many faults are reported at most, where there is to be no limit. */
#define PEG_NO_LIMIT SIZE_MAX

/* Bytes, which need no 0 at their end. */
typedef struct peg_bytes {
  const uint8_t *at;
  size_t len;
} peg_bytes;

/* A file: its path, in UTF-8, and its text. The path is only a name: no file is opened. */
typedef struct peg_file {
  peg_bytes path;
  peg_bytes text;
} peg_file;

/* An answer. All zero is a closed one. */
typedef struct peg_answer {
  void *at;
  bool is_open;
} peg_answer;

#define PEG_CLOSED {NULL, false}

/* The calls that open an answer.
 *
 * `keys` are sixteen bytes that nobody can foretell, as `getrandom` gives them: who knows them can choose names on which a call takes
 * long. The answer is the same under any. Files are read by their paths. Of two files of one path the first counts, and is read once
 * for each place that names it. A text that isn't UTF-8 is refused, as the program refuses it.
 *
 * PEG_DONE and PEG_FAULTS: the answer now holds what `peglinden` prints on both outputs over these files, and its exit status. What
 * it held is freed. It is PEG_DONE exactly if that status is 0.
 * PEG_EXHAUSTED and PEG_MISUSE: the answer holds what it held.
 * PEG_MISUSE comes only where the keys are not sixteen bytes, a flag is none of the call's, both forms are asked for, or a path or a
 * coordinate isn't UTF-8; and such a call opens no answer.
 * Nothing else is answered. */

/* `schema`: the schema of these files, as text. Takes PEG_ADOPT and PEG_IGNORE_BUILTIN too. */
int32_t peg_schema(const uint8_t *keys, size_t keys_len, uint32_t flags, size_t max_faults,
                   const peg_file *files, size_t files_len, peg_answer *answer);

/* `check`: the faults of these documents and of their schema. */
int32_t peg_check(const uint8_t *keys, size_t keys_len, uint32_t flags, size_t max_faults,
                  const peg_file *schema, size_t schema_len, const peg_file *documents, size_t documents_len,
                  peg_answer *answer);

/* `typed`: these documents, typed over their schema, as text. */
int32_t peg_typed(const uint8_t *keys, size_t keys_len, uint32_t flags, size_t max_faults,
                  const peg_file *schema, size_t schema_len, const peg_file *documents, size_t documents_len,
                  peg_answer *answer);

/* `fields`: the fields that each operation of these documents reaches over their schema. */
int32_t peg_fields(const uint8_t *keys, size_t keys_len, uint32_t flags, size_t max_faults,
                   const peg_file *schema, size_t schema_len, const peg_file *documents, size_t documents_len,
                   peg_answer *answer);

/* `lookup`: what a coordinate points to in the schema of these files. */
int32_t peg_lookup(const uint8_t *keys, size_t keys_len, uint32_t flags, size_t max_faults,
                   const uint8_t *coordinate, size_t coordinate_len, const peg_file *files, size_t files_len,
                   peg_answer *answer);

/* `format`: these files in the layout of the printer. Takes PEG_CHECK too. */
int32_t peg_format(const uint8_t *keys, size_t keys_len, uint32_t flags, size_t max_faults,
                   const peg_file *files, size_t files_len, peg_answer *answer);

/* The calls that read an answer. The answer holds what it held. */

/* The status with which the program would exit: 0 where nothing is at fault, 1 where something is, and 2 where files or a coordinate
 * are refused. Of a closed answer it is PEG_MISUSE. */
int32_t peg_status(peg_answer *answer);

/* Copies what the program would print on standard output to the front of the buffer. `needed` is its length.
 * PEG_DONE: it is there, and what follows in the buffer is as it was.
 * PEG_SHORT: it is longer than the buffer, which is as it was.
 * PEG_MISUSE: the answer is closed, `needed` is 0, and the buffer is as it was. */
int32_t peg_output(peg_answer *answer, uint8_t *buffer, size_t buffer_len, size_t *needed);

/* The same of standard error. */
int32_t peg_errors(peg_answer *answer, uint8_t *buffer, size_t buffer_len, size_t *needed);

/* Closes an answer, and frees what it holds. One that is closed stays so. */
void peg_close(peg_answer *answer);

/* Copies the version of the library, as `0.1.0`, to the front of the buffer, as peg_output copies. */
int32_t peg_version(uint8_t *buffer, size_t buffer_len, size_t *needed);

#ifdef __cplusplus
}
#endif
#endif
