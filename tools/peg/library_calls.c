/* Makes calls of the C library that standard input has, and writes what they answer: tools/checked_library says how it is run.
 *
 * Each part of the input is a number of bytes in decimal digits, a line end, and these bytes. A call is the parts: command, flags, limit
 * (empty for none), coordinate, how many files are first, how many are second, and the path and the text of each. Of each call these
 * parts are written: what it said, the status, the output and the errors. */
#include <assert.h>
#include <peglinden.h>
#include <pthread.h>
#include <stdatomic.h>
#include <stdio.h>
#include <stdlib.h>
#include <string.h>

/* Requests for memory: so many are granted before one is refused, if `left` is not below 0; `live` are not yet given back. */
static atomic_long left = -1, live = 0;
void *__real_malloc(size_t);
void *__real_realloc(void *, size_t);
void __real_free(void *);

static int is_refused(void) {
  if (left < 0) return 0;
  if (left == 0) return 1;
  left--;
  return 0;
}

void *__wrap_malloc(size_t size) {
  if (is_refused()) return NULL;
  live++;
  return __real_malloc(size);
}

void *__wrap_realloc(void *at, size_t size) { return is_refused() ? NULL : __real_realloc(at, size); }

void __wrap_free(void *at) {
  if (at) live--;
  __real_free(at);
}

typedef struct call {
  peg_bytes command, coordinate;
  uint32_t flags;
  size_t limit, first_len, second_len;
  peg_file *first, *second;
} call;

typedef struct answer {
  int32_t said, status;
  uint8_t *output, *errors;
  size_t output_len, errors_len;
} answer;

static const uint8_t KEYS[16] = {1, 2, 3, 4, 5, 6, 7, 8, 9, 10, 11, 12, 13, 14, 15, 16};

static int read_part(peg_bytes *part) {
  if (scanf("%zu", &part->len) != 1) return 0;
  getchar();
  uint8_t *at = __real_malloc(part->len + 1);
  assert(at && fread(at, 1, part->len, stdin) == part->len);
  at[part->len] = 0;
  part->at = at;
  return 1;
}

static size_t read_number(size_t none) {
  peg_bytes part;
  assert(read_part(&part));
  size_t number = part.len ? strtoull((const char *)part.at, NULL, 10) : none;
  __real_free((void *)part.at);
  return number;
}

static peg_file *read_files(size_t count) {
  peg_file *files = __real_malloc((count + 1) * sizeof *files);
  for (size_t i = 0; i < count; i++) assert(read_part(&files[i].path) && read_part(&files[i].text));
  return files;
}

static int read_call(call *it) {
  if (!read_part(&it->command)) return 0;
  it->flags = (uint32_t)read_number(0);
  it->limit = read_number(PEG_NO_LIMIT);
  assert(read_part(&it->coordinate));
  it->first_len = read_number(0);
  it->second_len = read_number(0);
  it->first = read_files(it->first_len);
  it->second = read_files(it->second_len);
  return 1;
}

static int is(const call *it, const char *command) { return !strcmp((const char *)it->command.at, command); }

static int32_t ask(const call *it, peg_answer *to) {
  if (is(it, "schema")) return peg_schema(KEYS, 16, it->flags, it->limit, it->first, it->first_len, to);
  if (is(it, "format")) return peg_format(KEYS, 16, it->flags, it->limit, it->first, it->first_len, to);
  if (is(it, "lookup"))
    return peg_lookup(KEYS, 16, it->flags, it->limit, it->coordinate.at, it->coordinate.len, it->first, it->first_len, to);
  int32_t (*typing)(const uint8_t *, size_t, uint32_t, size_t, const peg_file *, size_t, const peg_file *, size_t, peg_answer *) =
      is(it, "check") ? peg_check : is(it, "typed") ? peg_typed : peg_fields;
  return typing(KEYS, 16, it->flags, it->limit, it->first, it->first_len, it->second, it->second_len, to);
}

/* Copies a text whole. A buffer that is one byte too short stays as it is, and so does what is behind the text. */
static uint8_t *copied(int32_t (*copies)(peg_answer *, uint8_t *, size_t, size_t *), peg_answer *from, size_t *len) {
  uint8_t none = 7;
  int32_t said = copies(from, &none, 0, len);
  assert(said == (*len ? PEG_SHORT : PEG_DONE) && none == 7);
  uint8_t *at = __real_malloc(*len + 1);
  memset(at, 7, *len + 1);
  size_t again = 0;
  if (*len) assert(copies(from, at, *len - 1, &again) == PEG_SHORT && again == *len && at[0] == 7 && at[*len - 1] == 7);
  assert(copies(from, at, *len + 1, &again) == PEG_DONE && again == *len && at[*len] == 7);
  return at;
}

static answer answer_of(const call *it) {
  peg_answer from = PEG_CLOSED;
  answer made = {0};
  made.said = ask(it, &from);
  made.status = peg_status(&from);
  made.output = copied(peg_output, &from, &made.output_len);
  made.errors = copied(peg_errors, &from, &made.errors_len);
  peg_close(&from);
  return made;
}

typedef struct work {
  const call *calls;
  answer *answers;
  size_t count;
} work;

static void *run(void *data) {
  work *it = data;
  for (size_t i = 0; i < it->count; i++) it->answers[i] = answer_of(&it->calls[i]);
  return NULL;
}

static void write_part(const void *at, size_t len) {
  printf("%zu\n", len);
  fwrite(at, 1, len, stdout);
}

static void write_number(int32_t number) {
  char digits[16];
  write_part(digits, (size_t)snprintf(digits, sizeof digits, "%d", (int)number));
}

static void write_answers(const work *it) {
  for (size_t i = 0; i < it->count; i++) {
    write_number(it->answers[i].said);
    write_number(it->answers[i].status);
    write_part(it->answers[i].output, it->answers[i].output_len);
    write_part(it->answers[i].errors, it->answers[i].errors_len);
  }
}

/* All calls, on so many threads at once. What each thread answers is written behind what the one before it does. */
static void run_on_threads(const call *calls, size_t count, size_t threads) {
  static pthread_t ids[64];
  static work works[64];
  assert(threads <= 64);
  for (size_t i = 0; i < threads; i++) {
    works[i] = (work){calls, __real_malloc(count * sizeof(answer)), count};
    assert(!pthread_create(&ids[i], NULL, run, &works[i]));
  }
  for (size_t i = 0; i < threads; i++) {
    assert(!pthread_join(ids[i], NULL));
    write_answers(&works[i]);
  }
}

/* Each call with each of its requests for memory refused in turn: it says so, nothing is left, and the handle holds what it held. */
static void refuse_each(const call *calls, size_t count) {
  for (size_t i = 0; i < count; i++) {
    peg_answer held = PEG_CLOSED;
    assert(ask(&calls[0], &held) != PEG_EXHAUSTED);
    int32_t status = peg_status(&held), said = PEG_EXHAUSTED;
    long before = live, granted = 0;
    for (; said == PEG_EXHAUSTED; granted++) {
      left = granted;
      said = ask(&calls[i], &held);
      left = -1;
      if (said == PEG_EXHAUSTED) assert(live == before && held.is_open && peg_status(&held) == status);
    }
    assert(said == PEG_DONE || said == PEG_FAULTS);
    peg_close(&held);
    assert(live == 0);
    printf("%.*s: %ld requests refused in turn\n", (int)calls[i].command.len, (const char *)calls[i].command.at, granted - 1);
  }
}

/* Each call ten thousand times, as often as asked for: the same is live behind each. */
static void stay_level(const call *calls, size_t count, size_t times) {
  for (size_t i = 0; i < times; i++) {
    peg_answer held = PEG_CLOSED;
    int32_t said = ask(&calls[i % count], &held);
    assert(said == PEG_DONE || said == PEG_FAULTS);
    peg_close(&held);
    assert(live == 0);
  }
  printf("%zu answers opened and closed\n", times);
}

/* Calls that may not be made so, and handles that are closed. */
static void misuse(void) {
  static const uint8_t TEXT[] = "type Query { a: Int }", PATH[] = "a.graphql", BROKEN[] = "\xff";
  peg_file file = {{PATH, sizeof PATH - 1}, {TEXT, sizeof TEXT - 1}}, nameless = {{BROKEN, 1}, {TEXT, sizeof TEXT - 1}};
  peg_answer held = PEG_CLOSED;
  uint8_t buffer[8] = {7, 7, 7, 7, 7, 7, 7, 7};
  size_t needed = 9;
  assert(sizeof held == 16 && sizeof file == 32);
  assert(peg_status(&held) == PEG_MISUSE);
  assert(peg_output(&held, buffer, 8, &needed) == PEG_MISUSE && needed == 0 && buffer[0] == 7);
  needed = 9;
  assert(peg_errors(&held, buffer, 8, &needed) == PEG_MISUSE && needed == 0 && buffer[7] == 7);
  peg_close(&held);
  assert(peg_schema(KEYS, 15, 0, PEG_NO_LIMIT, &file, 1, &held) == PEG_MISUSE && !held.is_open);
  assert(peg_schema(KEYS, 16, PEG_JSON | PEG_GITHUB, PEG_NO_LIMIT, &file, 1, &held) == PEG_MISUSE);
  assert(peg_schema(KEYS, 16, PEG_CHECK, PEG_NO_LIMIT, &file, 1, &held) == PEG_MISUSE);
  assert(peg_schema(KEYS, 16, 32, PEG_NO_LIMIT, &file, 1, &held) == PEG_MISUSE);
  assert(peg_schema(KEYS, 16, 0, PEG_NO_LIMIT, &nameless, 1, &held) == PEG_MISUSE && !held.is_open);
  assert(peg_check(KEYS, 16, PEG_ADOPT, PEG_NO_LIMIT, &file, 1, &file, 1, &held) == PEG_MISUSE);
  assert(peg_lookup(KEYS, 16, 0, PEG_NO_LIMIT, BROKEN, 1, &file, 1, &held) == PEG_MISUSE && !held.is_open);
  assert(peg_schema(KEYS, 16, 0, PEG_NO_LIMIT, &file, 1, &held) == PEG_DONE && peg_status(&held) == 0);
  assert(peg_schema(KEYS, 16, 32, PEG_NO_LIMIT, &file, 1, &held) == PEG_MISUSE && peg_status(&held) == 0);
  assert(peg_lookup(KEYS, 16, 0, PEG_NO_LIMIT, PATH, 1, &file, 1, &held) == PEG_FAULTS && peg_status(&held) == 1);
  peg_close(&held);
  peg_close(&held);
  assert(peg_status(&held) == PEG_MISUSE);
  assert(peg_version(buffer, 4, &needed) == PEG_SHORT && needed == 5 && buffer[0] == 7);
  assert(peg_version(buffer, 8, &needed) == PEG_DONE && needed == 5 && !memcmp(buffer, "0.1.0\7", 6));
  assert(live == 0);
  puts("misused");
}

int main(int argc, char **argv) {
  static call calls[1000];
  size_t count = 0;
  assert(argc == 3);
  size_t number = strtoull(argv[2], NULL, 10);
  while (count < 1000 && read_call(&calls[count])) count++;
  if (!strcmp(argv[1], "--threads")) run_on_threads(calls, count, number);
  else if (!strcmp(argv[1], "--refuse")) refuse_each(calls, count);
  else if (!strcmp(argv[1], "--level")) stay_level(calls, count, number);
  else if (!strcmp(argv[1], "--misuse")) misuse();
  else return 2;
  return 0;
}
