/* Node's module over the C library, by N-API. A call runs on a thread of Node's, on which its answer is opened, read and closed; what
 * it is given is copied first. index.js is what callers see. */
#include <node_api.h>
#include <peglinden.h>
#include <stdlib.h>
#include <string.h>

/* Each of the files that a call is given, in one block of memory with what they hold. */
typedef struct list {
  peg_file *files;
  uint32_t len;
} list;

typedef enum command { SCHEMA, CHECK, TYPED, FIELDS, LOOKUP, FORMAT } command;

typedef struct text {
  uint8_t *at;
  size_t len;
} text;

/* A call, and what comes of it. */
typedef struct call {
  napi_async_work work;
  napi_deferred promise;
  uint32_t command, flags;
  size_t limit;
  text keys, coordinate;
  list first, second;
  int32_t said, status;
  text output, errors;
} call;

static void free_call(call *it) {
  free(it->keys.at), free(it->coordinate.at), free(it->first.files), free(it->second.files);
  free(it->output.at), free(it->errors.at), free(it);
}

static napi_value fail(napi_env env, const char *code, const char *why) {
  bool pending = false;
  if (napi_is_exception_pending(env, &pending) == napi_ok && !pending) napi_throw_error(env, code, why);
  return NULL;
}

/* A copy of the bytes of a buffer. */
static bool copy_bytes(napi_env env, napi_value from, text *to) {
  void *at;
  if (napi_get_buffer_info(env, from, &at, &to->len) != napi_ok) return false;
  if (!(to->at = malloc(to->len + 1))) return false;
  if (to->len) memcpy(to->at, at, to->len);
  return true;
}

static bool buffer_at(napi_env env, napi_value array, uint32_t index, void **at, size_t *len) {
  napi_value element;
  return napi_get_element(env, array, index, &element) == napi_ok &&
         napi_get_buffer_info(env, element, at, len) == napi_ok;
}

/* A copy of an array of buffers, in which the path and the text of each file follow one another. */
static bool copy_files(napi_env env, napi_value array, list *to) {
  uint32_t count;
  size_t room = sizeof(peg_file), len;
  void *at;
  if (napi_get_array_length(env, array, &count) != napi_ok || count % 2) return false;
  for (uint32_t i = 0; i < count; i++) {
    if (!buffer_at(env, array, i, &at, &len)) return false;
    room += len + sizeof(peg_file);
  }
  if (!(to->files = malloc(room))) return false;
  to->len = count / 2;
  uint8_t *rest = (uint8_t *)(to->files + to->len + 1);
  for (uint32_t i = 0; i < count; i++) {
    if (!buffer_at(env, array, i, &at, &len)) return false;
    if (len) memcpy(rest, at, len);
    *(i % 2 ? &to->files[i / 2].text : &to->files[i / 2].path) = (peg_bytes){rest, len};
    rest += len;
  }
  return true;
}

typedef int32_t (*copying)(peg_answer *, uint8_t *, size_t, size_t *);

/* What such a call copies, in memory of its own. */
static bool read_text(copying copies, peg_answer *answer, text *to) {
  uint8_t none;
  copies(answer, &none, 0, &to->len);
  return (to->at = malloc(to->len + 1)) && copies(answer, to->at, to->len, &to->len) == PEG_DONE;
}

static int32_t ask(call *it, peg_answer *answer) {
  const uint8_t *keys = it->keys.at;
  const peg_file *first = it->first.files, *second = it->second.files;
  size_t keys_len = it->keys.len, first_len = it->first.len, second_len = it->second.len;
  switch ((command)it->command) {
    case SCHEMA: return peg_schema(keys, keys_len, it->flags, it->limit, first, first_len, answer);
    case CHECK:
      return peg_check(keys, keys_len, it->flags, it->limit, first, first_len, second, second_len, answer);
    case TYPED:
      return peg_typed(keys, keys_len, it->flags, it->limit, first, first_len, second, second_len, answer);
    case FIELDS:
      return peg_fields(keys, keys_len, it->flags, it->limit, first, first_len, second, second_len, answer);
    case LOOKUP:
      return peg_lookup(keys, keys_len, it->flags, it->limit, it->coordinate.at, it->coordinate.len, first,
                        first_len, answer);
    case FORMAT: return peg_format(keys, keys_len, it->flags, it->limit, first, first_len, answer);
  }
  return PEG_MISUSE;
}

/* On a thread of Node's. */
static void execute(napi_env env, void *data) {
  (void)env;
  call *it = data;
  peg_answer answer = PEG_CLOSED;
  it->said = ask(it, &answer);
  if (it->said == PEG_DONE || it->said == PEG_FAULTS) {
    it->status = peg_status(&answer);
    if (!read_text(peg_output, &answer, &it->output) || !read_text(peg_errors, &answer, &it->errors))
      it->said = PEG_EXHAUSTED;
  }
  peg_close(&answer);
}

static bool set_text(napi_env env, napi_value object, const char *name, text *from) {
  napi_value value;
  return napi_create_string_utf8(env, (const char *)from->at, from->len, &value) == napi_ok &&
         napi_set_named_property(env, object, name, value) == napi_ok;
}

static bool made_answer(napi_env env, call *it, napi_value *object) {
  napi_value status;
  return napi_create_object(env, object) == napi_ok &&
         napi_create_int32(env, it->status, &status) == napi_ok &&
         napi_set_named_property(env, *object, "status", status) == napi_ok &&
         set_text(env, *object, "output", &it->output) && set_text(env, *object, "errors", &it->errors);
}

static napi_value made_error(napi_env env, call *it) {
  bool misused = it->said == PEG_MISUSE;
  const char *why = misused ? "two forms of reports are asked for, or a path isn't UTF-8" : "out of memory";
  napi_value code, message, error = NULL;
  napi_create_string_utf8(env, misused ? "PEG_MISUSE" : "PEG_EXHAUSTED", NAPI_AUTO_LENGTH, &code);
  napi_create_string_utf8(env, why, NAPI_AUTO_LENGTH, &message);
  napi_create_error(env, code, message, &error);
  return error;
}

/* On Node's own thread again. */
static void complete(napi_env env, napi_status ended, void *data) {
  call *it = data;
  napi_value object;
  bool opened = ended == napi_ok && (it->said == PEG_DONE || it->said == PEG_FAULTS);
  if (opened && made_answer(env, it, &object)) napi_resolve_deferred(env, it->promise, object);
  else napi_reject_deferred(env, it->promise, made_error(env, it));
  napi_delete_async_work(env, it->work);
  free_call(it);
}

/* ask(command, keys, flags, limit, coordinate, first, second): a promise of an answer. */
static bool read_call(napi_env env, napi_callback_info info, call *it) {
  napi_value words[7];
  size_t count = 7;
  int64_t limit;
  if (napi_get_cb_info(env, info, &count, words, NULL, NULL) != napi_ok || count != 7) return false;
  if (napi_get_value_uint32(env, words[0], &it->command) != napi_ok) return false;
  if (napi_get_value_uint32(env, words[2], &it->flags) != napi_ok) return false;
  if (napi_get_value_int64(env, words[3], &limit) != napi_ok) return false;
  it->limit = limit < 0 ? PEG_NO_LIMIT : (size_t)limit;
  return copy_bytes(env, words[1], &it->keys) && copy_bytes(env, words[4], &it->coordinate) &&
         copy_files(env, words[5], &it->first) && copy_files(env, words[6], &it->second);
}

static napi_value ask_later(napi_env env, napi_callback_info info) {
  napi_value name, promise;
  call *it = calloc(1, sizeof *it);
  if (!it) return fail(env, "PEG_EXHAUSTED", "out of memory");
  if (!read_call(env, info, it)) {
    free_call(it);
    return fail(env, "PEG_MISUSE", "not what is wanted, or out of memory");
  }
  if (napi_create_string_utf8(env, "peglinden", NAPI_AUTO_LENGTH, &name) != napi_ok ||
      napi_create_async_work(env, NULL, name, execute, complete, it, &it->work) != napi_ok) {
    free_call(it);
    return fail(env, "PEG_EXHAUSTED", "out of memory");
  }
  if (napi_create_promise(env, &it->promise, &promise) != napi_ok || napi_queue_async_work(env, it->work) != napi_ok) {
    napi_delete_async_work(env, it->work);
    free_call(it);
    return fail(env, "PEG_EXHAUSTED", "out of memory");
  }
  return promise;
}

static napi_value version(napi_env env, napi_callback_info info) {
  (void)info;
  uint8_t buffer[32];
  size_t needed;
  napi_value made;
  if (peg_version(buffer, sizeof buffer, &needed) != PEG_DONE) return fail(env, "PEG_MISUSE", "no version");
  return napi_create_string_utf8(env, (const char *)buffer, needed, &made) == napi_ok ? made : NULL;
}

NAPI_MODULE_INIT() {
  napi_value function;
  if (napi_create_function(env, "ask", NAPI_AUTO_LENGTH, ask_later, NULL, &function) != napi_ok ||
      napi_set_named_property(env, exports, "ask", function) != napi_ok ||
      napi_create_function(env, "version", NAPI_AUTO_LENGTH, version, NULL, &function) != napi_ok ||
      napi_set_named_property(env, exports, "version", function) != napi_ok)
    return NULL;
  return exports;
}
