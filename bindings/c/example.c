/* Reports the faults of a document over a schema:  example SCHEMA DOCUMENT */
#include <peglinden.h>
#include <stdio.h>
#include <stdlib.h>
#include <string.h>
#include <sys/random.h>

static peg_file file_of(const char *path) {
  FILE *from = fopen(path, "rb");
  size_t room = 1 << 20, len = 0;
  uint8_t *text = malloc(room);
  if (!from || !text) { perror(path); exit(2); }
  for (size_t got; (got = fread(text + len, 1, room - len, from)) > 0;) {
    len += got;
    if (len == room && !(text = realloc(text, room *= 2))) { perror(path); exit(3); }
  }
  fclose(from);
  return (peg_file){{(const uint8_t *)path, strlen(path)}, {text, len}};
}

int main(int argc, char **argv) {
  if (argc != 3) { fputs("usage: example SCHEMA DOCUMENT\n", stderr); return 2; }
  peg_file schema = file_of(argv[1]), document = file_of(argv[2]);
  uint8_t keys[16], none;
  if (getrandom(keys, sizeof keys, 0) != sizeof keys) { perror("getrandom"); return 3; }

  peg_answer answer = PEG_CLOSED;
  int32_t said = peg_check(keys, sizeof keys, 0, PEG_NO_LIMIT, &schema, 1, &document, 1, &answer);
  if (said != PEG_DONE && said != PEG_FAULTS) { fprintf(stderr, "peg_check answers %d\n", (int)said); return 3; }

  size_t needed;
  peg_errors(&answer, &none, 0, &needed);
  uint8_t *report = malloc(needed ? needed : 1);
  if (!report) { perror("malloc"); return 3; }
  peg_errors(&answer, report, needed, &needed);
  fwrite(report, 1, needed, stdout);

  int status = peg_status(&answer);
  peg_close(&answer);
  free(report), free((void *)schema.text.at), free((void *)document.text.at);
  return status;
}
