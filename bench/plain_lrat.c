/* A plain checker of LRAT logs without RAT steps, to compare with: one flat arena, a table by id, stamps
   for the literals that are set. It trusts its texts. */
#include <stdio.h>
#include <stdlib.h>
#include <string.h>
#include <time.h>

typedef struct { size_t start, end; char is_held; } Span;

static char *at;
static int *literals;
static size_t literals_len, literals_cap;
static Span *spans;
static size_t spans_len;

static double now(void) {
  struct timespec t;
  clock_gettime(CLOCK_MONOTONIC, &t);
  return t.tv_sec * 1e3 + t.tv_nsec * 1e-6;
}

static char *load(const char *path) {
  FILE *file = fopen(path, "rb");
  if (!file) exit(2);
  fseek(file, 0, SEEK_END);
  size_t len = ftell(file);
  rewind(file);
  char *text = malloc(len + 1);
  if (fread(text, 1, len, file) != len) exit(2);
  text[len] = 0;
  fclose(file);
  return text;
}

static int ended(void) {
  while (*at == ' ' || *at == '\n' || *at == '\t' || *at == '\r') at++;
  return !*at;
}

static long number(void) {
  ended();
  int sign = 1;
  if (*at == '-') { sign = -1; at++; }
  long value = 0;
  while (*at >= '0' && *at <= '9') value = value * 10 + *at++ - '0';
  return sign * value;
}

static int code(long literal) { return literal > 0 ? 2 * literal : -2 * literal + 1; }

static void push(int literal) {
  if (literals_len == literals_cap) {
    literals_cap = literals_cap ? 2 * literals_cap : 1024;
    literals = realloc(literals, literals_cap * sizeof(int));
  }
  literals[literals_len++] = literal;
}

static void hold(size_t id, size_t start) {
  if (id >= spans_len) {
    size_t old = spans_len;
    spans_len = 2 * id + 2;
    spans = realloc(spans, spans_len * sizeof(Span));
    memset(spans + old, 0, (spans_len - old) * sizeof(Span));
  }
  spans[id] = (Span){start, literals_len, 1};
}

/* 0 no unit and no conflict, -1 conflict, else the literal that is set. */
static int effect(unsigned *stamps, unsigned epoch, Span span) {
  int unit = -1;
  for (size_t k = span.start; k < span.end; k++) {
    int literal = literals[k];
    if (stamps[literal ^ 1] == epoch) continue;
    if (stamps[literal] == epoch || (unit > 0 && unit != literal)) return 0;
    unit = literal;
  }
  return unit;
}

static int refused(const char *why, long id) {
  printf("%s at id %ld\n", why, id);
  return 1;
}

int main(int count, char **words) {
  if (count != 3) return 2;
  char *cnf = load(words[1]), *log = load(words[2]);
  double start = now();
  at = strstr(cnf, "cnf") + 3;
  long variables = number(), clauses = number(), word;
  unsigned *stamps = calloc(2 * variables + 2, sizeof(unsigned)), epoch = 0;
  for (long id = 1; id <= clauses; id++) {
    size_t first = literals_len;
    while ((word = number())) push(code(word));
    hold(id, first);
  }
  int is_refuted = 0;
  at = log;
  while (!ended()) {
    long id = number();
    ended();
    if (*at == 'd') {
      at++;
      while ((word = number())) spans[word].is_held = 0;
      continue;
    }
    epoch++;
    size_t first = literals_len;
    while ((word = number())) {
      push(code(word));
      stamps[code(word) ^ 1] = epoch;
    }
    int is_accepted = 0;
    while ((word = number())) {
      if (is_accepted) continue;
      if ((size_t)word >= spans_len || !spans[word].is_held) return refused("C1", id);
      int unit = effect(stamps, epoch, spans[word]);
      if (unit == 0) return refused("C2", id);
      if (unit < 0) is_accepted = 1; else stamps[unit] = epoch;
    }
    if (!is_accepted) return refused("C3", id);
    hold(id, first);
    if (first == literals_len) is_refuted = 1;
  }
  printf("verdict: %srefuted, %.0f ms\n", is_refuted ? "" : "not ", now() - start);
  return !is_refuted;
}
