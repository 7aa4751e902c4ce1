// jerasure over gf-complete as a rival in bench/cauchy: words of 16 bits, document 01's polynomial, the original Cauchy matrix.
#include <jerasure.h>
#include <jerasure/cauchy.h>
#include <stdint.h>
#include <stdio.h>
#include <stdlib.h>

enum { WORD_BITS = 16, POLYNOMIAL = 0x1002D, MOST_BLOCKS = 1056 };

static void stop(const char *why) {
  fprintf(stderr, "rival: %s\n", why);
  exit(1);
}

// Products by split tables, `bits` of a word at a time.
void rival_field(int bits) {
  gf_t *field = galois_init_field(WORD_BITS, GF_MULT_SPLIT_TABLE, GF_REGION_DEFAULT, GF_DIVIDE_DEFAULT, POLYNOMIAL, WORD_BITS, bits);
  if (field == NULL) stop("no such field");
  galois_change_technique(field, WORD_BITS);
}

static int *matrix_for(int n, int m) {
  static int *matrix;
  static int for_n, for_m;
  if (n != for_n || m != for_m) {
    free(matrix);
    matrix = cauchy_original_coding_matrix(n, m, WORD_BITS);
    if (matrix == NULL) stop("no matrix");
    for_n = n;
    for_m = m;
  }
  return matrix;
}

static void point(char **blocks, const uint8_t *bytes, int count, int s) {
  for (int i = 0; i < count; i++) blocks[i] = (char *)bytes + (size_t)i * s;
}

void rival_encode(int n, int m, int s, const uint8_t *data, uint8_t *out) {
  char *blocks[MOST_BLOCKS], *recovery[MOST_BLOCKS];
  point(blocks, data, n, s);
  point(recovery, out, m, s);
  jerasure_matrix_encode(n, m, WORD_BITS, matrix_for(n, m), blocks, recovery, s);
}

void rival_rebuild(int n, int m, int s, uint8_t *store, int gone) {
  char *blocks[MOST_BLOCKS], *recovery[MOST_BLOCKS];
  int erased[MOST_BLOCKS];
  for (int i = 0; i < gone; i++) erased[i] = i;
  erased[gone] = -1;
  point(blocks, store, n, s);
  point(recovery, store + (size_t)n * s, m, s);
  if (jerasure_matrix_decode(n, m, WORD_BITS, matrix_for(n, m), 0, erased, blocks, recovery, s) != 0) stop("not rebuilt");
}
