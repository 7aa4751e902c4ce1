// witness SEED: the recovery blocks that jerasure computes for some sets of data blocks that the seed gives.
#include <jerasure.h>
#include <jerasure/cauchy.h>
#include <stdint.h>
#include <stdio.h>
#include <stdlib.h>

enum { WORD_BITS = 16, POLYNOMIAL = 0x1002D, ALIGNMENT = 64 };

// How many data blocks a set has, how many for recovery, and how many bytes each block has.
typedef struct {
  int n, m, s;
} shape;

static const shape shapes[] = {
    {1, 1, 2},    {2, 1, 4},     {3, 2, 4},    {1, 32, 2},   {5, 3, 8},     {10, 4, 16},  {31, 7, 6},
    {64, 16, 10}, {100, 20, 34}, {255, 12, 64}, {512, 1, 12}, {1023, 31, 2}, {1024, 32, 4},
};

// Numbers that seem to come by chance, the same for the same seed; second/src/chance.rs has them too.
static uint64_t chance;

static char next_byte(void) {
  chance = chance * UINT64_C(6364136223846793005) + UINT64_C(1442695040888963407);
  return (char)(chance >> 33);
}

static void stop(const char *why) {
  fprintf(stderr, "witness: %s\n", why);
  exit(1);
}

static void use_polynomial(void) {
  gf_t *field = galois_init_field(WORD_BITS, GF_MULT_DEFAULT, GF_REGION_DEFAULT, GF_DIVIDE_DEFAULT, POLYNOMIAL, 0, 0);
  if (field == NULL) stop("no such field");
  galois_change_technique(field, WORD_BITS);
}

// So many blocks of s bytes; the library wants all of them aligned alike.
static char **new_blocks(int count, int s) {
  char **blocks = malloc(sizeof(char *) * count);
  if (blocks == NULL) stop("no memory");
  for (int i = 0; i < count; i++) {
    blocks[i] = aligned_alloc(ALIGNMENT, (s + ALIGNMENT - 1) / ALIGNMENT * ALIGNMENT);
    if (blocks[i] == NULL) stop("no memory");
  }
  return blocks;
}

static void free_blocks(char **blocks, int count) {
  for (int i = 0; i < count; i++) free(blocks[i]);
  free(blocks);
}

static void fill(char **blocks, int count, int s) {
  for (int i = 0; i < count; i++) {
    for (int place = 0; place < s; place++) blocks[i][place] = next_byte();
  }
}

// A line for each recovery block: the shape, which of them it is, and its bytes.
static void print_blocks(shape set, char **blocks) {
  for (int k = 0; k < set.m; k++) {
    printf("%d %d %d %d ", set.n, set.m, set.s, k);
    for (int place = 0; place < set.s; place++) printf("%02x", (unsigned char)blocks[k][place]);
    printf("\n");
  }
}

static void encode(shape set) {
  char **data = new_blocks(set.n, set.s), **recovery = new_blocks(set.m, set.s);
  fill(data, set.n, set.s);
  int *matrix = cauchy_original_coding_matrix(set.n, set.m, WORD_BITS);
  if (matrix == NULL) stop("no matrix");
  jerasure_matrix_encode(set.n, set.m, WORD_BITS, matrix, data, recovery, set.s);
  print_blocks(set, recovery);
  free(matrix);
  free_blocks(data, set.n);
  free_blocks(recovery, set.m);
}

int main(int count, char **words) {
  if (count != 2) stop("usage: witness SEED");
  chance = strtoull(words[1], NULL, 10);
  use_polynomial();
  for (size_t i = 0; i < sizeof shapes / sizeof *shapes; i++) encode(shapes[i]);
  return 0;
}
