// One code, of shape N, M, S, encoded or rebuilt with GONE data blocks missing, with no C library: what it executes is the calls
// and the little around them. WORK says what is done, so that the rest can be counted and taken off.
typedef __SIZE_TYPE__ size;
typedef unsigned char byte;
typedef unsigned short number;
typedef long long pair __attribute__((vector_size(16), aligned(1)));

enum { NOTHING, ENCODE, REBUILD, NUMBERS = 1024, EXIT = 60 };

// Four times sixteen bytes in a turn, as a C library has it at least.
void *memset(void *to, int value, size count) {
  long long eight = 0x0101010101010101 * (byte)value;
  pair filled = {eight, eight};
  size i = 0;
  for (; i + 64 <= count; i += 64) {
    pair *at = (pair *)((byte *)to + i);
    at[0] = at[1] = at[2] = at[3] = filled;
  }
  for (; i < count; i++) ((volatile byte *)to)[i] = value;
  return to;
}

void *memcpy(void *to, const void *from, size count) {
  size i = 0;
  for (; i + 64 <= count; i += 64) {
    pair *at = (pair *)((byte *)to + i);
    const pair *source = (const pair *)((const byte *)from + i);
    for (int k = 0; k < 4; k++) at[k] = source[k];
  }
  for (; i < count; i++) ((volatile byte *)to)[i] = ((const byte *)from)[i];
  return to;
}

byte cauchy_recovery(size n, size m, size s, size k, const byte *store, size store_len, byte *out, size out_len);
byte cauchy_recovery_four(size n, size m, size s, size k, const byte *front, size front_len, const byte *last, size last_len, byte *out, size out_len);
byte cauchy_rebuild_all(size n, size m, size s, const byte *store, size store_len, const byte *marks, size marks_len, byte *scratch,
                        size scratch_len, number *numbers, size numbers_len);

static byte store[(N + M) * S], marks[N + M], scratch[M * S];
static number numbers[NUMBERS];

static int encode(void) {
  int refused = 0;
#ifdef BY_FOURS
  for (size k = 0; k < M; k += 4) {
    size count = M - k < 4 ? M - k : 4;
    refused |= cauchy_recovery_four(N, M, S, k, store, (N - 1) * S, store + (N - 1) * S, S, store + (N + k) * S, count * S);
  }
#else
  for (size k = 0; k < M; k++) refused |= cauchy_recovery(N, M, S, k, store, N * S, store + (N + k) * S, S);
#endif
  return refused;
}

void run(void) {
  int refused = 0;
  for (size i = 0; i < N * S; i++) store[i] = i * 7 + i / 251;
  for (size i = 0; i < N + M; i++) marks[i] = GONE <= i;
  if (WORK == ENCODE) refused = encode();
  if (WORK == REBUILD) refused = cauchy_rebuild_all(N, M, S, store, sizeof store, marks, sizeof marks, scratch, sizeof scratch, numbers, NUMBERS);
  __asm__ volatile("syscall" ::"a"(EXIT), "D"(refused));
}

__attribute__((naked)) void _start(void) {
  __asm__ volatile("and $-16, %rsp\n call run\n");
}
