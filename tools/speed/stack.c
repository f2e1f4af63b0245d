/* How much of the machine's stack a file takes: stack FILE ENGINE, where ENGINE is `calls` for cif_flatten, and `records` for cif_flatten_stacked with 32 of
   them. Paints a part of the stack below its own frame, calls, and looks how far down the paint is gone. Declares what it uses of C, since the kit's compiler
   has no headers. */
typedef unsigned long size;
extern int open(const char *, int, ...);
extern long read(int, void *, size);
extern void *malloc(size);
extern void *calloc(size, size);
extern int printf(const char *, ...);
struct cif_record { unsigned long place, symbol, at, end, layer, turn; long tx, ty; };
extern void cif_flatten(const unsigned char *text, size length, int *words, size words_length, unsigned char *room, size room_length, unsigned long answer[64]);
extern void cif_flatten_stacked(const unsigned char *text, size length, int *words, size words_length, unsigned char *room, size room_length,
                                struct cif_record *records, size records_length, unsigned long answer[64]);

enum { PART = 1 << 20, PAINT = 0xA5, RECORDS = 32 };

__attribute__((noinline)) static void paint(void) {
  volatile unsigned char part[PART];
  for (long i = 0; i < PART; i++) part[i] = PAINT;
}

__attribute__((noinline)) static long gone(void) {
  volatile unsigned char part[PART];
  long i = 0;
  while (i < PART && part[i] == PAINT) i++;
  return PART - i;
}

int main(int count, char **words) {
  unsigned char *text = malloc(1 << 24), *room = malloc(1 << 24);
  long n = 0;
  int file = open(words[1], 0);
  for (long k; (k = read(file, text + n, (size)((1 << 24) - n))) > 0;) n += k;
  int *lent = calloc((size)n + 1, sizeof *lent);
  static struct cif_record records[RECORDS];
  unsigned long answer[64];
  paint();
  if (words[2][0] == 'r')
    cif_flatten_stacked(text, (size)n, lent, (size)n, room, 1 << 24, records, RECORDS, answer);
  else
    cif_flatten(text, (size)n, lent, (size)n, room, 1 << 24, answer);
  printf("%lu\t%lu\t%lu\t%ld\n", answer[0], answer[1], answer[4], gone());
  return count > 9;
}
