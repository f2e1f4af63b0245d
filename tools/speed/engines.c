/* Times both engines on a file, in turn: engines FILE TIMES. Prints number, place, length, shapes and calls of the answer, the least processor time of each engine in
   milliseconds, and 1 if both answers and both flat files are the same, else 0. Declares what it uses of C, since the kit's compiler has no headers. */
typedef unsigned long size;
struct instant { long seconds, nanoseconds; };
extern int open(const char *, int, ...);
extern long read(int, void *, size);
extern void *malloc(size);
extern void *calloc(size, size);
extern int memcmp(const void *, const void *, size);
extern int printf(const char *, ...);
extern int atoi(const char *);
extern int clock_gettime(int, struct instant *);
struct cif_record { unsigned long place, symbol, at, end, layer, turn; long tx, ty; };
extern void cif_flatten(const unsigned char *text, size length, int *words, size words_length, unsigned char *room, size room_length, unsigned long answer[64]);
extern void cif_flatten_stacked(const unsigned char *text, size length, int *words, size words_length, unsigned char *room, size room_length,
                                struct cif_record *records, size records_length, unsigned long answer[64]);

enum { MOST = 1 << 24, RECORDS = 32, WORDS = 64 };

static struct cif_record records[RECORDS];

/* Processor time, and the least, because other work on the machine then counts little. */
static double milliseconds(void) { struct instant t; clock_gettime(2, &t); return t.seconds * 1e3 + t.nanoseconds * 1e-6; }

int main(int count, char **words) {
  unsigned char *text = malloc(MOST + 1), *room[2] = {calloc(MOST, 1), calloc(MOST, 1)};
  unsigned long answer[2][WORDS];
  double least[2] = {1e12, 1e12};
  long n = 0;
  int file = open(words[1], 0), times = atoi(words[2]);
  for (long k; (k = read(file, text + n, (size)(MOST + 1 - n))) > 0;) n += k;
  int *lent = calloc((size)n + 1, sizeof *lent);
  for (int i = 0; i < 2 * times; i++) {
    int stacked = i % 2;
    double start = milliseconds();
    if (stacked)
      cif_flatten_stacked(text, (size)n, lent, (size)n, room[1], MOST, records, RECORDS, answer[1]);
    else
      cif_flatten(text, (size)n, lent, (size)n, room[0], MOST, answer[0]);
    double took = milliseconds() - start;
    if (took < least[stacked]) least[stacked] = took;
  }
  int same = memcmp(answer[0], answer[1], sizeof answer[0]) == 0 && memcmp(room[0], room[1], MOST) == 0;
  printf("%lu\t%lu\t%lu\t%lu\t%lu\t%.2f\t%.2f\t%d\n", answer[0][0], answer[0][1], answer[0][2], answer[0][3], answer[0][4], least[0], least[1], same);
  return count > 9;
}
