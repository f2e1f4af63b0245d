/* Times a proved function on a file: driver FILE TIMES. CALL is its name, given where this is compiled. Prints the answer's first two words, the least processor time in milliseconds, and how many pages of memory
   the calls touched that neither reading the file nor a call on an empty text had touched (page faults). Declares what it uses of C, since the
   kit's compiler has no headers. */
typedef unsigned long size;
struct instant { long seconds, nanoseconds; };
struct usage { long before[8], faults, others[9]; };
extern int open(const char *, int, ...);
extern long read(int, void *, size);
extern long lseek(int, long, int);
extern void *malloc(size);
extern int printf(const char *, ...);
extern int atoi(const char *);
extern int clock_gettime(int, struct instant *);
extern int getrusage(int, struct usage *);

extern void CALL(const unsigned char *text, size length, unsigned long answer[64]);

static double milliseconds(void) { struct instant t; clock_gettime(2, &t); return t.seconds * 1e3 + t.nanoseconds * 1e-6; }

static long faults(void) { struct usage u; getrusage(0, &u); return u.faults; }

int main(int count, char **words) {
  int file = open(words[1], 0), times = atoi(words[2]);
  long length = lseek(file, 0, 2), n = 0;
  unsigned char *text = malloc((size)length + 1);
  lseek(file, 0, 0);
  for (long k; (k = read(file, text + n, (size)(length - n))) > 0;) n += k;
  unsigned long answer[64] = {9, 9};
  double least = 1e12;
  CALL(text, 0, answer);
  milliseconds();
  long before = faults();
  for (int i = 0; i < times; i++) {
    double start = milliseconds();
    CALL(text, (size)n, answer);
    double took = milliseconds() - start;
    if (took < least) least = took;
  }
  long after = faults();
  printf("%lu\t%lu\t%.3f\t%ld\n", answer[0], answer[1], least, after - before);
  return 0;
}
