// Writes to the descriptor 9, where that is open, how many bytes each read at a place gave, a line for each. The read of
// the number READ, counted from 1, fails, gives nothing, or gives one byte, as HOW has it: fail, end or one.
extern char *getenv(const char *);
extern int dprintf(int, const char *, ...);
extern int *__errno_location(void);
extern long syscall(long, ...);

static long count;

static long number(const char *digits) {
  long n = 0;
  for (; digits && *digits; digits++)
    n = n * 10 + (*digits - '0');
  return n;
}

long pread64(int file, void *room, unsigned long size, long at) {
  const char *how = ++count == number(getenv("READ")) ? getenv("HOW") : 0;
  if (how && *how == 'f') {
    *__errno_location() = 5;
    return -1;
  }
  if (how && *how == 'e')
    size = 0;
  if (how && *how == 'o')
    size = 1;
  long got = syscall(17, file, room, size, at);
  dprintf(9, "%ld\n", got);
  return got;
}

long pread(int file, void *room, unsigned long size, long at) { return pread64(file, room, size, at); }
