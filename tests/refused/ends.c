/* A preload for tests. What comes from standard input and goes to standard output does so as the
 * environment says: READ_STEP and WRITE_STEP are how many bytes at most a call takes (0: it takes none),
 * READ_ROOM and WRITE_ROOM after how many bytes in all it fails, and READ_INTERRUPTIONS and
 * WRITE_INTERRUPTIONS how many calls are interrupted first. What is not said is not changed.
 *
 * It names what it needs of the C library itself, since the toolchain has no headers. */
typedef unsigned long size;

extern char *getenv(const char *name);
extern long strtol(const char *text, char **end, int base);
extern long syscall(long number, ...);
extern int *__errno_location(void);

static const int INTERRUPTED = 4;
static const int INPUT_OUTPUT = 5;
static const long READ = 0;
static const long WRITE = 1;

struct end {
  int descriptor;
  int is_known;
  const char *names[3];
  /* How many bytes a call takes, how many go in all, and how many calls are interrupted; none: -1. */
  long left[3];
};

static struct end input = {0, 0, {"READ_STEP", "READ_ROOM", "READ_INTERRUPTIONS"}, {-1, -1, -1}};
static struct end output = {1, 0, {"WRITE_STEP", "WRITE_ROOM", "WRITE_INTERRUPTIONS"}, {-1, -1, -1}};

static void look_up(struct end *end) {
  if (end->is_known) return;
  end->is_known = 1;
  for (int i = 0; i < 3; i++) {
    const char *text = getenv(end->names[i]);
    if (text) end->left[i] = strtol(text, 0, 10);
  }
}

static long fail(int number) {
  *__errno_location() = number;
  return -1;
}

static long least(long a, long b) { return b < 0 || a < b ? a : b; }

/* What comes of so many bytes at an end, by that call of the system. */
static long pass(struct end *end, long number, void *bytes, size count) {
  look_up(end);
  if (end->left[2] > 0) {
    end->left[2]--;
    return fail(INTERRUPTED);
  }
  if (count > 0 && end->left[1] == 0) return fail(INPUT_OUTPUT);
  long wanted = least(least((long)count, end->left[0]), end->left[1]);
  if (wanted == 0) return 0;
  long passed = syscall(number, (long)end->descriptor, bytes, wanted);
  if (end->left[1] > 0 && passed > 0) end->left[1] -= passed;
  return passed;
}

long read(int descriptor, void *bytes, size count) {
  if (descriptor != 0) return syscall(READ, (long)descriptor, bytes, count);
  return pass(&input, READ, bytes, count);
}

long write(int descriptor, const void *bytes, size count) {
  if (descriptor != 1) return syscall(WRITE, (long)descriptor, bytes, count);
  return pass(&output, WRITE, (void *)bytes, count);
}
