/* A preload for tests. It counts the growths of memory that a program asks for, refuses the one
 * whose number is in REFUSE_AT (from 1), and says at the end, on the descriptor whose number
 * is in REFUSE_COUNT, how many there were.
 *
 * What the C library asks for as it starts a thread is passed over: that is its own, and a thread that
 * can't be started is tried elsewhere.
 *
 * It names what it needs of the C library itself, since the toolchain has no headers. */
typedef unsigned long size;

extern char *getenv(const char *name);
extern unsigned long strtoul(const char *text, char **end, int base);
extern int dprintf(int descriptor, const char *format, ...);
extern long syscall(long number, ...);
extern void *dlsym(void *handle, const char *name);
extern void *__libc_malloc(size count);
extern void *__libc_calloc(size count, size each);
extern void *__libc_realloc(void *old, size count);
extern void *__libc_memalign(size align, size count);

static const int WANT_OF_MEMORY = 12;
static const long EXIT_GROUP = 231;
static void *const NEXT = (void *)-1L;

static unsigned long growths;
static unsigned long refused_growth;
static int is_ready;
static __thread int is_starting;

static unsigned long number_in(const char *name) {
  const char *text = getenv(name);
  return text ? strtoul(text, 0, 10) : 0;
}

static int is_refused(void) {
  if (is_starting) return 0;
  if (!is_ready) {
    is_ready = 1;
    refused_growth = number_in("REFUSE_AT");
  }
  return __sync_add_and_fetch(&growths, 1) == refused_growth;
}

void *malloc(size count) { return is_refused() ? 0 : __libc_malloc(count); }

void *calloc(size count, size each) { return is_refused() ? 0 : __libc_calloc(count, each); }

void *realloc(void *old, size count) { return is_refused() ? 0 : __libc_realloc(old, count); }

void *aligned_alloc(size align, size count) {
  return is_refused() ? 0 : __libc_memalign(align, count);
}

int posix_memalign(void **out, size align, size count) {
  if (is_refused()) return WANT_OF_MEMORY;
  *out = __libc_memalign(align, count);
  return *out ? 0 : WANT_OF_MEMORY;
}

int pthread_create(void *thread, const void *attributes, void *(*start)(void *), void *argument) {
  int (*create)(void *, const void *, void *(*)(void *), void *) = dlsym(NEXT, "pthread_create");
  is_starting = 1;
  int answer = create(thread, attributes, start, argument);
  is_starting = 0;
  return answer;
}

static void say_how_many(void) {
  int descriptor = (int)number_in("REFUSE_COUNT");
  if (descriptor) dprintf(descriptor, "%lu\n", growths);
}

/* A program that starts threads ends by this call, so it is the last that is seen of it. */
void _exit(int status) {
  say_how_many();
  syscall(EXIT_GROUP, status);
  __builtin_unreachable();
}
