#include "state.h"

#include <fcntl.h>
#include <stdio.h>
#include <string.h>
#include <sys/wait.h>
#include <unistd.h>

#include "seats.h"
#include "signals.h"
#include "steps.h"

static struct inventory inventories[PROCESSES + 1];

static void print_set(signal_set set) {
  const char *before = "";
  for (int signal = 1; signal < SIGNALS; signal++) {
    if (!(set & SIGNAL(signal))) continue;
    printf("%s%d", before, signal);
    before = ",";
  }
  puts(set ? "" : "-");
}

static void print_set_line(const char *word, signal_set set) {
  if (!set) return;
  printf("%s ", word);
  print_set(set);
}

static void print_slots(const char *before, const struct registers *registers) {
  bool is_any = false;
  for (int slot = 0; slot < SLOTS; slot++) is_any |= registers->slots[slot] != 0;
  if (!is_any) return;
  printf("%s", before);
  for (int slot = 0; slot < SLOTS; slot++) printf(" %ld", registers->slots[slot]);
  puts("");
}

static void print_ids(const unsigned *ids) {
  static const unsigned NONE[6];
  if (memcmp(ids, NONE, sizeof NONE) == 0) return;
  printf("ids %u %u %u %u %u %u\n", ids[0], ids[1], ids[2], ids[3], ids[4], ids[5]);
}

static void print_pages(const struct page *pages) {
  for (int number = 0; number < PAGES; number++) {
    if (!pages[number].is_mapped) continue;
    printf("page %d %s", number, pages[number].is_writable ? "rw" : "r");
    for (int at = 0; at < PAGE_BYTES; at++)
      if (pages[number].bytes[at]) printf(" %d=%02x", at, pages[number].bytes[at]);
    puts("");
  }
}

static void print_signals(const struct inventory *found, bool kill_waits) {
  print_set_line("mask", found->mask);
  for (int signal = 1; signal < SIGNALS; signal++) {
    const struct action *action = &found->actions[signal];
    if (action->kind == IGNORE) printf("action %d ignore\n", signal);
    if (action->kind != CATCH) continue;
    printf("action %d catch ", signal);
    print_set(action->mask);
  }
  print_set_line("pending", found->pending | (kill_waits ? SIGNAL(SIGKILL) : 0));
  for (int at = 0; at < found->queued; at++)
    printf("queued %d:%ld\n", found->queue[at].signal, found->queue[at].value);
  for (int depth = 0; depth < found->depth; depth++) {
    printf("frame %ld ", found->frames[depth].registers.ret);
    print_set(found->frames[depth].mask);
    print_slots("of frame", &found->frames[depth].registers);
  }
}

static void print_running(int number) {
  struct inventory *found = &inventories[number];
  memset(found, 0, sizeof *found);
  if (ask(number, &(struct order){.call = INVENTORY}, found, sizeof *found) != REPLIED)
    give_up("a process has ended at the end");
  printf("proc %d parent %d run ret %ld\n", number, found->parent, found->registers.ret);
  print_ids(found->ids);
  print_slots("slots", &found->registers);
  print_pages(found->pages);
  for (int descriptor = 0; descriptor < DESCRIPTORS; descriptor++)
    if (found->descriptors[descriptor].is_open)
      printf("fd %d %d\n", descriptor, found->descriptors[descriptor].description);
  print_signals(found, seats[number].kill_waits);
}

static void read_file(const char *name, int number, char *text, size_t room) {
  char path[64];
  snprintf(path, sizeof path, "/proc/%d/%s", seats[number].pid, name);
  int file = open(path, O_RDONLY);
  ssize_t count = file < 0 ? -1 : read(file, text, room - 1);
  if (count < 0) give_up("a process that has ended is not shown");
  text[count] = 0;
  close(file);
}

static int number_of_pid(pid_t pid) {
  for (int number = 1; number <= PROCESSES; number++)
    if (seats[number].pid == pid) return number;
  return -1;
}

/* A process that has ended and was not waited for: the host still shows what is left of it. */
static void print_ended(int number) {
  char text[4096];
  unsigned ids[6] = {0};
  int parent = 0, status = 0;
  char run = '?';
  read_file("stat", number, text, sizeof text);
  sscanf(strrchr(text, ')'), ") %c %d", &run, &parent);
  sscanf(strrchr(text, ' '), "%d", &status);
  printf("proc %d parent %d", number, number_of_pid(parent));
  if (run != 'Z') printf(" in state %c", run);
  if (WIFSIGNALED(status))
    printf(" killed %d\n", own_signal(WTERMSIG(status)));
  else
    printf(" exit %d\n", WEXITSTATUS(status));
  read_file("status", number, text, sizeof text);
  sscanf(strstr(text, "\nUid:"), "\nUid: %u %u %u", &ids[0], &ids[1], &ids[2]);
  sscanf(strstr(text, "\nGid:"), "\nGid: %u %u %u", &ids[3], &ids[4], &ids[5]);
  print_ids(ids);
}

static int pipe_of(ino_t inode) {
  for (int number = 0; number < PIPES; number++)
    if (pipes[number] == inode) return number;
  return -1;
}

/* Takes the bytes out of a pipe, by way of a descriptor that names a side of it. */
static void print_pipe(int number, int descriptor, ino_t inode) {
  unsigned char bytes[4096];
  char path[64];
  snprintf(path, sizeof path, "/proc/%d/fd/%d", seats[number].pid, descriptor);
  int side = open(path, O_RDONLY | O_NONBLOCK);
  if (side < 0) give_up("a pipe is not shown");
  ssize_t count = read(side, bytes, sizeof bytes);
  close(side);
  printf("pipe %d %s", pipe_of(inode), count > 0 ? "" : "-");
  for (ssize_t at = 0; at < count; at++) printf("%02x", bytes[at]);
  puts("");
}

static void print_descriptor(int number, int at, ino_t *printed, int *count) {
  const struct descriptor *found = &inventories[number].descriptors[at];
  if (!found->is_open) return;
  printf("desc %d %d %s %s\n", found->description, pipe_of(found->pipe), found->writes ? "w" : "r",
         found->is_nonblocking ? "nonblock" : "block");
  for (int pipe = 0; pipe < *count; pipe++)
    if (printed[pipe] == found->pipe) return;
  printed[(*count)++] = found->pipe;
  print_pipe(number, at, found->pipe);
}

void print_state(void) {
  ino_t printed[PROCESSES * DESCRIPTORS];
  int count = 0;
  for (int number = 1; number <= PROCESSES; number++) {
    if (!seats[number].pid) continue;
    if (seats[number].has_ended)
      print_ended(number);
    else
      print_running(number);
  }
  for (int number = 1; number <= PROCESSES; number++)
    for (int at = 0; at < DESCRIPTORS; at++)
      if (seats[number].pid && !seats[number].has_ended)
        print_descriptor(number, at, printed, &count);
}
