/* Runs a program and counts the system calls of all its threads: FILE gets 512 numbers of 8 bytes, in the machine's order, of
   which the one at a call's number says how often it was begun. They are there at any moment. It ends as the program does, and
   the program ends with it.

   Usage: count FILE PROGRAM ARGUMENT.. */
#define _GNU_SOURCE
#include <errno.h>
#include <fcntl.h>
#include <signal.h>
#include <stdint.h>
#include <stdio.h>
#include <stdlib.h>
#include <sys/mman.h>
#include <sys/ptrace.h>
#include <sys/types.h>
#include <sys/wait.h>
#include <unistd.h>

#define CALLS 512

static void fail(const char *what) {
  perror(what);
  exit(125);
}

static void begin(char **words) {
  if (ptrace(PTRACE_TRACEME, 0, 0, 0)) fail("count: trace");
  raise(SIGSTOP);
  execv(words[0], words);
  fail("count: program");
}

/* Counts the call that a stopped thread begins, if it begins one. */
static void count(uint64_t *counts, pid_t thread) {
  struct __ptrace_syscall_info found;
  if (ptrace(PTRACE_GET_SYSCALL_INFO, thread, sizeof found, &found) <= 0) return;
  if (found.op == PTRACE_SYSCALL_INFO_ENTRY && found.entry.nr < CALLS) counts[found.entry.nr]++;
}

static void end(int status) {
  if (WIFEXITED(status)) exit(WEXITSTATUS(status));
  signal(WTERMSIG(status), SIG_DFL);
  raise(WTERMSIG(status));
  exit(125);
}

int main(int given, char **words) {
  if (given < 3) return 125;
  int file = open(words[1], O_RDWR | O_CREAT | O_CLOEXEC, 0644);
  if (file < 0 || ftruncate(file, CALLS * 8)) fail(words[1]);
  uint64_t *counts = mmap(NULL, CALLS * 8, PROT_READ | PROT_WRITE, MAP_SHARED, file, 0);
  if (counts == MAP_FAILED) fail(words[1]);
  pid_t program = fork();
  if (program < 0) fail("count: fork");
  if (program == 0) begin(words + 2);
  int status;
  if (waitpid(program, &status, 0) != program || !WIFSTOPPED(status)) fail("count: trace");
  long options = PTRACE_O_TRACESYSGOOD | PTRACE_O_TRACECLONE | PTRACE_O_TRACEEXEC | PTRACE_O_EXITKILL;
  if (ptrace(PTRACE_SETOPTIONS, program, 0, options) || ptrace(PTRACE_SYSCALL, program, 0, 0)) fail("count: trace");
  for (;;) {
    pid_t thread = waitpid(-1, &status, __WALL);
    if (thread < 0) fail("count: wait");
    if (!WIFSTOPPED(status)) {
      if (thread == program) end(status);
      continue;
    }
    int why = WSTOPSIG(status);
    if (why == (SIGTRAP | 0x80)) count(counts, thread);
    /* (a thread begins with a stop) */
    int passed = why == (SIGTRAP | 0x80) || why == SIGTRAP || why == SIGSTOP ? 0 : why;
    if (ptrace(PTRACE_SYSCALL, thread, 0, passed) && errno != ESRCH) fail("count: trace");
  }
}
