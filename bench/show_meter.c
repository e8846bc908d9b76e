/* show_meter FILE PROGRAM WORDS..: runs a program with a file as its standard input, and drops the output. It prints the microseconds of
   processor time (user and system) and the largest resident set in KiB. It is a small program, since a process begins with the
   resident set of the one that started it. */
#include <fcntl.h>
#include <stdio.h>
#include <sys/resource.h>
#include <sys/wait.h>
#include <unistd.h>

int main(int argc, char **argv)
{
  if (argc < 3) {
    fprintf(stderr, "usage: %s FILE PROGRAM WORDS..\n", argv[0]);
    return 2;
  }
  pid_t child = fork();
  if (child == 0) {
    int in = open(argv[1], O_RDONLY), out = open("/dev/null", O_WRONLY);
    if (in < 0 || out < 0 || dup2(in, 0) < 0 || dup2(out, 1) < 0) _exit(127);
    execv(argv[2], argv + 2);
    _exit(127);
  }
  int status;
  struct rusage used;
  if (child < 0 || wait4(child, &status, 0, &used) < 0) return 1;
  if (status) {
    fprintf(stderr, "%s ended with status %d\n", argv[2], status);
    return 1;
  }
  long long micros = (used.ru_utime.tv_sec + used.ru_stime.tv_sec) * 1000000LL + used.ru_utime.tv_usec + used.ru_stime.tv_usec;
  printf("%lld %ld\n", micros, used.ru_maxrss);
  return 0;
}
