/* For a build of the tool that stops just before its file is whole: tool/test waits until it has stopped, sends a signal and lets it go on. The file stands
   beside its place then, so nothing depends on how fast the machine is. tool/build compiles the tool's files with `fsync` named `held_fsync`, and this one not. */
#include <signal.h>
#include <unistd.h>

int held_fsync(int file);

int held_fsync(int file) {
  (void)raise(SIGSTOP);
  return fsync(file);
}
