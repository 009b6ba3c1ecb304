//===- Process.cpp - A child process with a limit of time -----------------===//
//
// LLVM's sys::ExecuteAndWait also has a limit of time, but it writes to files
// alone, ends one process and not its children, and sets an alarm of the whole
// compiler.
//
//===----------------------------------------------------------------------===//

#include "Process.h"
#include "llvm/ADT/ScopeExit.h"
#include "llvm/ADT/SmallVector.h"
#include <chrono>
#include <csignal>
#include <cstring>
#include <fcntl.h>
#include <poll.h>
#include <spawn.h>
#include <sys/resource.h>
#include <sys/wait.h>
#include <unistd.h>

using namespace llvm;
using Clock = std::chrono::steady_clock;

extern char **environ;

static Error errorOf(const Twine &What, int Number) {
  return createStringError(What + ": " + std::strerror(Number));
}

/// Ends a child by its own limit, should the compiler be ended before it: it
/// is in another process group, and gets no interrupt of the terminal.
static void limitProcessorTime(pid_t Child, double Seconds) {
#ifdef __linux__
  rlimit Limit;
  Limit.rlim_cur = Limit.rlim_max = static_cast<rlim_t>(Seconds) + 2;
  prlimit(Child, RLIMIT_CPU, &Limit, nullptr);
#endif
}

/// Starts a program in a process group of its own, with its standard output
/// at `Output`.
static Expected<pid_t> start(ArrayRef<std::string> Command, int Output,
                             double Seconds) {
  posix_spawn_file_actions_t Files;
  posix_spawnattr_t Attributes;
  posix_spawn_file_actions_init(&Files);
  posix_spawnattr_init(&Attributes);
  auto Free = make_scope_exit([&] {
    posix_spawn_file_actions_destroy(&Files);
    posix_spawnattr_destroy(&Attributes);
  });
  posix_spawn_file_actions_addopen(&Files, 0, "/dev/null", O_RDONLY, 0);
  posix_spawn_file_actions_adddup2(&Files, Output, 1);
  posix_spawn_file_actions_addopen(&Files, 2, "/dev/null", O_WRONLY, 0);
  posix_spawnattr_setflags(&Attributes, POSIX_SPAWN_SETPGROUP);
  posix_spawnattr_setpgroup(&Attributes, 0);
  SmallVector<char *, 16> Words;
  for (const std::string &Word : Command)
    Words.push_back(const_cast<char *>(Word.c_str()));
  Words.push_back(nullptr);
  pid_t Child;
  if (int Failed = posix_spawn(&Child, Words[0], &Files, &Attributes,
                               Words.data(), environ))
    return errorOf(Command[0], Failed);
  limitProcessorTime(Child, Seconds);
  return Child;
}

/// Reads to the end of `Input`; false where the deadline came first.
static bool readAll(int Input, Clock::time_point Deadline, std::string &Text) {
  char Buffer[4096];
  while (true) {
    auto Left = std::chrono::duration_cast<std::chrono::milliseconds>(
        Deadline - Clock::now());
    if (Left.count() <= 0)
      return false;
    pollfd Ready = {Input, POLLIN, 0};
    int Count = poll(&Ready, 1, static_cast<int>(Left.count()) + 1);
    if (Count < 0 && errno != EINTR)
      return true;
    if (Count <= 0)
      continue;
    ssize_t Size = read(Input, Buffer, sizeof Buffer);
    if (Size < 0 && errno == EINTR)
      continue;
    if (Size <= 0)
      return true;
    Text.append(Buffer, static_cast<size_t>(Size));
  }
}

Expected<tv::Done> tv::runProcess(ArrayRef<std::string> Command,
                                  double Seconds) {
  int Pipe[2];
  if (pipe2(Pipe, O_CLOEXEC) != 0)
    return errorOf("pipe", errno);
  // A day is as good as no limit, and fits poll's number.
  double Limit = std::min(Seconds, 86400.0);
  Expected<pid_t> Child = start(Command, Pipe[1], Limit);
  close(Pipe[1]);
  auto Close = make_scope_exit([&] { close(Pipe[0]); });
  if (!Child)
    return Child.takeError();
  auto Deadline = Clock::now() + std::chrono::duration_cast<Clock::duration>(
                                     std::chrono::duration<double>(Limit));
  Done Answer;
  bool IsWhole = readAll(Pipe[0], Deadline, Answer.Output);
  if (!IsWhole)
    kill(-*Child, SIGKILL);
  int State = 0;
  pid_t Ended;
  while ((Ended = waitpid(*Child, &State, 0)) < 0 && errno == EINTR)
    ;
  if (!IsWhole)
    return Answer;
  if (Ended != *Child)
    return errorOf("waitpid", errno);
  Answer.Status = WIFEXITED(State) ? WEXITSTATUS(State) : 128 + WTERMSIG(State);
  return Answer;
}
