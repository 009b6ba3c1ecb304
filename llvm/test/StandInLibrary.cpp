//===- StandInLibrary.cpp - A stand-in for libtv_c.a, for the tests -------===//
//
// NOT the library: nothing of it is proved, and it judges nothing itself. It
// implements tv.h by starting the program of the variable TV on two files, so
// that the plugin's -tv-in-process can be tested where `rt lib` has not built
// crates/tv_c. Two things let a test see more of the plugin: the variable
// STAND_IN_LOG names a file to which each call appends a line, with its options
// and its room; and a text that is empty is not judged.
//
//===----------------------------------------------------------------------===//

#include "tv.h"
#include <algorithm>
#include <cstdio>
#include <cstdlib>
#include <fstream>
#include <sstream>
#include <string>
#include <sys/wait.h>
#include <unistd.h>

static bool isInRange(const tv_options &O) {
  return O.turns <= 64 && O.blocks <= 4 && O.bytes <= 32 && O.rounds <= 4096 &&
         O.conflicts <= INT64_MAX && O.weight >= 1 && O.weight <= 10000000;
}

static std::string wordsOf(const tv_options &O) {
  std::ostringstream Words;
  Words << "--turns " << O.turns << " --blocks " << O.blocks << " --bytes "
        << O.bytes << " --rounds " << O.rounds << " --conflicts " << O.conflicts
        << " --weight " << O.weight;
  return Words.str();
}

/// What a command writes, and its exit status.
static int statusOf(const std::string &Command, std::string &Output) {
  FILE *Pipe = popen(Command.c_str(), "r");
  if (!Pipe)
    return TV_NO_MEMORY;
  char Buffer[4096];
  while (size_t Size = fread(Buffer, 1, sizeof Buffer, Pipe))
    Output.append(Buffer, Size);
  int State = pclose(Pipe);
  return WIFEXITED(State) ? WEXITSTATUS(State) : int(TV_NO_MEMORY);
}

/// Puts the library's names of both texts in the place of the files'.
static void renameTexts(std::string &Report, const std::string &Folder) {
  for (auto [Name, Text] :
       {std::pair("/source", "source"), std::pair("/target", "target")})
    for (size_t At; (At = Report.find(Folder + Name)) != std::string::npos;)
      Report.replace(At, (Folder + Name).size(), Text);
}

/// Judges two texts by the program of TV.
static uint32_t judged(const std::string &Source, const std::string &Target,
                       const tv_options &Options, std::string &Report) {
  char Folder[] = P_tmpdir "/stand-in-XXXXXX";
  const char *Program = getenv("TV");
  if (!Program || !mkdtemp(Folder))
    return TV_NO_MEMORY;
  std::string From = std::string(Folder) + "/source",
              To = std::string(Folder) + "/target";
  std::ofstream(From) << Source;
  std::ofstream(To) << Target;
  int Status = statusOf("'" + std::string(Program) + "' check --workers 1 " +
                            wordsOf(Options) + " " + From + " " + To,
                        Report);
  renameTexts(Report, Folder);
  unlink(From.c_str());
  unlink(To.c_str());
  rmdir(Folder);
  return static_cast<uint32_t>(Status);
}

extern "C" uint32_t tv_check_into(const char *source, size_t source_length,
                                  const char *target, size_t target_length,
                                  const tv_options *options, char *report,
                                  size_t report_room, size_t *report_length) {
  *report_length = 0;
  if (!isInRange(*options))
    return TV_BAD_OPTIONS;
  if (!source_length && !target_length)
    return TV_CORRECT;
  if (const char *Log = getenv("STAND_IN_LOG"))
    std::ofstream(Log, std::ios::app)
        << wordsOf(*options) << " room " << report_room << '\n';
  std::string Report;
  uint32_t Status = judged({source, source_length}, {target, target_length},
                           *options, Report);
  *report_length = Report.size();
  std::copy_n(Report.data(), std::min(Report.size(), report_room), report);
  return Status;
}

extern "C" size_t tv_version(char *version, size_t room) {
  std::copy_n(TV_VERSION, std::min(sizeof TV_VERSION - 1, room), version);
  return sizeof TV_VERSION - 1;
}
