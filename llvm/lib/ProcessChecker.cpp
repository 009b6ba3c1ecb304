//===- ProcessChecker.cpp - Starts tv for each question -------------------===//

#include "Answers.h"
#include "Process.h"
#include "llvm/ADT/SmallString.h"
#include "llvm/ADT/StringExtras.h"
#include "llvm/Support/FileSystem.h"
#include "llvm/Support/Path.h"
#include "llvm/Support/Signals.h"
#include "llvm/Support/raw_ostream.h"

using namespace llvm;
using tv::Answer;
using tv::row;

static Answer failed(Error Failure) {
  return row("failed", toString(std::move(Failure)));
}

namespace {

/// A folder with two files, made when it is first needed. One for all questions
/// of a compilation: LLVM's list of files to remove on a signal only grows.
class PairFiles {
public:
  SmallString<128> Before, After;

  Error write(StringRef Source, StringRef Target) {
    if (Error Failure = make())
      return Failure;
    if (Error Failure = writeTo(Before, Source))
      return Failure;
    return writeTo(After, Target);
  }

  ~PairFiles() {
    if (!Folder.empty())
      sys::fs::remove_directories(Folder);
  }

private:
  Error make() {
    if (!Folder.empty())
      return Error::success();
    if (std::error_code Code = sys::fs::createUniqueDirectory("tv", Folder)) {
      Folder.clear();
      return errorCodeToError(Code);
    }
    Before = After = Folder;
    sys::path::append(Before, "before.ll");
    sys::path::append(After, "after.ll");
    sys::RemoveFileOnSignal(Before);
    sys::RemoveFileOnSignal(After);
    return Error::success();
  }

  static Error writeTo(StringRef Path, StringRef Text) {
    std::error_code Code;
    raw_fd_ostream File(Path, Code);
    if (!Code) {
      File << Text;
      File.close();
      Code = File.error();
      File.clear_error();
    }
    return Code ? createStringError(Path + ": " + Code.message())
                : Error::success();
  }

  SmallString<128> Folder;
};

class ProcessChecker : public tv::Checker {
public:
  ProcessChecker(std::string Program, std::vector<std::string> Arguments,
                 double Seconds)
      : Checker(std::move(Arguments), Seconds), Program(std::move(Program)) {}

private:
  Answer ask(const tv::Side &Source, const tv::Side &Target,
             const tv::Limits &More, double Seconds) override {
    if (Error Failure = Files.write(Source.Text, Target.Text))
      return failed(std::move(Failure));
    Expected<tv::Done> Done = tv::runProcess(command(More), Seconds);
    if (!Done)
      return failed(Done.takeError());
    if (!Done->Status)
      return row("unknown", "time");
    return tv::answerOf(*Done->Status, Done->Output, Source, Target);
  }

  std::vector<std::string> command(const tv::Limits &More) const {
    // One thread judges one pair.
    std::vector<std::string> Words = {Program, "check", "--workers", "1"};
    for (const auto &[Name, Number] : More)
      Words.insert(Words.end(), {("--" + Name).str(), utostr(Number)});
    Words.insert(Words.end(), Arguments.begin(), Arguments.end());
    Words.insert(Words.end(),
                 {Files.Before.str().str(), Files.After.str().str()});
    return Words;
  }

  const std::string Program;
  PairFiles Files;
};

} // namespace

std::unique_ptr<tv::Checker>
tv::createProcessChecker(std::string Program,
                         std::vector<std::string> Arguments, double Seconds) {
  return std::make_unique<ProcessChecker>(std::move(Program),
                                          std::move(Arguments), Seconds);
}
