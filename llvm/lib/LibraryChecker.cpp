//===- LibraryChecker.cpp - Calls tv in this process ----------------------===//
//
// The library judges on the thread that calls it, until it is done: a question
// has no limit of time here, and its memory is the compiler's.
//
//===----------------------------------------------------------------------===//

#include "Answers.h"
#include "tv.h"
#include "llvm/ADT/STLExtras.h"
#include "llvm/ADT/SmallPtrSet.h"
#include "llvm/ADT/StringExtras.h"
#include "llvm/Support/thread.h"
#include <limits>

using namespace llvm;
using tv::Answer;

//===----------------------------------------------------------------------===//
// Options
//===----------------------------------------------------------------------===//

namespace {

/// An option of `tv check` without its `--`, and where the library has it.
struct Option {
  StringLiteral Name;
  uint64_t tv_options::*Field;
};

} // namespace

static constexpr Option Known[] = {
    {"turns", &tv_options::turns},         {"blocks", &tv_options::blocks},
    {"bytes", &tv_options::bytes},         {"rounds", &tv_options::rounds},
    {"conflicts", &tv_options::conflicts}, {"weight", &tv_options::weight},
};

static const Option *knownOption(StringRef Name) {
  const Option *Found =
      find_if(Known, [&](const Option &Each) { return Each.Name == Name; });
  return Found == std::end(Known) ? nullptr : Found;
}

/// The options that arguments of `tv check` set, `--name value` or
/// `--name=value`, each at most once. Their ranges are the library's business.
static Expected<tv_options> optionsOf(ArrayRef<std::string> Words) {
  tv_options Found = TV_DEFAULT_OPTIONS;
  SmallPtrSet<const Option *, 8> Given;
  for (size_t At = 0; At < Words.size(); ++At) {
    StringRef Word = Words[At];
    auto [Name, Value] = Word.split('=');
    const Option *Set =
        Name.starts_with("--") ? knownOption(Name.drop_front(2)) : nullptr;
    if (!Set || !Given.insert(Set).second)
      return createStringError("-tv-in-process does not take '" + Word + "'" +
                               (Set ? " twice" : ""));
    if (!Word.contains('=')) {
      if (++At == Words.size())
        return createStringError("a value is missing: '" + Word + "'");
      Value = Words[At];
    }
    Value.consume_front("+");
    if (Value.getAsInteger(10, Found.*Set->Field))
      return createStringError("a wrong value: '" + Name + " " + Value + "'");
  }
  return Found;
}

//===----------------------------------------------------------------------===//
// The checker
//===----------------------------------------------------------------------===//

namespace {

class LibraryChecker : public tv::Checker {
public:
  LibraryChecker(std::vector<std::string> Arguments, const tv_options &Options)
      : Checker(std::move(Arguments), std::numeric_limits<double>::infinity()),
        Options(Options), Room(FirstRoom, '\0') {}

  /// Whether the library takes the options, and writes reports of the form
  /// that is read here.
  Error tried() {
    size_t Length = tv_version(Room.data(), Room.size());
    StringRef Version(Room.data(), std::min(Length, Room.size()));
    if (Version != TV_VERSION)
      return createStringError("the library has version " + Version +
                               ", its header " TV_VERSION);
    if (judged("", "", Options).Status == TV_BAD_OPTIONS)
      return createStringError("an option of tv check is out of its range: " +
                               join(Arguments, " "));
    return Error::success();
  }

private:
  /// A status, with the report that is in the room.
  struct Judged {
    uint32_t Status = TV_NO_MEMORY;
    StringRef Report;
  };

  // Room for all reports but those with a very long counterexample.
  static constexpr size_t FirstRoom = 65536;
  // The library wants a stack of 8 MiB; the passes have used some of ours.
  static constexpr unsigned StackBytes = 16 << 20;

  Answer ask(const tv::Side &Source, const tv::Side &Target,
             const tv::Limits &More, double) override {
    tv_options Within = Options;
    for (const auto &[Name, Number] : More)
      Within.*knownOption(Name)->Field = Number;
    Judged Found;
    thread Worker(std::optional<unsigned>(StackBytes),
                  [&] { Found = judged(Source.Text, Target.Text, Within); });
    Worker.join();
    return tv::answerOf(Found.Status, Found.Report, Source, Target);
  }

  /// Judges, and again with more room where the report is longer than it.
  Judged judged(StringRef Source, StringRef Target, const tv_options &Within) {
    while (true) {
      size_t Length = 0;
      uint32_t Status = tv_check_into(Source.data(), Source.size(),
                                      Target.data(), Target.size(), &Within,
                                      Room.data(), Room.size(), &Length);
      if (Length <= Room.size())
        return {Status, StringRef(Room.data(), Length)};
      Room.resize(Length);
    }
  }

  const tv_options Options;
  std::string Room;
};

} // namespace

Expected<std::unique_ptr<tv::Checker>>
tv::createLibraryChecker(std::vector<std::string> Arguments) {
  Expected<tv_options> Options = optionsOf(Arguments);
  if (!Options)
    return Options.takeError();
  auto Made = std::make_unique<LibraryChecker>(std::move(Arguments), *Options);
  if (Error Failure = Made->tried())
    return Failure;
  return Made;
}
