//===- Options.cpp - What the command line and TV_PLUGIN ask for ----------===//

#include "Options.h"
#include "llvm/ADT/StringExtras.h"
#include "llvm/ADT/StringMap.h"
#include "llvm/Support/CommandLine.h"
#include "llvm/Support/FileSystem.h"
#include "llvm/Support/Program.h"
#include "llvm/Support/StringSaver.h"
#include <cstdlib>

using namespace llvm;

static cl::OptionCategory Category("tv: checks each pass");

static cl::opt<bool> CheckOpt("tv", cl::desc("Check each pass with tv"),
                              cl::cat(Category));
static cl::opt<std::string> ProgramOpt(
    "tv-program", cl::value_desc("file"), cl::cat(Category),
    cl::desc("The program tv (else the variable TV, else the PATH)"));
static cl::opt<bool>
    InProcessOpt("tv-in-process", cl::cat(Category),
                 cl::desc("Call tv's library: no process, no limit of time"));
static cl::opt<double>
    SecondsOpt("tv-seconds", cl::init(10), cl::cat(Category),
               cl::desc("Seconds after which a run of tv is ended (10)"));
static cl::opt<std::string>
    ArgumentsOpt("tv-args", cl::value_desc("arguments"), cl::cat(Category),
                 cl::desc("More arguments for tv check, e.g. \"--turns 8\""));
static cl::opt<std::string>
    ReportOpt("tv-report", cl::value_desc("file"), cl::cat(Category),
              cl::desc("Append a JSON line for each row to this file"));
static cl::opt<std::string>
    KeepOpt("tv-keep", cl::value_desc("folder"), cl::cat(Category),
            cl::desc("Keep both modules of a row that is not correct"));
static cl::list<std::string>
    FunctionsOpt("tv-functions", cl::value_desc("names"), cl::CommaSeparated,
                 cl::desc("Check only these functions (patterns: sum*)"),
                 cl::cat(Category));
static cl::opt<bool>
    ExitOpt("tv-exit-on-error", cl::cat(Category),
            cl::desc("End with status 1 at the first incorrect row"));
static cl::opt<bool> QuietOpt("tv-quiet", cl::cat(Category),
                              cl::desc("Print no rows that are correct"));
static cl::opt<bool> NoLowerOpt("tv-no-lower", cl::cat(Category),
                                cl::desc("Give functions to tv as they are"));

bool tv::Options::isSelected(StringRef Function) const {
  if (Functions.empty())
    return true;
  return any_of(Functions,
                [&](const GlobPattern &P) { return P.match(Function); });
}

/// Sets one option of TV_PLUGIN, `-name` or `-name=value`. Only our own: the
/// variable is no way around the compiler's command line.
static Error setOption(StringRef Word) {
  auto Fail = [&](const Twine &Why) {
    return createStringError("TV_PLUGIN: " + Why + " '" + Word + "'");
  };
  auto [Name, Value] = Word.ltrim('-').split('=');
  if (!Word.starts_with("-") || !(Name == "tv" || Name.starts_with("tv-")))
    return Fail("no option of tv:");
  StringMap<cl::Option *> &Known = cl::getRegisteredOptions();
  auto Found = Known.find(Name);
  if (Found == Known.end())
    return Fail("unknown option");
  cl::Option &Option = *Found->second;
  bool HasValue = Word.contains('=');
  if (!HasValue && Option.getValueExpectedFlag() == cl::ValueRequired)
    return Fail("a value is missing:");
  // A comma separates the names of a list, as on the command line.
  SmallVector<StringRef, 4> Parts{Value};
  if (Option.getMiscFlags() & cl::CommaSeparated) {
    Parts.clear();
    Value.split(Parts, ',');
  }
  for (StringRef Part : Parts)
    if (Option.addOccurrence(0, Name, Part))
      return Fail("a wrong value:");
  return Error::success();
}

/// The words of a text, cut and unquoted as a shell does.
static std::vector<std::string> wordsOf(StringRef Text) {
  BumpPtrAllocator Memory;
  StringSaver Saver(Memory);
  SmallVector<const char *, 8> Words;
  cl::TokenizeGNUCommandLine(Text, Saver, Words);
  return std::vector<std::string>(Words.begin(), Words.end());
}

static StringRef variable(const char *Name) {
  const char *Value = std::getenv(Name);
  return Value ? StringRef(Value) : StringRef();
}

Expected<std::string> tv::findProgram() {
  StringRef Chosen = ProgramOpt;
  StringRef From = "-tv-program";
  if (Chosen.empty()) {
    Chosen = variable("TV");
    From = "TV";
  }
  if (Chosen.empty()) {
    // The tree that the plugin was built in, then the PATH.
    if (sys::fs::can_execute(TV_BUILT))
      return TV_BUILT;
    if (ErrorOr<std::string> Found = sys::findProgramByName("tv"))
      return *Found;
    return createStringError(
        "tv was not found; set TV, or -tv-program, to its path");
  }
  ErrorOr<std::string> Found = sys::findProgramByName(Chosen);
  if (!Found || !sys::fs::can_execute(*Found))
    return createStringError(From + "=" + Chosen + ": no such program");
  return *Found;
}

static Error readFunctions(std::vector<GlobPattern> &Patterns) {
  for (StringRef Name : FunctionsOpt) {
    Name.consume_front("@");
    Expected<GlobPattern> Pattern = GlobPattern::create(Name);
    if (!Pattern)
      return createStringError("-tv-functions=" + Name + ": " +
                               toString(Pattern.takeError()));
    Patterns.push_back(std::move(*Pattern));
  }
  return Error::success();
}

/// Sets the options of TV_PLUGIN; what is wrong with them, or an empty text.
static std::string readVariable() {
  for (const std::string &Word : wordsOf(variable("TV_PLUGIN")))
    if (Error Failure = setOption(Word))
      return toString(std::move(Failure));
  return "";
}

Expected<tv::Options> tv::readOptions() {
  // A process compiles several modules at times (LTO): the variable is read
  // once.
  static const std::string Wrong = readVariable();
  if (!Wrong.empty())
    return createStringError(Wrong);
  Options Found;
  Found.Check = CheckOpt;
  Found.Lower = !NoLowerOpt;
  if (!Found.Check)
    return Found;
  Found.InProcess = InProcessOpt;
  if (Found.InProcess)
    for (const cl::Option *Other : {static_cast<cl::Option *>(&ProgramOpt),
                                    static_cast<cl::Option *>(&SecondsOpt)})
      if (Other->getNumOccurrences())
        return createStringError("-tv-in-process goes without -" +
                                 Other->ArgStr);
  if (!(SecondsOpt >= 0))
    return createStringError("-tv-seconds: not a number of seconds");
  Found.Seconds = SecondsOpt;
  Found.Arguments = wordsOf(variable("TV_ARGS"));
  for (std::string &Word : wordsOf(ArgumentsOpt))
    Found.Arguments.push_back(std::move(Word));
  if (Error Failure = readFunctions(Found.Functions))
    return Failure;
  Found.ReportFile = ReportOpt;
  Found.KeepFolder = KeepOpt;
  Found.ExitOnError = ExitOpt;
  Found.Quiet = QuietOpt;
  return Found;
}
