//===- Report.cpp - What is said of each pair -----------------------------===//

#include "Report.h"
#include "llvm/ADT/StringExtras.h"
#include "llvm/Support/FileSystem.h"
#include "llvm/Support/JSON.h"
#include "llvm/Support/raw_ostream.h"

using namespace llvm;

// tv's kinds in the order of its last line, then ours.
static constexpr StringLiteral TvKinds[] = {"correct", "incorrect", "unknown",
                                            "refused", "signature"};
static constexpr StringLiteral OwnKinds[] = {"vacuous", "failed", "marked",
                                             "alarm"};

/// The promise that makes a row of this kind doubtful, or none.
static ArrayRef<std::string> doubts(StringRef Kind, const tv::Written &How) {
  if (Kind == "correct")
    return How.Hides;
  if (Kind == "incorrect")
    return How.Alarms;
  return {};
}

static StringRef markOf(StringRef Kind) {
  return Kind == "correct" ? "fault may hide" : "false alarm possible";
}

StringRef tv::countedKind(const Answer &Row, const Written &How) {
  if (doubts(Row.Kind, How).empty())
    return Row.Kind;
  return Row.Kind == "correct" ? "marked" : "alarm";
}

static std::string boundsOf(const tv::Limits &Bounds) {
  std::string Text;
  for (const auto &[Name, Number] : Bounds)
    Text += (Text.empty() ? "" : " ") + Name.str() + " " + utostr(Number);
  return Text.empty() ? Text : " [" + Text + "]";
}

void tv::Report::print(const Place &At, const Answer &Row, const Written &How) {
  raw_ostream &OS = errs();
  OS << "tv: " << At.Pass << " @" << At.Function << ' ' << Row.Kind;
  if (!Row.Detail.empty())
    OS << ' ' << Row.Detail;
  if (!Row.What.empty())
    OS << ' ' << Row.What;
  OS << boundsOf(Row.Bounds);
  if (!How.Rules.empty())
    OS << " by " << join(How.Rules, ", ");
  ArrayRef<std::string> Doubts = doubts(Row.Kind, How);
  if (!Doubts.empty())
    OS << "; " << markOf(Row.Kind) << ": " << join(Doubts, ", ");
  OS << '\n';
  for (const std::string &Line : Row.Lines)
    OS << "  " << Line << '\n';
}

static json::Object objectOf(const tv::Place &At, const tv::Answer &Row,
                             const tv::Written &How) {
  json::Object Bounds;
  for (const auto &[Name, Number] : Row.Bounds)
    Bounds[Name] = Number;
  ArrayRef<std::string> Doubts = doubts(Row.Kind, How);
  json::Object Object{{"file", json::fixUTF8(At.Module)},
                      {"pass", At.Pass},
                      {"function", json::fixUTF8(At.Function)},
                      {"kind", countedKind(Row, How)},
                      {"detail", json::fixUTF8(Row.Detail)},
                      {"what", json::fixUTF8(Row.What)},
                      {"bounds", std::move(Bounds)},
                      {"seconds", Row.Seconds},
                      {"rules", json::Array(How.Rules)},
                      {"mark", Doubts.empty() ? "" : markOf(Row.Kind)},
                      {"marked_by", json::Array(Doubts)},
                      {"counterexample", json::Array(Row.Lines)}};
  return Object;
}

/// Appends a line in one write, so that compilers that run at the same time
/// may share a report.
Error tv::Report::append(StringRef Line) const {
  if (Opts.ReportFile.empty())
    return Error::success();
  std::error_code Code;
  raw_fd_ostream File(Opts.ReportFile, Code, sys::fs::OF_Append);
  if (!Code) {
    File.SetBufferSize(Line.size() + 1);
    File << Line << '\n';
    File.close();
    Code = File.error();
    File.clear_error();
  }
  return Code ? createStringError(Opts.ReportFile + ": " + Code.message())
              : Error::success();
}

Error tv::Report::add(const Place &At, const Answer &Row, const Written &How) {
  StringRef Counted = countedKind(Row, How);
  for (ArrayRef<StringLiteral> Kinds :
       {ArrayRef<StringLiteral>(TvKinds), ArrayRef<StringLiteral>(OwnKinds)})
    for (StringLiteral Kind : Kinds)
      if (Kind == Counted)
        ++Counts[Kind];
  Module = At.Module;
  ++Rows;
  if (Counted != "correct" || !Opts.Quiet)
    print(At, Row, How);
  std::string Line;
  raw_string_ostream(Line) << json::Value(objectOf(At, Row, How));
  return append(Line);
}

Error tv::Report::finish() {
  if (!Rows)
    return Error::success();
  raw_ostream &OS = errs();
  OS << "tv:";
  for (StringRef Kind : TvKinds)
    OS << ' ' << Kind << ' ' << Counts.lookup(Kind);
  for (StringRef Kind : OwnKinds)
    if (unsigned Count = Counts.lookup(Kind))
      OS << ' ' << Kind << ' ' << Count;
  OS << '\n';
  std::string Line;
  raw_string_ostream(Line) << json::Value(json::Object{
      {"file", json::fixUTF8(Module)}, {"kind", "end"}, {"rows", Rows}});
  return append(Line);
}
