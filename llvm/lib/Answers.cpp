//===- Answers.cpp - Reads what tv wrote ----------------------------------===//

#include "Answers.h"
#include <algorithm>

using namespace llvm;
using tv::Answer;
using tv::row;

Answer tv::row(StringRef Kind, const Twine &Detail) {
  Answer Row;
  Row.Kind = Kind.str();
  Row.Detail = Detail.str();
  return Row;
}

/// The function called in a line of IR from its call on, or an empty text.
static StringRef calleeOf(StringRef Call) {
  StringRef Name = Call.substr(Call.find('@'));
  return Name.substr(0, Name.find_first_of("( ,"));
}

/// What a text has at a line and column, both from 1: the word there, and the
/// function that is called.
static std::string wordAt(StringRef Text, unsigned Line, unsigned Column) {
  for (; Line > 1 && !Text.empty(); --Line)
    Text = Text.split('\n').second;
  StringRef Rest = Text.split('\n').first.substr(Column - 1);
  StringRef Word = Rest.substr(0, Rest.find_first_of(" ,()", 1));
  if (Word == "call" || Word == "tail" || Word == "musttail" ||
      Word == "notail" || Word == "invoke")
    return ("call " + calleeOf(Rest)).str();
  return Word.str();
}

/// The bytes of a name as LLVM and tv print it, with `@`.
static std::string bytesOf(StringRef Name) {
  if (!Name.consume_front("@\"") || !Name.consume_back("\""))
    return Name.str();
  std::string Bytes;
  for (; !Name.empty(); Name = Name.drop_front()) {
    unsigned Byte;
    if (Name[0] == '\\' && !Name.substr(1, 2).getAsInteger(16, Byte) &&
        Name.size() >= 3) {
      Bytes += static_cast<char>(Byte);
      Name = Name.drop_front(2);
    } else {
      Bytes += Name[0];
    }
  }
  return "@" + Bytes;
}

/// Whether this is the first line of a report: `tv 2`, then bounds and budgets.
static bool isFirstLine(StringRef Line) {
  Line.consume_back(" first");
  SmallVector<StringRef, 16> Words;
  Line.split(Words, ' ');
  if (Words.size() != 14 || Words[0] != "tv" || Words[1] != "2")
    return false;
  for (size_t At = 2; At < Words.size(); ++At) {
    StringRef Rest =
        Words[At].ltrim(At % 2 ? "0123456789" : "abcdefghijklmnopqrstuvwxyz");
    if (Words[At].empty() || !Rest.empty())
      return false;
  }
  return true;
}

/// The last line of a report with one row of this kind.
static std::string countsOf(StringRef Only) {
  std::string Line;
  for (StringRef Kind : {"correct", "incorrect", "unknown", "refused",
                         "signature", "missing", "extra"})
    Line +=
        (Line.empty() ? "" : " ") + Kind.str() + (Kind == Only ? " 1" : " 0");
  return Line;
}

namespace {

/// Reads what `tv check` wrote of a module with one function. A report counts
/// where it is whole: its first line, one row, of the function that was asked
/// for, the counts of it, the status that it gives, and nothing else.
class ReportReader {
public:
  ReportReader(const tv::Side &Source, const tv::Side &Target)
      : Source(Source), Target(Target) {}

  Answer read(int Status, StringRef Output) const {
    if (Status == NotAModule)
      return fault(Output);
    if (Status > LastReport)
      return failed(Status, Output.split('\n').first);
    SmallVector<StringRef, 16> Lines;
    bool IsEnded = Output.consume_back("\n");
    Output.split(Lines, '\n');
    if (!IsEnded || Lines.size() < 3 || !isFirstLine(Lines.front()))
      return row("failed", "no report");
    Answer Row = rowOf(Lines[1]);
    if (Row.Kind == "failed")
      return Row;
    if (statusOf(Row.Kind) != Status)
      return failed(Status, "beside " + Row.Kind);
    if (Lines.back() != countsOf(Row.Kind))
      return row("failed", "counts: " + Lines.back());
    for (StringRef Line : ArrayRef(Lines).drop_front(2).drop_back()) {
      if (Row.Kind != "incorrect" || !Line.consume_front("  "))
        return row("failed", "one more line: " + Line);
      Row.Lines.push_back(Line.str());
    }
    return Row;
  }

private:
  // Statuses of `tv check`: up to 3 there is a report, 9 is no module.
  static constexpr int LastReport = 3;
  static constexpr int NotAModule = 9;

  static Answer failed(int Status, const Twine &Said) {
    std::string Text = Said.str();
    return row("failed",
               "status " + Twine(Status) + (Text.empty() ? "" : ": ") + Text);
  }

  static int statusOf(StringRef Kind) {
    return Kind == "correct"     ? 0
           : Kind == "incorrect" ? 1
           : Kind == "unknown"   ? 2
                                 : 3;
  }

  /// The row of a line, or one that says why it is none.
  Answer rowOf(StringRef Line) const {
    // A name in quotes may have blanks.
    size_t End = Line.starts_with("@\"") ? Line.find('"', 2) : 0;
    size_t Blank = Line.find(' ', End);
    if (bytesOf(Line.substr(0, Blank)) != bytesOf(Source.Name))
      return row("failed", "a row of another function: " + Line);
    auto [Kind, Detail] = Line.substr(Blank).drop_front().split(' ');
    Answer Row = row(Kind, Detail);
    bool IsWhole =
        Kind == "refused" ? addWord(Row)
        : Kind == "unknown"
            ? Detail == "weight" || Detail == "rounds" || Detail == "conflicts"
            : Detail.empty() && (Kind == "correct" || Kind == "incorrect" ||
                                 Kind == "signature");
    return IsWhole ? Row : row("failed", "no row: " + Line);
  }

  /// Adds what is at the position of a refusal, `SIDE REASON LINE:COLUMN`;
  /// false where it is none.
  bool addWord(Answer &Row) const {
    SmallVector<StringRef, 4> Words;
    StringRef(Row.Detail).split(Words, ' ');
    if (Words.size() != 3 || (Words[0] != "source" && Words[0] != "target"))
      return false;
    auto [Line, Column] = Words[2].split(':');
    unsigned LineNumber, ColumnNumber;
    if (Line.getAsInteger(10, LineNumber) ||
        Column.getAsInteger(10, ColumnNumber) || !LineNumber || !ColumnNumber)
      return false;
    const tv::Side &Side = Words[0] == "source" ? Source : Target;
    Row.What = wordAt(Side.Text, LineNumber, ColumnNumber);
    return true;
  }

  /// The row for `FILE:LINE:COLUMN: WHY`, as tools/tv-check has it. The
  /// library calls the texts `source` and `target`.
  Answer fault(StringRef Output) const {
    auto [Place, Why] = Output.rtrim().rsplit(": ");
    auto [Front, Column] = Place.rsplit(':');
    auto [File, Line] = Front.rsplit(':');
    bool IsSource = File.ends_with("before.ll") || File == "source";
    bool IsTarget = File.ends_with("after.ll") || File == "target";
    unsigned Number;
    if ((!IsSource && !IsTarget) || Why.empty() || Output.count('\n') > 1 ||
        Line.getAsInteger(10, Number) || Column.getAsInteger(10, Number))
      return failed(NotAModule, Output.split('\n').first);
    std::string Reason = Why.str();
    std::replace(Reason.begin(), Reason.end(), ' ', '-');
    return row("refused", Twine(IsSource ? "source " : "target ") + Reason +
                              " " + Line + ":" + Column);
  }

  const tv::Side &Source, &Target;
};

} // namespace

Answer tv::answerOf(int Status, StringRef Output, const Side &Source,
                    const Side &Target) {
  return ReportReader(Source, Target).read(Status, Output);
}
