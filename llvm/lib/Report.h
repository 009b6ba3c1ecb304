//===- Report.h - What is said of each pair -------------------------------===//

#ifndef TV_LLVM_REPORT_H
#define TV_LLVM_REPORT_H

#include "Checker.h"
#include "Options.h"
#include "llvm/ADT/MapVector.h"

namespace tv {

/// Where a row is from.
struct Place {
  std::string Module;
  std::string Pass;
  std::string Function;
};

/// By which rules the functions of a pair were written out, and which of these
/// leave something out.
struct Written {
  std::vector<std::string> Rules;
  /// Promises that the source has and that tv isn't told: `incorrect` may be a
  /// false alarm.
  std::vector<std::string> Alarms;
  /// Promises that the target has and that tv isn't told: `correct` may hide a
  /// fault.
  std::vector<std::string> Hides;
};

/// The kind by which a row is counted: `marked` is a `correct` that may hide a
/// fault, `alarm` an `incorrect` that may be a false alarm.
llvm::StringRef countedKind(const Answer &Row, const Written &How);

/// The report of one compilation: lines on standard error, and JSON lines in a
/// file.
class Report {
public:
  explicit Report(const Options &Opts) : Opts(Opts) {}

  /// Adds a row. An error where the report's file can't be written.
  llvm::Error add(const Place &At, const Answer &Row, const Written &How);

  /// Ends the report: the counts, where there are rows.
  llvm::Error finish();

private:
  void print(const Place &At, const Answer &Row, const Written &How);
  llvm::Error append(llvm::StringRef Line) const;

  const Options &Opts;
  llvm::MapVector<llvm::StringRef, unsigned> Counts;
  std::string Module;
  unsigned Rows = 0;
};

} // namespace tv

#endif
