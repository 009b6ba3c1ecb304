//===- Checker.h - Has a pair of functions judged -------------------------===//
//
// What is asked of a pair, and with which bounds, is the same for both
// checkers; how tv is asked is theirs: one starts the program for each
// question, the other calls the library.
//
//===----------------------------------------------------------------------===//

#ifndef TV_LLVM_CHECKER_H
#define TV_LLVM_CHECKER_H

#include "Bounds.h"
#include "llvm/ADT/ArrayRef.h"
#include "llvm/ADT/StringRef.h"
#include "llvm/Support/Error.h"
#include <chrono>
#include <memory>
#include <optional>
#include <string>
#include <vector>

namespace tv {

/// Bounds and budgets of `tv check`, by their names without `--`.
using Limits = std::vector<std::pair<llvm::StringRef, uint64_t>>;

/// A function at one time, as it is given to tv.
struct Side {
  /// A module with this function alone.
  std::string Text;
  /// The function as LLVM prints its name, with `@`.
  std::string Name;
  /// What it asks of the bounds.
  Needs Memory;
};

/// A row: what tv says of a pair.
struct Answer {
  /// `correct`, `incorrect`, `unknown`, `refused`, `signature`, or one of ours:
  /// `vacuous`, `failed`.
  std::string Kind;
  /// What follows the kind, e.g. `time`, or side, reason and position; of a
  /// correct row that rests on no bound `no bound`.
  std::string Detail;
  /// The lines of a counterexample, without the two spaces before them.
  std::vector<std::string> Lines;
  /// What is at the position of a refusal.
  std::string What;
  /// Of a correct row the bounds that it rests on, of others those that are not
  /// tv's own; and the budgets with which tv was asked again and decided it.
  Limits Bounds;
  double Seconds = 0;
};

class Checker {
public:
  /// `Arguments` are more arguments for `tv check`; bounds and budgets among
  /// them win over those that are chosen for a pair. A question is given up
  /// after `Seconds`.
  Checker(std::vector<std::string> Arguments, double Seconds)
      : Arguments(std::move(Arguments)), Seconds(Seconds) {}
  virtual ~Checker() = default;

  /// Judges one function before and after a pass.
  Answer check(const Side &Source, const Side &Target);

protected:
  /// Asks tv of one pair, with these limits beside those of the arguments, for
  /// as many seconds.
  virtual Answer ask(const Side &Source, const Side &Target, const Limits &More,
                     double Seconds) = 0;

  const std::vector<std::string> Arguments;

private:
  using Clock = std::chrono::steady_clock;

  std::optional<uint64_t> given(llvm::StringRef Name) const;
  Limits boundsOf(const Side &Source, const Side &Target) const;
  Limits restedOn(const Side &Source, const Side &Target,
                  const Limits &Asked) const;
  Limits unusual(const Limits &Asked) const;
  Answer askedAgain(Answer Row, const Side &Source, const Side &Target,
                    Limits &Asked, Clock::time_point Begun);
  Answer reached(Answer Row, const Side &Source, const Limits &Asked);

  const double Seconds;
};

/// The checker that starts the program for each question, so that neither its
/// time nor its memory is the compiler's. A question is ended after `Seconds`,
/// counted from where it was asked first.
std::unique_ptr<Checker>
createProcessChecker(std::string Program, std::vector<std::string> Arguments,
                     double Seconds);

/// The checker that calls tv's library, without a limit of time. An error where
/// the plugin was built without it, it has another version than its header, or
/// an argument is none that it takes.
llvm::Expected<std::unique_ptr<Checker>>
createLibraryChecker(std::vector<std::string> Arguments);

} // namespace tv

#endif
