//===- Process.h - A child process with a limit of time -------------------===//

#ifndef TV_LLVM_PROCESS_H
#define TV_LLVM_PROCESS_H

#include "llvm/ADT/ArrayRef.h"
#include "llvm/Support/Error.h"
#include <optional>
#include <string>

namespace tv {

/// What a child process answered.
struct Done {
  /// Its exit status; none where it was ended at its limit of time.
  std::optional<int> Status;
  /// What it wrote to standard output.
  std::string Output;
};

/// Runs a program to its end, or ends it, and what it started, after
/// `Seconds`. Its standard input is empty. A program that a signal ended has
/// the status 128 and the signal's number. An error where it could not be
/// started.
llvm::Expected<Done> runProcess(llvm::ArrayRef<std::string> Command,
                                double Seconds);

} // namespace tv

#endif
