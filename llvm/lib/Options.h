//===- Options.h - What the command line and TV_PLUGIN ask for ------------===//
//
// The options are LLVM's own (cl::opt), so that `opt -help` lists them. clang
// loads a plugin after it has read its command line; there they come from the
// variable TV_PLUGIN, written as on a command line.
//
//===----------------------------------------------------------------------===//

#ifndef TV_LLVM_OPTIONS_H
#define TV_LLVM_OPTIONS_H

#include "llvm/Support/Error.h"
#include "llvm/Support/GlobPattern.h"
#include <string>
#include <vector>

namespace tv {

/// What is asked of the plugin in this process.
struct Options {
  /// Check each pass; without it the plugin only offers its own passes.
  bool Check = false;
  /// Call the library in place of starting the program.
  bool InProcess = false;
  /// Seconds after which a run of tv is ended.
  double Seconds = 10;
  /// More arguments for `tv check`, those of TV_ARGS before them.
  std::vector<std::string> Arguments;
  /// The file that JSON lines are appended to, or empty.
  std::string ReportFile;
  /// The folder where pairs that are neither correct nor the same are kept, or
  /// empty.
  std::string KeepFolder;
  /// Functions that are checked; empty is all.
  std::vector<llvm::GlobPattern> Functions;
  bool ExitOnError = false;
  bool Quiet = false;
  bool Lower = true;

  /// Whether -tv-functions names this function.
  bool isSelected(llvm::StringRef Function) const;
};

/// The options of the command line and of TV_PLUGIN; an error where one cannot
/// be understood.
llvm::Expected<Options> readOptions();

/// The path of the program tv: the option, else the variable TV, else the tree
/// that the plugin was built in, else the PATH; an error where it isn't found.
llvm::Expected<std::string> findProgram();

} // namespace tv

#endif
