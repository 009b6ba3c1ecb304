//===- Print.h - A module's print, and where its functions are ------------===//

#ifndef TV_LLVM_PRINT_H
#define TV_LLVM_PRINT_H

#include "llvm/IR/Module.h"
#include <string>
#include <utility>
#include <vector>

namespace tv {

/// A function with a body in a print.
struct PrintedFunction {
  const llvm::Function *Function = nullptr;
  /// As it is printed, without @ but with quotes where it needs them.
  std::string Name;
  /// The line of `define`, from 1, and the number of lines to the last brace.
  unsigned FirstLine = 0;
  unsigned Lines = 0;
  /// The attributes that the plugin writes, such as tv-rules.
  std::vector<std::pair<std::string, std::string>> Notes;
};

/// What `opt -S` prints of a module.
struct Printed {
  std::string Text;
  std::vector<PrintedFunction> Functions;

  /// The text without the module's name and that of its source.
  llvm::StringRef body() const;
};

Printed print(const llvm::Module &M);

} // namespace tv

#endif
