//===- OneFunction.h - One function as a module of its own ----------------===//

#ifndef TV_LLVM_ONEFUNCTION_H
#define TV_LLVM_ONEFUNCTION_H

#include "llvm/IR/Module.h"
#include <memory>
#include <optional>
#include <string>

namespace tv {

/// A copy of a function.
struct Alone {
  std::unique_ptr<llvm::Module> Module;
  llvm::Function *Function = nullptr;
};

/// A copy of a function in a new module of the same context, with the data
/// layout and declarations of what it names. Debug information is left out:
/// tv ignores it. The module that the function is of stays as it was. There is
/// no copy where the function names a block of another one.
std::optional<Alone> cloneAlone(const llvm::Function &F);

/// A function's name as LLVM prints it, with `@`.
std::string nameOf(const llvm::Function &F);

/// The text of a module.
std::string textOf(const llvm::Module &M);

/// A function as it is printed, with the data layout.
std::string printed(const llvm::Function &F);

} // namespace tv

#endif
