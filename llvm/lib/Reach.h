//===- Reach.h - A function with all that it reaches ----------------------===//
//
// A function means what its own text says together with what that text names:
// declarations, global variables with their initial values, aliases, comdats,
// attributes, metadata. A Reach copies a function with all of this, and with
// nothing else, into a module of its own. Two functions are the same exactly
// where the prints of these modules are equal: what LLVM numbers, such as
// metadata and attribute groups, is numbered anew in each.
//
//===----------------------------------------------------------------------===//

#ifndef TV_LLVM_REACH_H
#define TV_LLVM_REACH_H

#include "llvm/ADT/ArrayRef.h"
#include "llvm/ADT/DenseMap.h"
#include "llvm/IR/Module.h"
#include <memory>
#include <optional>
#include <string>

namespace tv {

/// A function in a module that has all that it reaches, and no other body.
struct WithReach {
  std::unique_ptr<llvm::Module> Module;
  llvm::Function *Function = nullptr;
};

/// Copies functions of a module, each with all that it reaches. The module
/// stays as it is, and so does its context but for new nodes of metadata.
class Reach {
public:
  /// A global without a name is its number, which is another one in another
  /// module. So it's copied as one whose name is `Prefix` and the number in
  /// this module. No name in the modules that are compared may begin with the
  /// prefix: `unusedPrefix` finds one.
  Reach(const llvm::Module &M, std::string Prefix)
      : M(M), Prefix(std::move(Prefix)) {}

  /// A prefix that begins no global's name in these modules.
  static std::string unusedPrefix(llvm::ArrayRef<const llvm::Module *> Modules);

  /// The copy of a function with a body, in the same context:
  /// - data layout, target triple, inline assembly and flags of the module;
  /// - the function with its linkage, attributes, comdat, personality, prefix
  ///   and prologue, and metadata; without debug information, which tv ignores;
  /// - other functions as declarations, with their attributes and metadata;
  /// - variables with their initial values, and what these name;
  /// - aliases and ifuncs, and what these name.
  /// The source's name is left out. There is no copy where the address of a
  /// block of another function is reached, since that function would be needed
  /// with its body.
  std::optional<WithReach> copy(const llvm::Function &F);

  /// The name that a global has in a copy.
  std::string nameOf(const llvm::GlobalValue &Global);

private:
  const llvm::Module &M;
  std::string Prefix;
  llvm::DenseMap<const llvm::GlobalValue *, unsigned> Numbers;
};

} // namespace tv

#endif
