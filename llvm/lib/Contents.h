//===- Contents.h - What functions and variables reach --------------------===//

#ifndef TV_LLVM_CONTENTS_H
#define TV_LLVM_CONTENTS_H

#include "llvm/IR/Function.h"
#include "llvm/IR/GlobalVariable.h"
#include "llvm/IR/Metadata.h"

namespace tv {

/// Hashes of a function with all that it reaches.
struct Hashes {
  /// Of the function as it is printed. LLVM's StructuralHash leaves flags,
  /// alignments and metadata out, so a pass that changes only these would be
  /// missed.
  uint64_t Text = 0;
  /// Of what its text only names: the data layout, attributes, metadata nodes
  /// however deep, functions, and variables with their initial values and what
  /// these name. Debug information is left out.
  uint64_t Reached = 0;

  bool operator==(const Hashes &Other) const {
    return Text == Other.Text && Reached == Other.Reached;
  }
};

Hashes hashesOf(const llvm::Function &F);

/// A hash of the type of a variable, of its initial value and of those of the
/// variables that this one names. Names of struct types don't count.
uint64_t valueHash(const llvm::GlobalVariable &G);

/// A hash of a metadata node and all nodes that it reaches; 0 where one of them
/// is distinct, so that another one with the same contents is not the same.
uint64_t nodeHash(const llvm::MDNode &Node);

} // namespace tv

#endif
