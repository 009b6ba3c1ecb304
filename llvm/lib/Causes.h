//===- Causes.h - All that keeps tv from reading a function ---------------===//
//
// tv names the first thing that it doesn't read. This finds all of them, for
// counting what would bring how much (bench/reach.py). It follows what is said
// in docs/LANGUAGE.md, and judges nothing.
//
//===----------------------------------------------------------------------===//

#ifndef TV_LLVM_CAUSES_H
#define TV_LLVM_CAUSES_H

#include "llvm/IR/PassManager.h"
#include <set>
#include <string>

namespace tv {

/// The causes for which tv refuses a function, as words: `direct-call`,
/// `float`, `!tbaa`, `llvm.trap`, ..; none where tv reads it.
std::set<std::string> causesOf(const llvm::Function &F);

/// The pass tv-causes: notes the causes of a function in its attribute
/// "tv-causes", with blanks between them.
class CausesPass : public llvm::PassInfoMixin<CausesPass> {
public:
  llvm::PreservedAnalyses run(llvm::Function &F,
                              llvm::FunctionAnalysisManager &);
  static bool isRequired() { return true; }
};

} // namespace tv

#endif
