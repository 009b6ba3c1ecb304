//===- Answers.h - Reads what tv wrote ------------------------------------===//

#ifndef TV_LLVM_ANSWERS_H
#define TV_LLVM_ANSWERS_H

#include "Checker.h"
#include "llvm/ADT/Twine.h"

namespace tv {

/// A row with a kind and what follows it.
Answer row(llvm::StringRef Kind, const llvm::Twine &Detail = "");

/// The row of what `tv check` answers of two modules with one function each:
/// its status, and what it wrote.
Answer answerOf(int Status, llvm::StringRef Output, const Side &Source,
                const Side &Target);

} // namespace tv

#endif
