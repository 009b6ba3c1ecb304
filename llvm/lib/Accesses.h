//===- Accesses.h - Where a function accesses memory ----------------------===//
//
// What cannot be said to tv of an access is compared between the two sides of a
// pair: each access has a word that says what is alike in both, and a word
// counts once more where every path to a return has such an access.
//
//===----------------------------------------------------------------------===//

#ifndef TV_LLVM_ACCESSES_H
#define TV_LLVM_ACCESSES_H

#include "llvm/ADT/DenseMap.h"
#include "llvm/ADT/SetVector.h"
#include "llvm/ADT/SmallPtrSet.h"
#include "llvm/IR/Instructions.h"
#include <map>
#include <optional>
#include <set>
#include <string>
#include <vector>

namespace tv {

/// What is stored to a variable, where that is one value and nothing else is
/// done with the variable than to load and store it; else null.
const llvm::Value *storedOnce(const llvm::Value *Variable);

/// The values that a pointer may be based on: what is behind getelementptr,
/// select, phi and freeze, and behind a variable that is stored once.
llvm::SmallSetVector<const llvm::Value *, 8>
basesOf(const llvm::Value *Pointer);

/// A load or a store.
struct Access {
  const llvm::Instruction *Where = nullptr;
  /// The instruction and the type of what is read or written: `load.i32`.
  std::string Kind;
  /// Where the pointer comes from: `arg0`, `load`, .., in the order of words.
  std::string Bases;
  /// What constants add to the base, where nothing else adds to it.
  std::optional<int64_t> Offset;
  uint64_t Bytes = 0;
  /// Whether it may be one of memory from outside.
  bool IsForeign = false;
};

/// The accesses of a function.
class Accesses {
public:
  explicit Accesses(const llvm::Function &F);

  /// Whether no memory from outside is written, or all of it that is accessed
  /// is so through the parameter.
  bool canNotAlias(const llvm::Argument &A) const;

  const std::vector<Access> &all() const { return All; }

  /// The access of an instruction; null where it is none.
  const Access *of(const llvm::Instruction &I) const;

private:
  std::vector<Access> All;
  llvm::DenseMap<const llvm::Instruction *, size_t> Numbers;
  llvm::SmallSetVector<const llvm::Value *, 8> Foreign;
  bool Writes = false;
  bool OnlyPlain = true;
};

/// Words, each with the blocks in which it holds.
class Places {
public:
  explicit Places(const llvm::Function &F) : F(F) {}

  void add(const std::string &Word, const llvm::BasicBlock &Block) {
    Found[Word].insert(&Block);
  }

  /// Adds each word with `.some`, and with `.each` where no path from the entry
  /// to a return goes without it.
  void addTo(std::set<std::string> &Words) const;

private:
  using Blocks = llvm::SmallPtrSet<const llvm::BasicBlock *, 4>;

  bool isOnEachPath(const Blocks &Block) const;

  const llvm::Function &F;
  std::map<std::string, Blocks> Found;
};

/// The words of what a function stores to memory from outside, byte for byte:
/// `store~arg0+4.some`.
void addStores(const Accesses &All, Places &Found);

} // namespace tv

#endif
