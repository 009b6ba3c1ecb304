//===- Accesses.cpp - Where a function accesses memory --------------------===//

#include "Accesses.h"
#include "llvm/ADT/StringExtras.h"
#include "llvm/IR/DataLayout.h"
#include "llvm/IR/InstIterator.h"
#include "llvm/IR/Module.h"
#include "llvm/IR/Operator.h"
#include "llvm/Support/raw_ostream.h"

using namespace llvm;

// Offsets past these have no word for each byte.
static constexpr int64_t LowestOffset = -64, LargestOffset = 256;
// Unreachable code may have a phi of itself.
static constexpr unsigned MaxSteps = 64;

const Value *tv::storedOnce(const Value *Variable) {
  if (!isa<AllocaInst>(Variable))
    return nullptr;
  const Value *Stored = nullptr;
  for (const User *Each : Variable->users()) {
    const auto *Store = dyn_cast<StoreInst>(Each);
    if (Store && Store->getPointerOperand() == Variable && !Stored &&
        Store->getValueOperand() != Variable)
      Stored = Store->getValueOperand();
    else if (!isa<LoadInst>(Each) &&
             !cast<Instruction>(Each)->isLifetimeStartOrEnd())
      return nullptr;
  }
  return Stored;
}

/// What a pointer is made from; empty where it is a base.
static SmallVector<const Value *, 4> madeFrom(const Value *Pointer) {
  if (const auto *GEP = dyn_cast<GEPOperator>(Pointer))
    return {GEP->getPointerOperand()};
  if (const auto *Load = dyn_cast<LoadInst>(Pointer)) {
    const Value *Stored = tv::storedOnce(Load->getPointerOperand());
    if (Stored && Stored->getType()->isPointerTy())
      return {Stored};
  }
  SmallVector<const Value *, 4> Found;
  if (isa<SelectInst, PHINode, FreezeInst>(Pointer))
    for (const Value *Operand : cast<Instruction>(Pointer)->operands())
      if (Operand->getType()->isPointerTy())
        Found.push_back(Operand);
  return Found;
}

SmallSetVector<const Value *, 8> tv::basesOf(const Value *Pointer) {
  SmallSetVector<const Value *, 16> Seen;
  SmallSetVector<const Value *, 8> Bases;
  Seen.insert(Pointer);
  for (unsigned At = 0; At < Seen.size(); ++At) {
    SmallVector<const Value *, 4> More = madeFrom(Seen[At]);
    if (More.empty())
      Bases.insert(Seen[At]);
    Seen.insert(More.begin(), More.end());
  }
  return Bases;
}

/// A base as both sides of a pair have it.
static std::string wordOf(const Value *Base) {
  if (const auto *A = dyn_cast<Argument>(Base))
    return "arg" + std::to_string(A->getArgNo());
  if (isa<AllocaInst>(Base))
    return "alloca";
  if (isa<LoadInst>(Base))
    return "load";
  return isa<Constant>(Base) ? "constant" : "other";
}

/// What constants add between a pointer and its base.
static std::optional<int64_t> offsetOf(const Value *Pointer,
                                       const DataLayout &DL) {
  APInt Sum(DL.getIndexTypeSizeInBits(Pointer->getType()), 0);
  for (unsigned Steps = 0; Steps < MaxSteps; ++Steps) {
    Pointer = Pointer->stripAndAccumulateConstantOffsets(
        DL, Sum, /*AllowNonInbounds=*/true);
    SmallVector<const Value *, 4> More = madeFrom(Pointer);
    if (More.empty())
      return Sum.trySExtValue();
    if (More.size() != 1 || isa<GEPOperator>(Pointer))
      return std::nullopt;
    Pointer = More.front();
  }
  return std::nullopt;
}

static tv::Access accessOf(const Instruction &I, const DataLayout &DL) {
  const Value *Pointer = getLoadStorePointerOperand(&I);
  tv::Access Found;
  Found.Where = &I;
  raw_string_ostream Kind(Found.Kind);
  Type *Held = getLoadStoreType(const_cast<Instruction *>(&I));
  Kind << I.getOpcodeName() << '.' << *Held;
  Kind.flush();
  std::set<std::string> Words;
  for (const Value *Base : tv::basesOf(Pointer))
    Words.insert(wordOf(Base));
  Found.Bases = join(Words, "/");
  Found.Offset = offsetOf(Pointer, DL);
  TypeSize Bytes = DL.getTypeStoreSize(Held);
  Found.Bytes = Bytes.isScalable() ? 0 : Bytes.getFixedValue();
  return Found;
}

tv::Accesses::Accesses(const Function &F) {
  const DataLayout &DL = F.getParent()->getDataLayout();
  for (const Instruction &I : instructions(F)) {
    const Value *Pointer = getLoadStorePointerOperand(&I);
    if (!Pointer) {
      OnlyPlain &= !I.mayReadOrWriteMemory();
      continue;
    }
    Numbers[&I] = All.size();
    All.push_back(accessOf(I, DL));
    for (const Value *Base : basesOf(Pointer)) {
      if (isa<AllocaInst>(Base))
        continue;
      All.back().IsForeign = true;
      Foreign.insert(Base);
      Writes |= isa<StoreInst>(I);
    }
  }
}

bool tv::Accesses::canNotAlias(const Argument &A) const {
  if (!OnlyPlain)
    return false;
  return !Writes || (Foreign.size() == 1 && Foreign.contains(&A));
}

const tv::Access *tv::Accesses::of(const Instruction &I) const {
  auto Found = Numbers.find(&I);
  return Found == Numbers.end() ? nullptr : &All[Found->second];
}

bool tv::Places::isOnEachPath(const Blocks &Block) const {
  SmallSetVector<const BasicBlock *, 32> Reached;
  Reached.insert(&F.getEntryBlock());
  for (unsigned At = 0; At < Reached.size(); ++At) {
    const BasicBlock *Here = Reached[At];
    if (Block.contains(Here))
      continue;
    if (isa<ReturnInst>(Here->getTerminator()))
      return false;
    Reached.insert(succ_begin(Here), succ_end(Here));
  }
  return true;
}

void tv::Places::addTo(std::set<std::string> &Words) const {
  for (const auto &[Word, Blocks] : Found) {
    Words.insert(Word + ".some");
    if (isOnEachPath(Blocks))
      Words.insert(Word + ".each");
  }
}

void tv::addStores(const Accesses &All, Places &Found) {
  for (const Access &Each : All.all()) {
    if (!isa<StoreInst>(Each.Where) || !Each.IsForeign)
      continue;
    const BasicBlock &Block = *Each.Where->getParent();
    std::string Word = "store~" + Each.Bases + "+";
    if (!Each.Offset || *Each.Offset < LowestOffset ||
        *Each.Offset + int64_t(Each.Bytes) > LargestOffset) {
      Found.add(Word + "?", Block);
      continue;
    }
    for (uint64_t At = 0; At < Each.Bytes; ++At)
      Found.add(Word + itostr(*Each.Offset + At), Block);
  }
}
