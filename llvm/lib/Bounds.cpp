//===- Bounds.cpp - Which bounds fit a function ---------------------------===//
//
// tv judges runs on blocks of at most --bytes bytes. A field past the last
// byte is never defined there, so any target would be correct: the bound has
// to reach the fields that the two functions use. With no byte more, an access
// could only be at offset 0, which has each alignment: so that a wrong one is
// seen, there are as many bytes more as the greatest alignment that is asked.
//
// A function without a jump back has no run that is longer than --turns, and
// one that has no pointer from outside has none that --blocks and --bytes leave
// out. Both answers are the ones that tools/tvbounds.py gives.
//
//===----------------------------------------------------------------------===//

#include "Bounds.h"
#include "llvm/ADT/DenseMap.h"
#include "llvm/ADT/MapVector.h"
#include "llvm/ADT/SmallPtrSet.h"
#include "llvm/IR/CFG.h"
#include "llvm/IR/Constants.h"
#include "llvm/IR/DataLayout.h"
#include "llvm/IR/Function.h"
#include "llvm/IR/GetElementPtrTypeIterator.h"
#include "llvm/IR/InstIterator.h"
#include "llvm/IR/Instructions.h"
#include "llvm/IR/Module.h"
#include "llvm/IR/Operator.h"

using namespace llvm;

// The largest bounds that tv takes.
static constexpr unsigned LargestBlocks = 4;
static constexpr int64_t LargestBytes = 32;
// That of a given block, which has each smaller one.
static constexpr Align BlockAlignment = Align::Constant<16>();
// How many pointers one phi or select may lead to before it is given up.
static constexpr unsigned Many = 64;

namespace {

/// Where a pointer may come from, with the offset that constants add.
struct Root {
  const Value *Base;
  int64_t Offset;
};

/// The first and the last offset that is reached from a pointer.
struct Span {
  int64_t Low = 0;
  int64_t High = 0;
};

class Reached {
public:
  explicit Reached(const Function &F) : DL(F.getParent()->getDataLayout()) {}

  void access(const Value *Pointer, int64_t Size, Align Wanted) {
    SmallPtrSet<const Value *, 16> Seen;
    Asked = std::min(Wanted, BlockAlignment);
    visit(Pointer, 0, Size, Seen);
  }

  tv::Needs needs(bool HasPointers) const {
    tv::Needs Found;
    unsigned Blocks = std::min<unsigned>(Spans.size(), LargestBlocks);
    Found.Blocks = Blocks ? Blocks : HasPointers;
    int64_t Most = 0;
    for (const auto &[Base, Reach] : Spans)
      Most = std::max(Most, Reach.High - Reach.Low);
    if (Alignment > Align(1))
      Most += Alignment.value();
    Found.Bytes = std::min(Most, LargestBytes);
    return Found;
  }

private:
  void visit(const Value *Pointer, int64_t Offset, int64_t Size,
             SmallPtrSetImpl<const Value *> &Seen) {
    if (!Seen.insert(Pointer).second || Seen.size() > Many)
      return;
    if (const auto *GEP = dyn_cast<GEPOperator>(Pointer))
      return visit(GEP->getPointerOperand(), Offset + constantPart(*GEP), Size,
                   Seen);
    if (const auto *Choice = dyn_cast<SelectInst>(Pointer)) {
      visit(Choice->getTrueValue(), Offset, Size, Seen);
      return visit(Choice->getFalseValue(), Offset, Size, Seen);
    }
    if (const auto *Phi = dyn_cast<PHINode>(Pointer)) {
      for (const Value *Incoming : Phi->incoming_values())
        visit(Incoming, Offset, Size, Seen);
      return;
    }
    if (const auto *Frozen = dyn_cast<FreezeInst>(Pointer))
      return visit(Frozen->getOperand(0), Offset, Size, Seen);
    if (isa<Argument>(Pointer))
      add(Pointer, Offset, Offset + Size);
    if (const auto *Load = dyn_cast<LoadInst>(Pointer)) {
      // A local variable holds one pointer as a rule, however often it is read.
      const Value *From = Load->getPointerOperand();
      add(isa<AllocaInst>(From) ? From : Pointer, Offset, Offset + Size);
    }
  }

  void add(const Value *Base, int64_t Begin, int64_t End) {
    // That of an access to a local variable alone asks nothing of the bounds.
    Alignment = std::max(Alignment, Asked);
    Span &Reach = Spans[Base];
    if (Begin >= -LargestBytes)
      Reach.Low = std::min(Reach.Low, Begin);
    if (End <= LargestBytes)
      Reach.High = std::max(Reach.High, End);
  }

  /// What the constant indices add, in bytes.
  int64_t constantPart(const GEPOperator &GEP) const {
    int64_t Sum = 0;
    for (auto It = gep_type_begin(GEP), End = gep_type_end(GEP); It != End;
         ++It) {
      const auto *Index = dyn_cast<ConstantInt>(It.getOperand());
      if (!Index || Index->getValue().getSignificantBits() > 32)
        continue;
      if (StructType *Type = It.getStructTypeOrNull())
        Sum +=
            DL.getStructLayout(Type)->getElementOffset(Index->getZExtValue());
      else if (!It.getSequentialElementStride(DL).isScalable())
        Sum += Index->getSExtValue() *
               It.getSequentialElementStride(DL).getFixedValue();
    }
    return Sum;
  }

  const DataLayout &DL;
  MapVector<const Value *, Span> Spans;
  /// The alignment of the access that is looked at, and the greatest of all.
  Align Asked;
  Align Alignment;
};

} // namespace

/// The type that a load or a store accesses.
static Type *accessType(const Instruction &I) {
  if (const auto *Store = dyn_cast<StoreInst>(&I))
    return Store->getValueOperand()->getType();
  return I.getType();
}

/// Whether a block has itself or an earlier block of the text as a successor.
static bool goesBack(const Function &F) {
  SmallPtrSet<const BasicBlock *, 16> Begun;
  for (const BasicBlock &Block : F) {
    Begun.insert(&Block);
    if (any_of(successors(&Block),
               [&](const BasicBlock *Next) { return Begun.contains(Next); }))
      return true;
  }
  return false;
}

/// Whether an instruction may give a pointer that is no local variable's: a
/// call, an integer as a pointer, a load of no integer, or a constant that has
/// an address.
static bool givesPointer(const Instruction &I) {
  if (isa<CallBase>(I) || isa<IntToPtrInst>(I) || isa<VAArgInst>(I))
    return true;
  if (isa<LoadInst>(I) && !I.getType()->isIntegerTy())
    return true;
  return any_of(I.operands(), [](const Use &Operand) {
    const auto *C = dyn_cast<Constant>(Operand);
    return C && !isa<ConstantInt>(C) && !isa<ConstantPointerNull>(C) &&
           !isa<UndefValue>(C);
  });
}

/// Whether a pointer may come from outside.
static bool takesPointers(const Function &F) {
  return F.isVarArg() ||
         any_of(
             F.args(),
             [](const Argument &A) { return !A.getType()->isIntegerTy(); }) ||
         any_of(instructions(F), givesPointer);
}

tv::Needs tv::needsOf(const Function &F) {
  const DataLayout &DL = F.getParent()->getDataLayout();
  Reached Found(F);
  for (const Instruction &I : instructions(F)) {
    const Value *Pointer = getLoadStorePointerOperand(&I);
    if (!Pointer)
      continue;
    TypeSize Size = DL.getTypeStoreSize(accessType(I));
    Found.access(Pointer, Size.isScalable() ? 0 : Size.getFixedValue(),
                 getLoadStoreAlignment(const_cast<Instruction *>(&I)));
  }
  bool HasPointers = any_of(
      F.args(), [](const Argument &A) { return A.getType()->isPointerTy(); });
  Needs Asked = Found.needs(HasPointers);
  Asked.GoesBack = goesBack(F);
  Asked.TakesPointers = takesPointers(F);
  return Asked;
}
