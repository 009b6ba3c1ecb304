//===- RulesIntrinsics.cpp - Where integer intrinsics are written out -----===//

#include "Rules.h"
#include "llvm/IR/ConstantRange.h"
#include "llvm/IR/InstIterator.h"
#include "llvm/IR/Instructions.h"

using namespace llvm;
using tv::Builder;

bool tv::isReadInteger(const Type *Type) {
  return Type->isIntegerTy() && Type->getIntegerBitWidth() <= MaxWidth;
}

static bool carries(const Value *V, SmallPtrSetImpl<const Value *> &Seen) {
  if (isa<UndefValue>(V))
    return !isa<PoisonValue>(V);
  const auto *I = dyn_cast<Instruction>(V);
  if (!I || !Seen.insert(V).second)
    return false;
  // A frozen value is one value, and what memory holds is none of undef.
  if (isa<FreezeInst, LoadInst, AllocaInst>(I))
    return false;
  return any_of(I->operands(),
                [&](const Use &Each) { return carries(Each, Seen); });
}

bool tv::carriesUndef(const Value *V) {
  SmallPtrSet<const Value *, 16> Seen;
  return carries(V, Seen);
}

/// Whether a call's attributes are such as `attributesKept` writes out.
static bool hasKnownAttributes(const IntrinsicInst &I) {
  AttributeList Attributes = I.getAttributes();
  for (Attribute Each : Attributes.getRetAttrs())
    if (!Each.hasAttribute(Attribute::Range) &&
        !Each.hasAttribute(Attribute::NoUndef))
      return false;
  for (unsigned At = 0; At < I.arg_size(); ++At)
    for (Attribute Each : Attributes.getParamAttrs(At))
      if (!Each.hasAttribute(Attribute::NoUndef) &&
          !Each.hasAttribute(Attribute::ImmArg))
        return false;
  return !I.hasOperandBundles();
}

static bool canBeWrittenOut(const IntrinsicInst &I) {
  if (!isa<WithOverflowInst>(I) && !tv::isReadInteger(I.getType()))
    return false;
  return I.arg_size() > 0 && hasKnownAttributes(I) &&
         all_of(I.args(), [](const Use &Each) {
           return tv::isReadInteger(Each->getType()) && !tv::carriesUndef(Each);
         });
}

/// What `noundef` and `range` of the call make of its operands and its result.
static Value *attributesKept(Builder &B, IntrinsicInst &I, Value *Result) {
  for (unsigned At = 0; At < I.arg_size(); ++At)
    if (I.getAttributes().hasParamAttr(At, Attribute::NoUndef))
      tv::requireDefined(B, I.getArgOperand(At));
  Attribute Range = I.getRetAttr(Attribute::Range);
  if (Range.isValid())
    Result = tv::inRange(B, Result, Range.getRange());
  if (I.hasRetAttr(Attribute::NoUndef))
    tv::requireDefined(B, Result);
  return Result;
}

/// Writes a `with.overflow` out where all that is read of it are its parts.
static bool lowerParts(Builder &B, WithOverflowInst &I) {
  if (I.getAttributes().hasRetAttrs() ||
      !all_of(I.users(),
              [](const User *Each) { return isa<ExtractValueInst>(Each); }))
    return false;
  tv::WithOverflow Parts = tv::writtenOut(B, I);
  attributesKept(B, I, nullptr);
  for (User *Each : make_early_inc_range(I.users())) {
    auto *Part = cast<ExtractValueInst>(Each);
    Part->replaceAllUsesWith(Part->getIndices()[0] == 0 ? Parts.Result
                                                        : Parts.Overflows);
    Part->eraseFromParent();
  }
  return true;
}

/// An intrinsic's name without `llvm.` and types: `smax`, `sadd.sat`.
static std::string nameOf(const IntrinsicInst &I) {
  return Intrinsic::getBaseName(I.getIntrinsicID()).drop_front(5).str();
}

void tv::lowerIntegers(Function &F, Lowered &How) {
  SmallVector<IntrinsicInst *, 16> All;
  for (Instruction &I : instructions(F))
    if (auto *Call = dyn_cast<IntrinsicInst>(&I))
      All.push_back(Call);
  for (IntrinsicInst *I : All) {
    if (!canBeWrittenOut(*I))
      continue;
    Builder B(I);
    if (auto *Parts = dyn_cast<WithOverflowInst>(I)) {
      if (!lowerParts(B, *Parts))
        continue;
    } else {
      Value *Result = writtenOut(B, *I);
      if (!Result)
        continue;
      I->replaceAllUsesWith(attributesKept(B, *I, Result));
    }
    How.Rules.insert(nameOf(*I));
    I->eraseFromParent();
  }
}
