//===- RulesControl.cpp - Headers, constants, hints, assumes --------------===//

#include "Rules.h"
#include "llvm/Analysis/ConstantFolding.h"
#include "llvm/IR/DataLayout.h"
#include "llvm/IR/InstIterator.h"
#include "llvm/IR/Instructions.h"
#include "llvm/IR/Module.h"

using namespace llvm;

//===----------------------------------------------------------------------===//
// What a header says beside types and attributes
//===----------------------------------------------------------------------===//

void tv::lowerHeader(Function &F, Lowered &How) {
  bool Changes = F.hasSection() || F.getAlign() || F.hasPartition() ||
                 F.hasDLLImportStorageClass() || F.hasDLLExportStorageClass();
  F.setSection("");
  F.setAlignment(MaybeAlign());
  F.setPartition("");
  F.setDLLStorageClass(GlobalValue::DefaultStorageClass);
  if (F.getCallingConv() != CallingConv::C &&
      F.getCallingConv() != CallingConv::Fast) {
    How.Compared.insert(F.getCallingConv() == CallingConv::Cold
                            ? "header:coldcc"
                            : "header:cc" + std::to_string(F.getCallingConv()));
    F.setCallingConv(CallingConv::C);
    Changes = true;
  }
  // Without an invoke nothing reaches a personality.
  if (F.hasPersonalityFn() && none_of(instructions(F), [](Instruction &I) {
        return I.isEHPad() || isa<InvokeInst>(I) || isa<ResumeInst>(I);
      })) {
    F.setPersonalityFn(nullptr);
    Changes = true;
  }
  SmallVector<std::pair<unsigned, MDNode *>, 4> Attachments;
  F.getAllMetadata(Attachments);
  for (auto [Kind, Node] : Attachments)
    if (Kind != LLVMContext::MD_dbg) {
      F.setMetadata(Kind, nullptr);
      Changes = true;
    }
  if (Changes)
    How.Rules.insert("header");
}

//===----------------------------------------------------------------------===//
// What tv would read as something else
//===----------------------------------------------------------------------===//

void tv::refuse(Function &F, StringRef Why, Lowered &How) {
  Module &M = *F.getParent();
  FunctionCallee Callee = M.getOrInsertFunction(
      ("tv.refuses." + Why).str(), Type::getVoidTy(F.getContext()));
  CallInst::Create(Callee, "",
                   &*F.getEntryBlock().getFirstNonPHIOrDbgOrAlloca());
  How.Rules.insert("refuse");
}

//===----------------------------------------------------------------------===//
// Constant expressions
//===----------------------------------------------------------------------===//

/// Whether a constant is made of undef somewhere: to fold it would choose.
static bool mentionsUndef(const Constant *C) {
  if (isa<UndefValue>(C))
    return !isa<PoisonValue>(C);
  return any_of(C->operands(), [](const Use &Operand) {
    return isa<Constant>(Operand) && !isa<GlobalValue>(Operand) &&
           mentionsUndef(cast<Constant>(Operand));
  });
}

void tv::lowerConstants(Function &F, Lowered &How) {
  const DataLayout &DL = F.getParent()->getDataLayout();
  for (Instruction &I : instructions(F))
    for (Use &Operand : I.operands()) {
      auto *Expression = dyn_cast<ConstantExpr>(Operand);
      if (!Expression || mentionsUndef(Expression))
        continue;
      Constant *Folded = ConstantFoldConstant(Expression, DL);
      if (isa<ConstantInt>(Folded) || isa<ConstantPointerNull>(Folded) ||
          isa<PoisonValue>(Folded)) {
        Operand.set(Folded);
        How.Rules.insert("constant");
      }
    }
}

//===----------------------------------------------------------------------===//
// Calls that do nothing
//===----------------------------------------------------------------------===//

/// The value that a call stands for, where it only gives an operand back.
static Value *sameAs(IntrinsicInst &I) {
  switch (I.getIntrinsicID()) {
  case Intrinsic::expect:
  case Intrinsic::expect_with_probability:
  case Intrinsic::ssa_copy:
  case Intrinsic::annotation:
  case Intrinsic::ptr_annotation:
    return I.getArgOperand(0);
  default:
    return nullptr;
  }
}

static bool isNothing(const IntrinsicInst &I) {
  switch (I.getIntrinsicID()) {
  case Intrinsic::donothing:
  case Intrinsic::prefetch:
  case Intrinsic::sideeffect:
  case Intrinsic::pseudoprobe:
  case Intrinsic::var_annotation:
  case Intrinsic::experimental_noalias_scope_decl:
    return true;
  default:
    return isa<DbgInfoIntrinsic>(I);
  }
}

/// Whether a call has an attribute or a bundle that says more of a value.
static bool saysMore(const CallBase &Call) {
  AttributeList Attributes = Call.getAttributes();
  if (Call.hasOperandBundles() || Attributes.hasRetAttrs())
    return true;
  // A prefetch does nothing with a poison address either.
  bool MayBePoison = Call.getIntrinsicID() == Intrinsic::prefetch;
  for (unsigned At = 0; At < Call.arg_size(); ++At)
    for (Attribute A : Attributes.getParamAttrs(At))
      if (!A.hasAttribute(Attribute::ImmArg) &&
          !(MayBePoison && A.hasAttribute(Attribute::NonNull)))
        return true;
  return false;
}

void tv::lowerHints(Function &F, Lowered &How) {
  for (Instruction &Each : make_early_inc_range(instructions(F))) {
    auto *I = dyn_cast<IntrinsicInst>(&Each);
    if (!I || saysMore(*I))
      continue;
    if (Value *Same = sameAs(*I)) {
      I->replaceAllUsesWith(Same);
      I->eraseFromParent();
      How.Rules.insert("hint");
    } else if (isNothing(*I)) {
      // Debug intrinsics are no more than debug records, which tv skips.
      if (!isa<DbgInfoIntrinsic>(I))
        How.Rules.insert("hint");
      I->eraseFromParent();
    }
  }
}

//===----------------------------------------------------------------------===//
// llvm.assume
//===----------------------------------------------------------------------===//

void tv::lowerAssumes(Function &F, Lowered &How) {
  SmallVector<AssumeInst *, 8> Assumes;
  for (Instruction &I : instructions(F))
    if (auto *Assume = dyn_cast<AssumeInst>(&I))
      Assumes.push_back(Assume);
  if (Assumes.empty())
    return;
  How.Rules.insert("assume");
  // At the end, so that no jump becomes backward.
  BasicBlock *Dead = BasicBlock::Create(F.getContext(), "assume.false", &F);
  new UnreachableInst(F.getContext(), Dead);
  for (AssumeInst *Assume : Assumes) {
    if (Assume->hasOperandBundles())
      How.Dropped.insert("assume-bundle");
    BasicBlock *Before = Assume->getParent();
    BasicBlock *After = Before->splitBasicBlock(Assume, "assume.true");
    Before->getTerminator()->eraseFromParent();
    BranchInst::Create(After, Dead, Assume->getArgOperand(0), Before);
    Assume->eraseFromParent();
  }
}
