//===- Causes.cpp - All that keeps tv from reading a function -------------===//

#include "Causes.h"
#include "llvm/ADT/DenseMap.h"
#include "llvm/ADT/SmallPtrSet.h"
#include "llvm/ADT/StringExtras.h"
#include "llvm/IR/DataLayout.h"
#include "llvm/IR/InstVisitor.h"
#include "llvm/IR/Module.h"

using namespace llvm;

// The limits of docs/LANGUAGE.md.
static constexpr unsigned MaxWidth = 64;
static constexpr size_t MaxParameters = 16;
static constexpr size_t MaxInstructions = 65536;
static constexpr unsigned MaxCases = 256;
static constexpr uint64_t MaxLocal = 64;
static constexpr uint64_t MaxArray = 1 << 20;
static constexpr unsigned MaxNested = 8;
static constexpr uint64_t MaxAlignment = 4096;
static constexpr unsigned MaxLeaves = 64;

static bool isReadInteger(const Type *T) {
  return T->isIntegerTy() && T->getIntegerBitWidth() <= MaxWidth;
}

static bool isUndef(const Value *V) {
  return isa<UndefValue>(V) && !isa<PoisonValue>(V);
}

namespace {

class Finder : public InstVisitor<Finder> {
public:
  std::set<std::string> Found;

  explicit Finder(const Function &F)
      : F(F), DL(F.getParent()->getDataLayout()) {
    layout();
    header();
    count();
    for (const BasicBlock &Block : F)
      for (const Instruction &I : Block) {
        attachments(I);
        type(I.getType());
        visit(const_cast<Instruction &>(I));
      }
  }

  // Terminators.

  void visitReturnInst(ReturnInst &I) {
    if (const Value *V = I.getReturnValue())
      operand(V, /*UndefToo=*/true);
    if (F.hasRetAttribute(Attribute::NoUndef) && I.getReturnValue() &&
        isa<Instruction>(I.getReturnValue()))
      noUndef(I.getReturnValue());
  }
  void visitBranchInst(BranchInst &I) {
    if (I.isConditional())
      chooses(I.getCondition());
  }
  void visitSwitchInst(SwitchInst &I) {
    type(I.getCondition()->getType());
    chooses(I.getCondition());
    if (I.getNumCases() > MaxCases)
      add("large-switch");
  }
  void visitUnreachableInst(UnreachableInst &) {}
  void visitIndirectBrInst(IndirectBrInst &I) {
    add("indirect-branch");
    operand(I.getAddress(), false);
  }

  // Values.

  void visitBinaryOperator(BinaryOperator &I) {
    operands(I, /*UndefToo=*/!I.isIntDivRem());
    if (I.isIntDivRem())
      noUndefIn(I);
  }
  void visitICmpInst(ICmpInst &I) {
    if (I.getOperand(0)->getType()->isPtrOrPtrVectorTy())
      add(any_of(I.operands(),
                 [](const Use &Each) { return isa<ConstantPointerNull>(Each); })
              ? "pointer-null-compare"
              : "pointer-compare");
    operands(I, /*UndefToo=*/!I.getOperand(0)->getType()->isPointerTy());
  }
  void visitCastInst(CastInst &I) {
    switch (I.getOpcode()) {
    case Instruction::Trunc:
    case Instruction::ZExt:
    case Instruction::SExt:
      return operands(I, /*UndefToo=*/true);
    case Instruction::PtrToInt:
    case Instruction::IntToPtr:
      add("pointer-to-integer");
      break;
    case Instruction::AddrSpaceCast:
      add("address-space");
      break;
    case Instruction::BitCast:
      // Between two types that are read only a type that is its own.
      if (!isReadValue(I.getSrcTy()) || !isReadValue(I.getDestTy()))
        break;
      [[fallthrough]];
    default:
      if (isReadValue(I.getSrcTy()) && isReadValue(I.getDestTy()))
        add("bitcast");
    }
    operands(I, false);
  }
  void visitSelectInst(SelectInst &I) {
    bool IsInteger = I.getType()->isIntegerTy();
    operands(I, IsInteger);
    if (!IsInteger)
      noUndefIn(I);
  }
  void visitFreezeInst(FreezeInst &I) { operands(I, true); }
  void visitPHINode(PHINode &I) {
    operands(I, false);
    noUndefIn(I);
  }

  // Memory.

  void visitAllocaInst(AllocaInst &I) {
    if (I.isUsedWithInAlloca() || I.isSwiftError() || I.getAddressSpace() != 0)
      add("special-alloca");
    if (!isa<ConstantInt>(I.getArraySize()))
      add("variable-alloca");
    else if (I.isArrayAllocation() ||
             !I.getArraySize()->getType()->isIntegerTy(32))
      add("alloca-count");
    object(I.getAllocatedType(), /*IsLocal=*/true);
    aligned(I.getAlign());
    std::optional<TypeSize> Size = I.getAllocationSize(DL);
    if (Size && (Size->isScalable() || Size->getFixedValue() > MaxLocal))
      add("large-alloca");
  }
  void visitLoadInst(LoadInst &I) { access(I, I.isVolatile(), I.isAtomic()); }
  void visitStoreInst(StoreInst &I) { access(I, I.isVolatile(), I.isAtomic()); }
  void visitGetElementPtrInst(GetElementPtrInst &I) {
    GEPNoWrapFlags Flags = I.getNoWrapFlags();
    if (Flags != GEPNoWrapFlags::none() && !Flags.isInBounds())
      add("gep-flags");
    object(I.getSourceElementType(), /*IsLocal=*/false);
    operands(I, false);
    noUndefIn(I);
  }
  void visitFenceInst(FenceInst &) { add("atomic"); }
  void visitAtomicCmpXchgInst(AtomicCmpXchgInst &I) {
    access(I, I.isVolatile(), true);
  }
  void visitAtomicRMWInst(AtomicRMWInst &I) { access(I, I.isVolatile(), true); }

  // Vectors and aggregates: a type says what they are. What is taken apart has
  // a type too that isn't read.

  void visitExtractElementInst(ExtractElementInst &I) { whole(I, "vector"); }
  void visitInsertElementInst(InsertElementInst &I) { whole(I, "vector"); }
  void visitShuffleVectorInst(ShuffleVectorInst &I) { whole(I, "vector"); }
  void visitExtractValueInst(ExtractValueInst &I) { whole(I, "aggregate"); }
  void visitInsertValueInst(InsertValueInst &I) { whole(I, "aggregate"); }

  // Calls.

  void visitCallBase(CallBase &I) {
    if (!isa<CallInst>(I))
      add("exception");
    const Function *Callee =
        dyn_cast<Function>(I.getCalledOperand()->stripPointerCastsAndAliases());
    if (I.isInlineAsm())
      add("asm");
    else if (Callee && Callee->isIntrinsic())
      intrinsic(I, *Callee);
    else if (Callee && Callee->getName().starts_with("tv.refuses."))
      add(Callee->getName().drop_front(11));
    else
      add(Callee ? "direct-call" : "indirect-call");
    if (I.hasOperandBundles())
      add("bundle");
    for (const Use &Each : I.args())
      operand(Each, false);
  }
  void visitVAArgInst(VAArgInst &I) { whole(I, "vararg"); }

  /// What has no form here: floats, exceptions, and what LLVM may add.
  void visitInstruction(Instruction &I) {
    if (I.isEHPad() || isa<ResumeInst, CatchReturnInst, CleanupReturnInst>(I))
      add("exception");
    else if (isa<FCmpInst>(I) || I.getOpcode() == Instruction::FNeg)
      operands(I, false);
    else
      add("instruction-" + std::string(I.getOpcodeName()));
  }

private:
  void add(const Twine &Word) { Found.insert(Word.str()); }

  //===--------------------------------------------------------------------===//
  // Outside the blocks
  //===--------------------------------------------------------------------===//

  void layout() {
    SmallVector<StringRef, 16> Parts;
    StringRef(DL.getStringRepresentation()).split(Parts, '-');
    for (StringRef Part : Parts) {
      bool IsPointer = Part.consume_front("p:");
      StringRef Size = Part.split(':').first;
      if (Part == "E" ||
          (IsPointer && !Size.empty() && Size.ltrim('0') != "64"))
        add("data-layout");
    }
  }

  void attributes(AttributeSet Attributes, bool IsReturn, bool IsPointer) {
    for (Attribute Each : Attributes) {
      if (Each.isStringAttribute()) {
        add("attribute-string");
        continue;
      }
      switch (Each.getKindAsEnum()) {
      case Attribute::NoUndef:
      case Attribute::ZExt:
      case Attribute::SExt:
        continue;
      case Attribute::NonNull:
        if (!IsReturn && IsPointer)
          continue;
        [[fallthrough]];
      default:
        add("attribute-" +
            Attribute::getNameFromAttrKind(Each.getKindAsEnum()));
      }
    }
  }

  void header() {
    if (!F.getReturnType()->isVoidTy())
      type(F.getReturnType());
    attributes(F.getAttributes().getRetAttrs(), true, false);
    for (const Argument &A : F.args()) {
      type(A.getType());
      attributes(F.getAttributes().getParamAttrs(A.getArgNo()), false,
                 A.getType()->isPointerTy());
    }
    if (F.isVarArg())
      add("vararg");
    if (F.arg_size() > MaxParameters)
      add("parameters");
    if (F.getCallingConv() != CallingConv::C &&
        F.getCallingConv() != CallingConv::Fast)
      add("calling-convention");
    if (F.hasSection() || F.hasPartition() || F.getAlign() || F.hasGC() ||
        F.hasPrefixData() || F.hasPrologueData() || F.getAddressSpace() != 0 ||
        F.getDLLStorageClass() != GlobalValue::DefaultStorageClass ||
        F.hasSanitizerMetadata())
      add("header");
    if (F.hasPersonalityFn())
      add("exception");
    SmallVector<std::pair<unsigned, MDNode *>, 4> Attachments;
    F.getAllMetadata(Attachments);
    for (auto [Kind, Node] : Attachments)
      if (Kind != LLVMContext::MD_dbg)
        add("!" + kindName(Kind));
  }

  StringRef kindName(unsigned Kind) {
    if (Kinds.empty())
      F.getContext().getMDKindNames(Kinds);
    return Kinds[Kind];
  }

  void count() {
    size_t Number = 0;
    for (const BasicBlock &Block : F)
      Number += Block.size();
    if (Number > MaxInstructions)
      add("large-function");
  }

  //===--------------------------------------------------------------------===//
  // Types
  //===--------------------------------------------------------------------===//

  static bool isReadValue(const Type *T) {
    return isReadInteger(T) ||
           (T->isPointerTy() && T->getPointerAddressSpace() == 0);
  }

  /// The type of a value.
  void type(const Type *T) {
    if (isReadValue(T) || T->isVoidTy() || T->isLabelTy() || T->isMetadataTy())
      return;
    if (T->isPointerTy())
      add("address-space");
    else if (T->isIntegerTy())
      add("wide-integer");
    else if (T->isFloatingPointTy())
      add("float");
    else if (T->isVectorTy()) {
      add("vector");
      type(T->getScalarType());
    } else if (T->isAggregateType())
      add("aggregate");
    else
      add("type");
  }

  /// Bytes of a type in memory as tv counts them.
  static uint64_t sizeOf(const Type *T) {
    if (T->isPointerTy())
      return 8;
    return PowerOf2Ceil((T->getIntegerBitWidth() + 7) / 8);
  }

  /// The type of an alloca or of a getelementptr.
  void object(Type *T, bool IsLocal) {
    SmallVector<uint64_t, 4> Lengths;
    while (auto *Array = dyn_cast<ArrayType>(T)) {
      Lengths.push_back(Array->getNumElements());
      T = Array->getElementType();
    }
    if (!isReadValue(T))
      return type(T);
    if (Lengths.size() > MaxNested)
      add("nested-arrays");
    bool IsOver = false;
    uint64_t Size = sizeOf(T);
    for (uint64_t Length : reverse(Lengths)) {
      bool Overflows = false;
      Size = SaturatingMultiply(Size, Length, &Overflows);
      IsOver |= Overflows || Size > MaxArray;
    }
    if (!IsLocal && IsOver)
      add("large-array");
    if (IsLocal && (IsOver || Size > MaxLocal))
      add("large-alloca");
  }

  void aligned(Align A) {
    if (A.value() > MaxAlignment)
      add("large-alignment");
  }

  //===--------------------------------------------------------------------===//
  // Operands
  //===--------------------------------------------------------------------===//

  void operands(const Instruction &I, bool UndefToo) {
    for (const Use &Each : I.operands())
      operand(Each, UndefToo);
  }

  void operand(const Value *V, bool UndefToo) {
    if (isa<MetadataAsValue, BasicBlock>(V))
      return;
    type(V->getType());
    if (isUndef(V) && !UndefToo)
      add("undef");
    if (const auto *C = dyn_cast<Constant>(V))
      if (!constant(C) && isa<ConstantExpr>(C))
        add("constant-expression");
  }

  /// What a constant names that is no number, null or poison; false where it
  /// names nothing of that kind.
  bool constant(const Constant *C) {
    if (isa<Function>(C))
      return add("function-address"), true;
    if (isa<GlobalValue>(C))
      return add("global"), true;
    if (isa<BlockAddress>(C))
      return add("block-address"), true;
    bool Names = false;
    if (const auto *E = dyn_cast<ConstantExpr>(C))
      if (E->getOpcode() == Instruction::PtrToInt ||
          E->getOpcode() == Instruction::IntToPtr)
        Names = (add("pointer-to-integer"), true);
    if (isa<DSOLocalEquivalent, NoCFIValue, ConstantPtrAuth>(C))
      return add("function-address"), true;
    for (const Use &Each : C->operands())
      if (const auto *Inner = dyn_cast<Constant>(Each))
        Names |= constant(Inner);
    return Names;
  }

  /// How many undefs a value is made of, at most one more than tv allows.
  unsigned leaves(const Value *V) {
    if (isUndef(V))
      return 1;
    const auto *I = dyn_cast<Instruction>(V);
    if (!I || !isa<BinaryOperator, ICmpInst, SelectInst, TruncInst, ZExtInst,
                   SExtInst>(I))
      return 0;
    auto [At, IsNew] = Leaves.insert({I, 0});
    if (!IsNew)
      return At->second;
    unsigned Sum = 0;
    for (const Use &Each : I->operands())
      Sum = std::min(MaxLeaves + 1, Sum + leaves(Each));
    return Leaves[I] = Sum;
  }

  /// A register that is made from undef isn't read here.
  void noUndef(const Value *V) {
    if (leaves(V))
      add("undef");
  }
  void noUndefIn(const Instruction &I) {
    for (const Use &Each : I.operands())
      noUndef(Each);
  }

  /// What a jump depends on.
  void chooses(const Value *V) {
    operand(V, false);
    noUndef(V);
  }

  void access(const Instruction &I, bool IsVolatile, bool IsAtomic) {
    if (IsVolatile)
      add("volatile");
    if (IsAtomic)
      add("atomic");
    if (isa<LoadInst, StoreInst>(I))
      aligned(getLoadStoreAlignment(const_cast<Instruction *>(&I)));
    operands(I, false);
    noUndefIn(I);
  }

  void whole(const Instruction &I, StringRef Word) {
    add(Word);
    operands(I, false);
  }

  //===--------------------------------------------------------------------===//
  // Attachments, intrinsics
  //===--------------------------------------------------------------------===//

  void attachments(const Instruction &I) {
    SmallVector<std::pair<unsigned, MDNode *>, 4> All;
    I.getAllMetadataOtherThanDebugLoc(All);
    for (auto [Kind, Node] : All)
      if (Kind != LLVMContext::MD_dbg && Kind != LLVMContext::MD_prof &&
          Kind != LLVMContext::MD_loop)
        add("!" + kindName(Kind));
    if (isa<BinaryOperator, ICmpInst, SelectInst, CastInst>(I) &&
        leaves(&I) > MaxLeaves)
      add("undef");
  }

  void intrinsic(const CallBase &I, const Function &Callee) {
    StringRef Name = Intrinsic::getBaseName(Callee.getIntrinsicID());
    switch (Callee.getIntrinsicID()) {
    case Intrinsic::memcpy:
    case Intrinsic::memcpy_inline:
      return filled("memcpy", I);
    case Intrinsic::memmove:
      return filled("memmove", I);
    case Intrinsic::memset:
    case Intrinsic::memset_inline:
      return filled("memset", I);
    case Intrinsic::not_intrinsic:
      return add(Callee.getName());
    default:
      add(Name);
    }
  }

  /// By how many bytes are moved or set.
  void filled(const Twine &Name, const CallBase &I) {
    const auto *Length = dyn_cast<ConstantInt>(I.getArgOperand(2));
    if (!Length)
      add(Name + "-variable");
    else
      add(Name + (Length->getValue().ugt(MaxLocal) ? "-large" : "-64"));
    if (cast<ConstantInt>(I.getArgOperand(3))->isOne())
      add("volatile");
  }

  const Function &F;
  const DataLayout &DL;
  SmallVector<StringRef, 64> Kinds;
  DenseMap<const Instruction *, unsigned> Leaves;
};

} // namespace

std::set<std::string> tv::causesOf(const Function &F) {
  return std::move(Finder(F).Found);
}

PreservedAnalyses tv::CausesPass::run(Function &F, FunctionAnalysisManager &) {
  std::set<std::string> Causes = causesOf(F);
  F.removeFnAttr("tv-causes");
  if (!Causes.empty())
    F.addFnAttr("tv-causes", join(Causes, " "));
  return PreservedAnalyses::all();
}
