//===- RulesMemory.cpp - Addresses, allocas, aggregates -------------------===//
//
// The subset has memory as bytes, and arrays as types. What the data layout
// says of structs and other types is written out in bytes.
//
//===----------------------------------------------------------------------===//

#include "Rules.h"
#include "llvm/ADT/bit.h"
#include "llvm/Analysis/CFG.h"
#include "llvm/IR/DataLayout.h"
#include "llvm/IR/Dominators.h"
#include "llvm/IR/GetElementPtrTypeIterator.h"
#include "llvm/IR/InstIterator.h"
#include "llvm/IR/Instructions.h"
#include "llvm/IR/Module.h"

using namespace llvm;
using tv::Builder;

/// Whether tv reads a type in memory.
static bool isReadScalar(const Type *Type) {
  if (Type->isPointerTy())
    return Type->getPointerAddressSpace() == 0;
  if (!Type->isIntegerTy())
    return false;
  unsigned Width = Type->getIntegerBitWidth();
  return Width == 8 || Width == 16 || Width == 32 || Width == 64;
}

/// The same, or an array of such.
static bool isReadInMemory(Type *Type) {
  while (auto *Array = dyn_cast<ArrayType>(Type))
    Type = Array->getElementType();
  return isReadScalar(Type);
}

//===----------------------------------------------------------------------===//
// Lifetimes
//===----------------------------------------------------------------------===//

/// The instructions that use an alloca's memory; false where a use is not
/// understood.
static bool usersOf(Instruction &Alloca, SmallVectorImpl<Instruction *> &Users,
                    SmallVectorImpl<LifetimeIntrinsic *> &Marks) {
  SmallSetVector<Instruction *, 16> Based;
  Based.insert(&Alloca);
  for (unsigned At = 0; At < Based.size(); ++At)
    for (Use &Each : Based[At]->uses()) {
      auto *User = cast<Instruction>(Each.getUser());
      auto *Store = dyn_cast<StoreInst>(User);
      if (auto *Mark = dyn_cast<LifetimeIntrinsic>(User))
        Marks.push_back(Mark);
      else if (isa<LoadInst>(User) ||
               (Store && Store->getValueOperand() != Each.get()))
        Users.push_back(User);
      else if (isa<GetElementPtrInst, SelectInst, PHINode>(User))
        Based.insert(User);
      else
        return false;
    }
  return true;
}

/// The one start among the marks of an alloca; null where there are more, or
/// one of the marks is of a part of it.
static const LifetimeIntrinsic *startOf(ArrayRef<LifetimeIntrinsic *> Marks,
                                        const AllocaInst &Alloca) {
  const LifetimeIntrinsic *Start = nullptr;
  std::optional<TypeSize> Size =
      Alloca.getAllocationSize(Alloca.getModule()->getDataLayout());
  for (const LifetimeIntrinsic *Mark : Marks) {
    auto *Bytes = cast<ConstantInt>(Mark->getArgOperand(0));
    bool IsWhole = Bytes->isMinusOne() ||
                   (Size && *Size == TypeSize::getFixed(Bytes->getZExtValue()));
    if (!IsWhole || Mark->getArgOperand(1) != &Alloca)
      return nullptr;
    if (Mark->getIntrinsicID() != Intrinsic::lifetime_start)
      continue;
    if (Start)
      return nullptr;
    Start = Mark;
  }
  return Start;
}

/// Whether all uses lie between one start, that runs once, and the ends.
static bool coversAll(const AllocaInst &Alloca, ArrayRef<Instruction *> Users,
                      ArrayRef<LifetimeIntrinsic *> Marks,
                      const DominatorTree &Tree) {
  const LifetimeIntrinsic *Start = startOf(Marks, Alloca);
  if (!Start)
    return false;
  // A second run of the start would empty the memory.
  for (const BasicBlock *Next : successors(Start->getParent()))
    if (isPotentiallyReachable(Next, Start->getParent(), nullptr, &Tree))
      return false;
  return all_of(Users, [&](const Instruction *User) {
    return Tree.dominates(Start, User) &&
           none_of(Marks, [&](const LifetimeIntrinsic *Mark) {
             return Mark != Start &&
                    isPotentiallyReachable(Mark, User, nullptr, &Tree);
           });
  });
}

static void lowerLifetimes(Function &F, tv::Lowered &How) {
  SmallVector<AllocaInst *, 8> Allocas;
  for (Instruction &I : instructions(F))
    if (auto *Alloca = dyn_cast<AllocaInst>(&I))
      Allocas.push_back(Alloca);
  DominatorTree Tree(F);
  SmallPtrSet<LifetimeIntrinsic *, 8> Exact;
  for (AllocaInst *Alloca : Allocas) {
    SmallVector<Instruction *, 16> Users;
    SmallVector<LifetimeIntrinsic *, 4> Marks;
    if (usersOf(*Alloca, Users, Marks) &&
        coversAll(*Alloca, Users, Marks, Tree))
      Exact.insert(Marks.begin(), Marks.end());
  }
  for (Instruction &I : make_early_inc_range(instructions(F)))
    if (auto *Mark = dyn_cast<LifetimeIntrinsic>(&I)) {
      How.Rules.insert("lifetime");
      if (!Exact.contains(Mark))
        How.Dropped.insert("lifetime");
      Mark->eraseFromParent();
    }
}

//===----------------------------------------------------------------------===//
// getelementptr
//===----------------------------------------------------------------------===//

namespace {

/// One step of a getelementptr: a constant number of bytes, or an index times
/// a number of bytes.
struct Step {
  Value *Index = nullptr;
  int64_t Bytes = 0;
};

/// A getelementptr as steps in bytes.
class Steps {
public:
  Steps(GetElementPtrInst &GEP, const DataLayout &DL) {
    for (auto It = gep_type_begin(GEP), End = gep_type_end(GEP); It != End;
         ++It)
      IsKnown = IsKnown && add(It, DL);
  }

  /// Whether each step could be read.
  bool IsKnown = true;
  SmallVector<Step, 4> All;

private:
  bool add(gep_type_iterator It, const DataLayout &DL) {
    Value *Index = It.getOperand();
    if (!tv::isReadInteger(Index->getType()))
      return false;
    auto *Constant = dyn_cast<ConstantInt>(Index);
    if (StructType *Type = It.getStructTypeOrNull()) {
      TypeSize Offset =
          DL.getStructLayout(Type)->getElementOffset(Constant->getZExtValue());
      return !Offset.isScalable() &&
             addConstant(!Constant->isZero(), Offset.getFixedValue());
    }
    TypeSize Stride = It.getSequentialElementStride(DL);
    if (Stride.isScalable() || Stride.getFixedValue() > MaxStride)
      return false;
    int64_t Bytes = Stride.getFixedValue();
    if (!Constant)
      return Bytes != 0 && (All.push_back({Index, Bytes}), true);
    int64_t Number = Constant->getSExtValue();
    return std::abs(Number) <= MaxStride &&
           addConstant(Number != 0, Number * Bytes);
  }

  /// Adds a constant. An index that isn't 0 asks that the base is in bounds,
  /// even where it adds no bytes: that can't be said, so it isn't known.
  bool addConstant(bool IsIndex, int64_t Bytes) {
    if (Bytes == 0)
      return !IsIndex;
    // Two steps in one direction stay in bounds where the first and the last
    // address do.
    if (!All.empty() && !All.back().Index &&
        (All.back().Bytes < 0) == (Bytes < 0))
      All.back().Bytes += Bytes;
    else
      All.push_back({nullptr, Bytes});
    return true;
  }

  // The bytes of an array that tv reads.
  static constexpr int64_t MaxStride = 1 << 20;
};

} // namespace

/// Whether tv reads a getelementptr as it is.
static bool isRead(const GetElementPtrInst &GEP) {
  GEPNoWrapFlags Flags = GEP.getNoWrapFlags();
  if (Flags != GEPNoWrapFlags::none() && !Flags.isInBounds())
    return false;
  return isReadInMemory(GEP.getSourceElementType());
}

/// Adds the steps one after another, each with the flags of the whole.
static Value *inSteps(Builder &B, GetElementPtrInst &GEP, const Steps &Steps) {
  Value *Pointer = GEP.getPointerOperand();
  GEPNoWrapFlags Flags = GEP.getNoWrapFlags();
  for (const Step &Each : Steps.All) {
    Type *Element = B.getInt8Ty();
    Value *Index = Each.Index;
    if (!Index)
      Index = B.getInt64(Each.Bytes);
    else if (Each.Bytes != 1)
      Element = ArrayType::get(Element, Each.Bytes);
    Pointer = B.Insert(GetElementPtrInst::Create(Element, Pointer, Index));
    cast<GetElementPtrInst>(Pointer)->setNoWrapFlags(Flags);
  }
  return Pointer;
}

/// Flags without `inbounds` are said of the offset's arithmetic; what they say
/// of the sum with the address is lost, since the subset has no addresses.
static Value *byArithmetic(Builder &B, GetElementPtrInst &GEP,
                           const Steps &Steps) {
  bool NSW = GEP.hasNoUnsignedSignedWrap(), NUW = GEP.hasNoUnsignedWrap();
  Value *Offset = nullptr;
  for (const Step &Each : Steps.All) {
    Value *Part = B.getInt64(Each.Bytes);
    if (Each.Index) {
      Value *Index = Each.Index;
      if (!Index->getType()->isIntegerTy(64))
        Index = B.CreateSExt(Index, B.getInt64Ty());
      Part = Each.Bytes == 1 ? Index : B.CreateMul(Index, Part, "", NUW, NSW);
    }
    Offset = Offset ? B.CreateAdd(Offset, Part, "", NUW, NSW) : Part;
  }
  return Offset ? B.CreateGEP(B.getInt8Ty(), GEP.getPointerOperand(), Offset)
                : GEP.getPointerOperand();
}

static void lowerAddress(GetElementPtrInst &GEP, const DataLayout &DL,
                         tv::Lowered &How) {
  if (isRead(GEP) || GEP.getType()->isVectorTy() ||
      GEP.getPointerAddressSpace() != 0 || DL.getIndexSizeInBits(0) != 64)
    return;
  Steps Found(GEP, DL);
  if (!Found.IsKnown)
    return;
  Builder B(&GEP);
  GEPNoWrapFlags Flags = GEP.getNoWrapFlags();
  Value *Pointer;
  if (Flags == GEPNoWrapFlags::none() || Flags.isInBounds()) {
    Pointer = inSteps(B, GEP, Found);
    How.Rules.insert("gep-bytes");
  } else {
    Pointer = byArithmetic(B, GEP, Found);
    How.Rules.insert("gep-wrap");
    if (!Found.All.empty())
      How.Dropped.insert("gep-wrap");
  }
  GEP.replaceAllUsesWith(Pointer);
  GEP.eraseFromParent();
}

//===----------------------------------------------------------------------===//
// alloca
//===----------------------------------------------------------------------===//

static void lowerAlloca(AllocaInst &Alloca, const DataLayout &DL,
                        tv::Lowered &How) {
  if (isReadInMemory(Alloca.getAllocatedType()) && !Alloca.isArrayAllocation())
    return;
  std::optional<TypeSize> Size = Alloca.getAllocationSize(DL);
  if (!Size || Size->isScalable() || Size->isZero() ||
      Alloca.getAddressSpace() != 0 || Alloca.isUsedWithInAlloca() ||
      Alloca.isSwiftError())
    return;
  Builder B(&Alloca);
  Type *Bytes = ArrayType::get(B.getInt8Ty(), Size->getFixedValue());
  AllocaInst *New = B.CreateAlloca(Bytes);
  New->setAlignment(Alloca.getAlign());
  New->takeName(&Alloca);
  Alloca.replaceAllUsesWith(New);
  Alloca.eraseFromParent();
  How.Rules.insert("alloca-bytes");
}

//===----------------------------------------------------------------------===//
// Loads and stores of aggregates
//===----------------------------------------------------------------------===//

namespace {

/// The elements of an aggregate of scalars, with the offset of each.
struct Elements {
  SmallVector<Type *, 4> Types;
  SmallVector<uint64_t, 4> Offsets;
  /// Whether there are bytes before, between or after them that they don't
  /// have.
  bool HasPadding = false;
  bool HasTail = false;
};

} // namespace

// More elements than this are no pair that a register allocator would keep.
static constexpr unsigned MaxElements = 8;

static std::optional<Elements> elementsOf(Type *Whole, const DataLayout &DL) {
  unsigned Count;
  if (auto *Struct = dyn_cast<StructType>(Whole))
    Count = Struct->getNumElements();
  else if (auto *Array = dyn_cast<ArrayType>(Whole))
    Count = std::min<uint64_t>(Array->getNumElements(), MaxElements + 1);
  else
    return std::nullopt;
  if (Count == 0 || Count > MaxElements)
    return std::nullopt;
  Elements Found;
  uint64_t End = 0;
  for (unsigned At = 0; At < Count; ++At) {
    Type *Type = GetElementPtrInst::getTypeAtIndex(Whole, uint64_t(At));
    if (!isReadScalar(Type))
      return std::nullopt;
    uint64_t Offset = isa<StructType>(Whole)
                          ? DL.getStructLayout(cast<StructType>(Whole))
                                ->getElementOffset(At)
                                .getFixedValue()
                          : At * DL.getTypeAllocSize(Type).getFixedValue();
    Found.HasPadding |= Offset != End;
    End = Offset + DL.getTypeStoreSize(Type).getFixedValue();
    Found.Types.push_back(Type);
    Found.Offsets.push_back(Offset);
  }
  Found.HasTail = End != DL.getTypeStoreSize(Whole).getFixedValue();
  return Found;
}

/// The address of an element. `inbounds` would be wrong where the whole access
/// is undefined: the access of the element is so then.
static Value *addressOf(Builder &B, Value *Pointer, uint64_t Offset) {
  return Offset ? B.CreateGEP(B.getInt8Ty(), Pointer, B.getInt64(Offset))
                : Pointer;
}

/// An element of an aggregate that insertvalue or constants make; null where
/// it is another one.
static Value *elementOf(Value *Whole, unsigned At) {
  while (auto *Insert = dyn_cast<InsertValueInst>(Whole)) {
    if (Insert->getNumIndices() != 1)
      return nullptr;
    if (Insert->getIndices()[0] == At)
      return Insert->getInsertedValueOperand();
    Whole = Insert->getAggregateOperand();
  }
  if (auto *C = dyn_cast<Constant>(Whole))
    return C->getAggregateElement(At);
  return nullptr;
}

/// Loads the elements one by one, and puts them together again.
static bool lowerLoad(LoadInst &Load, const DataLayout &DL) {
  std::optional<Elements> Parts = elementsOf(Load.getType(), DL);
  // The bytes after the last element would not be asked for.
  if (!Parts || Parts->HasTail || !Load.isSimple())
    return false;
  Builder B(&Load);
  Value *Whole = PoisonValue::get(Load.getType());
  for (auto [At, Offset] : enumerate(Parts->Offsets)) {
    Value *Address = addressOf(B, Load.getPointerOperand(), Offset);
    Value *Part = B.CreateAlignedLoad(Parts->Types[At], Address,
                                      commonAlignment(Load.getAlign(), Offset));
    Whole = B.CreateInsertValue(Whole, Part, At);
  }
  Load.replaceAllUsesWith(Whole);
  Load.eraseFromParent();
  return true;
}

static bool lowerStore(StoreInst &Store, const DataLayout &DL) {
  Value *Whole = Store.getValueOperand();
  std::optional<Elements> Parts = elementsOf(Whole->getType(), DL);
  // A store of a struct leaves its padding undefined.
  if (!Parts || Parts->HasPadding || Parts->HasTail || !Store.isSimple())
    return false;
  SmallVector<Value *, 4> Values;
  for (unsigned At = 0; At < Parts->Types.size(); ++At) {
    Values.push_back(elementOf(Whole, At));
    if (!Values.back())
      return false;
  }
  Builder B(&Store);
  for (auto [At, Offset] : enumerate(Parts->Offsets))
    B.CreateAlignedStore(Values[At],
                         addressOf(B, Store.getPointerOperand(), Offset),
                         commonAlignment(Store.getAlign(), Offset));
  Store.eraseFromParent();
  return true;
}

static void lowerAggregates(Function &F, tv::Lowered &How) {
  const DataLayout &DL = F.getParent()->getDataLayout();
  auto Each = [&] { return make_early_inc_range(instructions(F)); };
  for (Instruction &I : Each())
    if (auto *Load = dyn_cast<LoadInst>(&I))
      if (lowerLoad(*Load, DL))
        How.Rules.insert("aggregate-parts");
  for (Instruction &I : Each())
    if (auto *Extract = dyn_cast<ExtractValueInst>(&I))
      if (Extract->getNumIndices() == 1)
        if (Value *Part = elementOf(Extract->getAggregateOperand(),
                                    Extract->getIndices()[0])) {
          Extract->replaceAllUsesWith(Part);
          Extract->eraseFromParent();
          How.Rules.insert("aggregate-parts");
        }
  for (Instruction &I : Each())
    if (auto *Store = dyn_cast<StoreInst>(&I))
      if (lowerStore(*Store, DL))
        How.Rules.insert("aggregate-parts");
  // Nothing reads what was put together any more.
  SmallVector<InsertValueInst *, 8> Inserts;
  for (Instruction &I : instructions(F))
    if (auto *Insert = dyn_cast<InsertValueInst>(&I))
      Inserts.push_back(Insert);
  for (InsertValueInst *Insert : reverse(Inserts))
    if (Insert->use_empty())
      Insert->eraseFromParent();
}

//===----------------------------------------------------------------------===//
// memset
//===----------------------------------------------------------------------===//

// The bytes of the largest alloca that tv reads.
static constexpr uint64_t MaxFill = 64;

/// Whether a store of so many bytes through a pointer says all that an
/// attribute of the pointer says.
static bool isSaidByStore(Attribute Each, uint64_t Bytes) {
  if (Each.isStringAttribute())
    return false;
  switch (Each.getKindAsEnum()) {
  // The alignment is the store's.
  case Attribute::Alignment:
  case Attribute::NoUndef:
  case Attribute::NonNull:
  case Attribute::NoCapture:
  case Attribute::WriteOnly:
    return true;
  case Attribute::Dereferenceable:
    return Each.getDereferenceableBytes() <= Bytes;
  case Attribute::DereferenceableOrNull:
    return Each.getDereferenceableOrNullBytes() <= Bytes;
  default:
    return false;
  }
}

/// The number of bytes that a memset fills; 0 where it isn't written out.
static uint64_t filledBytes(const MemSetInst &Fill) {
  auto *Length = dyn_cast<ConstantInt>(Fill.getLength());
  if (!Length || Length->getValue().ugt(MaxFill) || Fill.isVolatile() ||
      Fill.hasOperandBundles() || Fill.getDestAddressSpace() != 0 ||
      tv::carriesUndef(Fill.getValue()) || tv::carriesUndef(Fill.getRawDest()))
    return 0;
  uint64_t Bytes = Length->getZExtValue();
  AttributeList Attributes = Fill.getAttributes();
  bool IsSaid = all_of(Attributes.getParamAttrs(0), [&](Attribute Each) {
    return isSaidByStore(Each, Bytes);
  });
  bool IsPlain = !Attributes.hasParamAttrs(1) && !Attributes.hasParamAttrs(2);
  return IsSaid && IsPlain ? Bytes : 0;
}

/// A byte as often as a number of so many bytes has it; poison of poison.
static Value *repeated(Builder &B, Value *Byte, uint64_t Bytes) {
  Type *Wide = B.getIntNTy(8 * Bytes);
  if (Bytes == 1)
    return Byte;
  if (isa<PoisonValue>(Byte))
    return PoisonValue::get(Wide);
  if (auto *Number = dyn_cast<ConstantInt>(Byte))
    return ConstantInt::get(Wide,
                            APInt::getSplat(8 * Bytes, Number->getValue()));
  Constant *Ones =
      ConstantInt::get(Wide, APInt::getSplat(8 * Bytes, APInt(8, 1)));
  return B.CreateMul(B.CreateZExt(Byte, Wide), Ones);
}

/// Fills by the widest stores that fit, from the first byte on.
static void fillByStores(MemSetInst &Fill, uint64_t Bytes) {
  Builder B(&Fill);
  Align Alignment = Fill.getDestAlign().valueOrOne();
  for (uint64_t Offset = 0; Offset < Bytes;) {
    uint64_t Part = std::min<uint64_t>(8, bit_floor(Bytes - Offset));
    Value *Address = addressOf(B, Fill.getRawDest(), Offset);
    StoreInst *Store =
        B.CreateAlignedStore(repeated(B, Fill.getValue(), Part), Address,
                             commonAlignment(Alignment, Offset));
    Store->copyMetadata(Fill);
    Offset += Part;
  }
  Fill.eraseFromParent();
}

void tv::lowerFills(Function &F, Lowered &How) {
  for (Instruction &I : make_early_inc_range(instructions(F)))
    if (auto *Fill = dyn_cast<MemSetInst>(&I))
      if (uint64_t Bytes = filledBytes(*Fill)) {
        fillByStores(*Fill, Bytes);
        How.Rules.insert("memset");
      }
}

void tv::lowerMemory(Function &F, Lowered &How) {
  const DataLayout &DL = F.getParent()->getDataLayout();
  lowerLifetimes(F, How);
  for (Instruction &I : make_early_inc_range(instructions(F))) {
    if (auto *GEP = dyn_cast<GetElementPtrInst>(&I))
      lowerAddress(*GEP, DL, How);
    else if (auto *Alloca = dyn_cast<AllocaInst>(&I))
      lowerAlloca(*Alloca, DL, How);
  }
  lowerAggregates(F, How);
}
