//===- RulesIntegers.cpp - Integer intrinsics as instructions -------------===//
//
// A poison operand of these intrinsics makes the result poison. So each
// operand takes part in an instruction that gives poison of it, whatever the
// other operands are: no operand only in an arm of a select.
//
//===----------------------------------------------------------------------===//

#include "Rules.h"
#include "llvm/Support/MathExtras.h"

using namespace llvm;
using tv::Builder;

/// Ones in the lower half of each field of 2 * `Half` bits.
static APInt lowerHalves(unsigned Width, unsigned Half) {
  APInt Mask(Width, 0);
  for (unsigned Bit = 0; Bit < Width; ++Bit)
    if (Bit % (2 * Half) < Half)
      Mask.setBit(Bit);
  return Mask;
}

static Constant *number(Value *Like, const APInt &N) {
  return ConstantInt::get(Like->getType(), N);
}

static Constant *number(Value *Like, uint64_t N) {
  return ConstantInt::get(Like->getType(), N);
}

static unsigned widthOf(const Value *V) {
  return V->getType()->getIntegerBitWidth();
}

static Value *minOrMax(Builder &B, CmpInst::Predicate Predicate, Value *X,
                       Value *Y) {
  return B.CreateSelect(B.CreateICmp(Predicate, X, Y), X, Y);
}

static Value *poisonAt(Builder &B, Value *X, Constant *Number, Value *Else) {
  return B.CreateSelect(B.CreateICmpEQ(X, Number),
                        PoisonValue::get(Else->getType()), Else);
}

static Value *absolute(Builder &B, Value *X, bool LeastIsPoison) {
  Value *Zero = number(X, 0);
  Value *Negated = B.CreateSub(Zero, X);
  Value *Result = B.CreateSelect(B.CreateICmpSLT(X, Zero), Negated, X);
  if (!LeastIsPoison)
    return Result;
  Constant *Least = number(X, APInt::getSignedMinValue(widthOf(X)));
  return poisonAt(B, X, Least, Result);
}

static Value *swapBytes(Builder &B, Value *X) {
  unsigned Width = widthOf(X);
  Value *Sum = nullptr;
  for (unsigned From = 0; From < Width; From += 8) {
    Value *Byte = From ? B.CreateLShr(X, number(X, From)) : X;
    Byte = B.CreateAnd(Byte, number(X, 0xff));
    if (unsigned To = Width - 8 - From)
      Byte = B.CreateShl(Byte, number(X, To));
    Sum = Sum ? B.CreateOr(Sum, Byte) : Byte;
  }
  return Sum;
}

/// Swaps halves, then quarters, and so on; a width that is no power of 2 bit
/// by bit.
static Value *reverseBits(Builder &B, Value *X) {
  unsigned Width = widthOf(X);
  if (isPowerOf2_32(Width)) {
    for (unsigned Half = Width / 2; Half; Half /= 2) {
      Value *Mask = number(X, lowerHalves(Width, Half)), *By = number(X, Half);
      Value *High = B.CreateAnd(B.CreateLShr(X, By), Mask);
      X = B.CreateOr(High, B.CreateShl(B.CreateAnd(X, Mask), By));
    }
    return X;
  }
  Value *Sum = nullptr;
  for (unsigned From = 0; From < Width; ++From) {
    Value *Bit = B.CreateAnd(B.CreateLShr(X, number(X, From)), number(X, 1));
    Bit = B.CreateShl(Bit, number(X, Width - 1 - From));
    Sum = Sum ? B.CreateOr(Sum, Bit) : Bit;
  }
  return Sum;
}

/// The sums of fields of 1 bit, then of 2, and so on. A field that the width
/// cuts has as many bits as its number needs.
static Value *countOnes(Builder &B, Value *X) {
  unsigned Width = widthOf(X);
  for (unsigned Half = 1; Half < Width; Half *= 2) {
    Value *Mask = number(X, lowerHalves(Width, Half));
    Value *High = B.CreateAnd(B.CreateLShr(X, number(X, Half)), Mask);
    X = B.CreateAdd(B.CreateAnd(X, Mask), High);
  }
  return X;
}

/// `ctlz`: all bits below the highest one are set; the others are counted.
static Value *leadingZeros(Builder &B, Value *X, bool ZeroIsPoison) {
  Value *Smeared = X;
  for (unsigned By = 1; By < widthOf(X); By *= 2)
    Smeared = B.CreateOr(Smeared, B.CreateLShr(Smeared, number(X, By)));
  Value *Count = countOnes(B, B.CreateNot(Smeared));
  return ZeroIsPoison ? poisonAt(B, X, number(X, 0), Count) : Count;
}

/// `cttz`: the ones of `~x & (x - 1)` are the trailing zeros of x.
static Value *trailingZeros(Builder &B, Value *X, bool ZeroIsPoison) {
  Value *Below = B.CreateAdd(X, Constant::getAllOnesValue(X->getType()));
  Value *Count = countOnes(B, B.CreateAnd(B.CreateNot(X), Below));
  return ZeroIsPoison ? poisonAt(B, X, number(X, 0), Count) : Count;
}

/// Funnel shifts. The other operand is shifted by 1 and by one less than the
/// rest, so that neither shift is by the width where the number is 0, and a
/// poison operand is not lost there.
static Value *funnelShift(Builder &B, bool IsLeft, Value *X, Value *Y,
                          Value *By) {
  unsigned Width = widthOf(X);
  if (Width == 1) {
    // By 0 always: the chosen operand, or poison where another one is.
    Value *Lost = B.CreateOr(IsLeft ? Y : X, By);
    return B.CreateOr(IsLeft ? X : Y, B.CreateAnd(Lost, number(X, 0)));
  }
  Value *Shift = isPowerOf2_32(Width) ? B.CreateAnd(By, number(By, Width - 1))
                                      : B.CreateURem(By, number(By, Width));
  Value *Rest = B.CreateSub(number(By, Width - 1), Shift);
  Value *One = number(X, 1);
  if (IsLeft)
    return B.CreateOr(B.CreateShl(X, Shift),
                      B.CreateLShr(B.CreateLShr(Y, One), Rest));
  return B.CreateOr(B.CreateShl(B.CreateShl(X, One), Rest),
                    B.CreateLShr(Y, Shift));
}

/// The least number where x is negative, else the greatest.
static Value *signedLimit(Builder &B, Value *X) {
  unsigned Width = widthOf(X);
  Value *Signs = B.CreateAShr(X, number(X, Width - 1));
  return B.CreateXor(Signs, number(X, APInt::getSignedMaxValue(Width)));
}

/// Whether x and y have signs that `result` can't have beside them: of a sum
/// both other than its own, of a difference x other than y and than it.
static Value *signsClash(Builder &B, bool IsSum, Value *X, Value *Y,
                         Value *Result) {
  Value *One = B.CreateXor(X, IsSum ? Result : Y);
  Value *Other = B.CreateXor(IsSum ? Y : X, Result);
  return B.CreateICmpSLT(B.CreateAnd(One, Other), number(X, 0));
}

static Value *saturated(Builder &B, Intrinsic::ID ID, Value *X, Value *Y) {
  Type *Type = X->getType();
  switch (ID) {
  case Intrinsic::uadd_sat: {
    Value *Sum = B.CreateAdd(X, Y);
    return B.CreateSelect(B.CreateICmpULT(Sum, X),
                          Constant::getAllOnesValue(Type), Sum);
  }
  case Intrinsic::usub_sat:
    return B.CreateSelect(B.CreateICmpULT(X, Y), number(X, 0),
                          B.CreateSub(X, Y));
  default: {
    bool IsSum = ID == Intrinsic::sadd_sat;
    Value *Result = IsSum ? B.CreateAdd(X, Y) : B.CreateSub(X, Y);
    return B.CreateSelect(signsClash(B, IsSum, X, Y, Result), signedLimit(B, X),
                          Result);
  }
  }
}

/// `scmp` and `ucmp`: -1, 0 or 1.
static Value *threeWay(Builder &B, IntrinsicInst &I, bool IsSigned) {
  Value *X = I.getArgOperand(0), *Y = I.getArgOperand(1);
  Value *Less = IsSigned ? B.CreateICmpSLT(X, Y) : B.CreateICmpULT(X, Y);
  Value *More = IsSigned ? B.CreateICmpSGT(X, Y) : B.CreateICmpUGT(X, Y);
  return B.CreateSelect(Less, Constant::getAllOnesValue(I.getType()),
                        B.CreateZExt(More, I.getType()));
}

Value *tv::writtenOut(Builder &B, IntrinsicInst &I) {
  Value *X = I.getArgOperand(0);
  Value *Y = I.arg_size() > 1 ? I.getArgOperand(1) : nullptr;
  auto Flag = [&] { return cast<ConstantInt>(Y)->isOne(); };
  switch (I.getIntrinsicID()) {
  case Intrinsic::smin:
    return minOrMax(B, CmpInst::ICMP_SLT, X, Y);
  case Intrinsic::smax:
    return minOrMax(B, CmpInst::ICMP_SGT, X, Y);
  case Intrinsic::umin:
    return minOrMax(B, CmpInst::ICMP_ULT, X, Y);
  case Intrinsic::umax:
    return minOrMax(B, CmpInst::ICMP_UGT, X, Y);
  case Intrinsic::abs:
    return absolute(B, X, Flag());
  case Intrinsic::bswap:
    return swapBytes(B, X);
  case Intrinsic::bitreverse:
    return reverseBits(B, X);
  case Intrinsic::ctpop:
    return countOnes(B, X);
  case Intrinsic::ctlz:
    return leadingZeros(B, X, Flag());
  case Intrinsic::cttz:
    return trailingZeros(B, X, Flag());
  case Intrinsic::fshl:
  case Intrinsic::fshr:
    return funnelShift(B, I.getIntrinsicID() == Intrinsic::fshl, X, Y,
                       I.getArgOperand(2));
  case Intrinsic::uadd_sat:
  case Intrinsic::usub_sat:
  case Intrinsic::sadd_sat:
  case Intrinsic::ssub_sat:
    return saturated(B, I.getIntrinsicID(), X, Y);
  case Intrinsic::scmp:
  case Intrinsic::ucmp:
    return threeWay(B, I, I.getIntrinsicID() == Intrinsic::scmp);
  default:
    return nullptr;
  }
}

//===----------------------------------------------------------------------===//
// with.overflow
//===----------------------------------------------------------------------===//

/// Whether the product of two numbers of 64 bits has more bits, and the
/// product. With x = a * 2^32 + b and y = c * 2^32 + d the product is
/// ac * 2^64 + (ad + bc) * 2^32 + bd; it fits where a or c is 0, the sum in the
/// middle fits in 32 bits, and so does all below 2^64.
static tv::WithOverflow wholeProduct(Builder &B, Value *X, Value *Y) {
  Value *Mask = number(X, 0xffffffff), *By = number(X, 32);
  Value *Zero = number(X, 0);
  Value *XHigh = B.CreateLShr(X, By), *XLow = B.CreateAnd(X, Mask);
  Value *YHigh = B.CreateLShr(Y, By), *YLow = B.CreateAnd(Y, Mask);
  Value *Both =
      B.CreateAnd(B.CreateICmpNE(XHigh, Zero), B.CreateICmpNE(YHigh, Zero));
  // One of the two is 0 where `Both` is false, so this sum is exact there.
  Value *Middle =
      B.CreateAdd(B.CreateMul(XHigh, YLow), B.CreateMul(XLow, YHigh));
  Value *Wide = B.CreateICmpNE(B.CreateLShr(Middle, By), Zero);
  Value *Low = B.CreateMul(XLow, YLow);
  Value *Product = B.CreateAdd(B.CreateShl(Middle, By), Low);
  Value *Carry = B.CreateICmpULT(Product, Low);
  return {Product, B.CreateOr(B.CreateOr(Both, Wide), Carry)};
}

/// The signed product of numbers of 64 bits by that of their magnitudes.
static tv::WithOverflow signedProduct(Builder &B, Value *X, Value *Y) {
  Value *Zero = number(X, 0);
  auto [Magnitude, IsWide] =
      wholeProduct(B, absolute(B, X, false), absolute(B, Y, false));
  Value *IsNegative = B.CreateICmpSLT(B.CreateXor(X, Y), Zero);
  Value *Least = number(X, APInt::getSignedMinValue(64));
  Value *TooLow = B.CreateICmpUGT(Magnitude, Least);
  Value *TooHigh = B.CreateICmpUGE(Magnitude, Least);
  Value *Overflows =
      B.CreateOr(IsWide, B.CreateSelect(IsNegative, TooLow, TooHigh));
  return {B.CreateMul(X, Y), Overflows};
}

/// A product: in twice the width where tv reads that, else by halves of 64
/// bits.
static tv::WithOverflow product(Builder &B, bool IsSigned, Value *X, Value *Y) {
  unsigned Width = widthOf(X);
  bool IsShort = 2 * Width <= tv::MaxWidth;
  Type *Wide = B.getIntNTy(IsShort ? 2 * Width : tv::MaxWidth);
  auto Extended = [&](Value *V) {
    if (V->getType() == Wide)
      return V;
    return IsSigned ? B.CreateSExt(V, Wide) : B.CreateZExt(V, Wide);
  };
  tv::WithOverflow Whole;
  Value *XWide = Extended(X), *YWide = Extended(Y);
  if (IsShort)
    Whole = {B.CreateMul(XWide, YWide), B.getFalse()};
  else if (IsSigned)
    Whole = signedProduct(B, XWide, YWide);
  else
    Whole = wholeProduct(B, XWide, YWide);
  if (X->getType() == Wide)
    return Whole;
  Value *Result = B.CreateTrunc(Whole.Result, X->getType());
  Value *Differs = B.CreateICmpNE(Extended(Result), Whole.Result);
  if (!IsShort)
    Differs = B.CreateOr(Differs, Whole.Overflows);
  return {Result, Differs};
}

tv::WithOverflow tv::writtenOut(Builder &B, WithOverflowInst &I) {
  Value *X = I.getLHS(), *Y = I.getRHS();
  switch (I.getIntrinsicID()) {
  case Intrinsic::uadd_with_overflow: {
    Value *Sum = B.CreateAdd(X, Y);
    return {Sum, B.CreateICmpULT(Sum, X)};
  }
  case Intrinsic::usub_with_overflow: {
    Value *Difference = B.CreateSub(X, Y);
    return {Difference, B.CreateICmpULT(X, Y)};
  }
  case Intrinsic::sadd_with_overflow: {
    Value *Sum = B.CreateAdd(X, Y);
    return {Sum, signsClash(B, true, X, Y, Sum)};
  }
  case Intrinsic::ssub_with_overflow: {
    Value *Difference = B.CreateSub(X, Y);
    return {Difference, signsClash(B, false, X, Y, Difference)};
  }
  default:
    return product(B, I.isSigned(), X, Y);
  }
}
