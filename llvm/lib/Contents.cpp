//===- Contents.cpp - What functions and variables reach ------------------===//
//
// A function's text names metadata nodes, attribute groups, functions and
// variables, and doesn't say what is in them. Here it is written as one text,
// in which what is reached has a number in the order in which it is met. Only
// its hash is kept. The attributes of a context are never freed, and equal ones
// are one: they are written as their addresses.
//
//===----------------------------------------------------------------------===//

#include "Contents.h"
#include "llvm/ADT/MapVector.h"
#include "llvm/IR/Constants.h"
#include "llvm/IR/DataLayout.h"
#include "llvm/IR/DerivedTypes.h"
#include "llvm/IR/GlobalAlias.h"
#include "llvm/IR/InstIterator.h"
#include "llvm/IR/Instructions.h"
#include "llvm/IR/Module.h"
#include "llvm/Support/raw_ostream.h"
#include "llvm/Support/xxhash.h"

using namespace llvm;

/// Metadata that isn't compared: debug information, and what names positions of
/// a loop.
static bool isLeftOut(unsigned Kind) {
  return Kind == LLVMContext::MD_dbg || Kind == LLVMContext::MD_loop ||
         Kind == LLVMContext::MD_DIAssignID;
}

namespace {

/// Numbers of things in the order in which they are met. Those that are new are
/// written later.
template <typename T> class Met {
public:
  size_t numberOf(const T *Each) {
    auto [At, IsNew] = Numbers.insert({Each, Numbers.size()});
    if (IsNew)
      All.push_back(Each);
    return At->second;
  }

  /// The next one that isn't written, or null.
  const T *next() { return Written < All.size() ? All[Written++] : nullptr; }

private:
  DenseMap<const T *, size_t> Numbers;
  SmallVector<const T *, 16> All;
  size_t Written = 0;
};

class Writer {
public:
  void addFunction(const Function &F) {
    const DataLayout &DL = F.getParent()->getDataLayout();
    OS << DL.getStringRepresentation() << ' '
       << F.getParent()->getTargetTriple() << '\n';
    addHeader(F);
    for (const Use &Each : F.operands())
      addConstant(cast<Constant>(Each), /*IsNamed=*/true);
    for (const Instruction &I : instructions(F)) {
      addAttachments(I);
      if (const auto *Call = dyn_cast<CallBase>(&I))
        OS << Call->getAttributes().getRawPointer();
      for (const Use &Each : I.operands())
        addOperand(*Each);
    }
    finish(/*IsWhole=*/true);
  }

  void addVariable(const GlobalVariable &G) {
    Variables.numberOf(&G);
    finish(/*IsWhole=*/false);
  }

  void addNodes(const MDNode &Node) {
    Nodes.numberOf(&Node);
    finish(/*IsWhole=*/false);
  }

  /// Whether a node was written that is another one than one with its contents.
  bool HasDistinct = false;

  uint64_t hash() {
    OS.flush();
    return xxh3_64bits(Text);
  }

private:
  /// Writes what was met and isn't written: of a variable more than its value
  /// where the whole is asked for.
  void finish(bool IsWhole) {
    while (true) {
      if (const Function *F = Functions.next())
        addHeader(*F);
      else if (const GlobalVariable *G = Variables.next())
        addVariable(*G, IsWhole);
      else if (const Constant *C = Constants.next())
        addContents(*C);
      else if (const MDNode *Node = Nodes.next())
        addNode(*Node);
      else
        return;
    }
  }

  void addHeader(const Function &F) {
    OS << "\nfunction " << F.getName() << ' ' << F.getCallingConv() << ' '
       << F.hasExternalWeakLinkage() << ' ' << F.getAttributes().getRawPointer()
       << ' ';
    addType(F.getFunctionType());
    SmallVector<std::pair<unsigned, MDNode *>, 4> Attachments;
    F.getAllMetadata(Attachments);
    addAttachments(Attachments);
  }

  void addVariable(const GlobalVariable &G, bool IsWhole) {
    OS << "\nvariable " << G.getName() << ' ' << G.isExternallyInitialized()
       << ' ';
    addType(G.getValueType());
    if (G.hasInitializer())
      addConstant(G.getInitializer(), /*IsNamed=*/false);
    if (!IsWhole)
      return;
    OS << G.isConstant() << ' ' << G.getLinkage() << ' ' << G.getVisibility()
       << ' ' << G.getThreadLocalMode() << ' ' << G.getAddressSpace() << ' '
       << int(G.getUnnamedAddr()) << ' ' << G.getAlign().valueOrOne().value()
       << ' ' << G.getSection() << ' ' << G.getAttributes().getAsString();
    SmallVector<std::pair<unsigned, MDNode *>, 4> Attachments;
    G.getAllMetadata(Attachments);
    addAttachments(Attachments);
  }

  void addAttachments(const Instruction &I) {
    if (!I.hasMetadataOtherThanDebugLoc())
      return;
    SmallVector<std::pair<unsigned, MDNode *>, 4> Attachments;
    I.getAllMetadataOtherThanDebugLoc(Attachments);
    addAttachments(Attachments);
  }

  void addAttachments(ArrayRef<std::pair<unsigned, MDNode *>> Attachments) {
    for (auto [Kind, Node] : Attachments)
      if (!isLeftOut(Kind))
        OS << " !" << Kind << ' ' << Nodes.numberOf(Node);
    OS << '\n';
  }

  /// An operand of an instruction. Its text is in that of the function.
  void addOperand(const Value &V) {
    if (const auto *C = dyn_cast<Constant>(&V))
      addConstant(C, /*IsNamed=*/true);
    else if (const auto *Wrapped = dyn_cast<MetadataAsValue>(&V))
      addMetadata(Wrapped->getMetadata());
  }

  /// A constant, or its number where it is made of others.
  void addConstant(const Constant *C, bool IsNamed) {
    if (const auto *F = dyn_cast<Function>(C)) {
      OS << " @" << F->getName();
      // What a table of functions has is no function that is named here.
      if (IsNamed)
        Functions.numberOf(F);
    } else if (const auto *G = dyn_cast<GlobalVariable>(C)) {
      OS << " @" << G->getName() << ' ' << Variables.numberOf(G);
    } else if (!isa<ConstantData>(C)) {
      OS << " c" << Constants.numberOf(C);
    } else if (!IsNamed) {
      addData(*C);
    }
  }

  void addData(const Constant &C) {
    OS << ' ' << C.getValueID() << ' ';
    addType(C.getType());
    if (const auto *Data = dyn_cast<ConstantDataSequential>(&C))
      OS << xxh3_64bits(Data->getRawDataValues());
    else if (const auto *Number = dyn_cast<ConstantInt>(&C))
      OS << Number->getValue();
    else if (const auto *Float = dyn_cast<ConstantFP>(&C))
      OS << Float->getValueAPF().bitcastToAPInt();
  }

  /// A constant that is made of others: its text too, which has the flags of an
  /// expression.
  void addContents(const Constant &C) {
    OS << "\nconstant " << C.getValueID() << ' ';
    addType(C.getType());
    if (isa<ConstantExpr>(C))
      C.printAsOperand(OS, /*PrintType=*/false);
    else if (const auto *Other = dyn_cast<GlobalValue>(&C))
      OS << Other->getName();
    for (const Use &Each : C.operands())
      if (const auto *Inner = dyn_cast<Constant>(Each))
        addConstant(Inner, /*IsNamed=*/false);
  }

  void addNode(const MDNode &Node) {
    HasDistinct |= Node.isDistinct();
    OS << "\nnode " << Node.getMetadataID() << ' ' << Node.isDistinct();
    for (const MDOperand &Each : Node.operands())
      addMetadata(Each.get());
  }

  void addMetadata(const Metadata *M) {
    if (const auto *Node = dyn_cast_or_null<MDNode>(M))
      OS << " !" << Nodes.numberOf(Node);
    else if (const auto *Text = dyn_cast_or_null<MDString>(M))
      OS << " \"" << Text->getString() << '"';
    else if (const auto *C = dyn_cast_or_null<ConstantAsMetadata>(M))
      addConstant(C->getValue(), /*IsNamed=*/false);
    else
      OS << " -";
  }

  /// A type, with the fields of a struct in the place of its name.
  void addType(const Type *T) {
    if (const auto *Struct = dyn_cast<StructType>(T)) {
      OS << (Struct->isOpaque() ? "opaque" : Struct->isPacked() ? "<{" : "{");
      for (const Type *Each : Struct->elements())
        addType(Each);
      OS << '}';
    } else if (const auto *Array = dyn_cast<ArrayType>(T)) {
      OS << '[' << Array->getNumElements() << 'x';
      addType(Array->getElementType());
      OS << ']';
    } else {
      T->print(OS);
      OS << ',';
    }
  }

  std::string Text;
  raw_string_ostream OS{Text};
  Met<Function> Functions;
  Met<GlobalVariable> Variables;
  Met<Constant> Constants;
  Met<MDNode> Nodes;
};

} // namespace

tv::Hashes tv::hashesOf(const Function &F) {
  std::string Text;
  raw_string_ostream Stream(Text);
  F.print(Stream);
  Writer Found;
  Found.addFunction(F);
  return {xxh3_64bits(Text), Found.hash()};
}

uint64_t tv::valueHash(const GlobalVariable &G) {
  Writer Found;
  Found.addVariable(G);
  return Found.hash();
}

uint64_t tv::nodeHash(const MDNode &Node) {
  Writer Found;
  Found.addNodes(Node);
  return Found.HasDistinct ? 0 : Found.hash();
}
