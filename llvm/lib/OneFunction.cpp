//===- OneFunction.cpp - One function as a module of its own --------------===//

#include "OneFunction.h"
#include "llvm/IR/Constants.h"
#include "llvm/IR/InstIterator.h"
#include "llvm/IR/Instructions.h"
#include "llvm/IR/IntrinsicInst.h"
#include "llvm/Support/raw_ostream.h"
#include "llvm/Transforms/Utils/Cloning.h"
#include "llvm/Transforms/Utils/ValueMapper.h"

using namespace llvm;

namespace {

/// Declares a global in the new module where the copy first names it.
class Declarer : public ValueMaterializer {
public:
  explicit Declarer(Module &M) : M(M) {}

  Value *materialize(Value *V) override {
    auto *Global = dyn_cast<GlobalValue>(V);
    if (!Global || Global->getParent() == &M)
      return nullptr;
    if (auto *Type = dyn_cast<FunctionType>(Global->getValueType()))
      return declareFunction(*Global, Type);
    auto *Variable = dyn_cast<GlobalVariable>(Global);
    auto *New = new GlobalVariable(
        M, Global->getValueType(), Variable && Variable->isConstant(),
        Global->hasExternalWeakLinkage() ? GlobalValue::ExternalWeakLinkage
                                         : GlobalValue::ExternalLinkage,
        nullptr, Global->getName(), nullptr, Global->getThreadLocalMode(),
        Global->getAddressSpace());
    if (Variable)
      New->setAlignment(Variable->getAlign());
    return New;
  }

private:
  Value *declareFunction(GlobalValue &Global, FunctionType *Type) {
    Function *New =
        Function::Create(Type, GlobalValue::ExternalLinkage,
                         Global.getAddressSpace(), Global.getName(), &M);
    if (auto *Old = dyn_cast<Function>(&Global))
      New->setAttributes(Old->getAttributes());
    return New;
  }

  Module &M;
};

} // namespace

/// Whether a constant is made of the address of a block of another function.
static bool namesForeignBlock(const Constant *C, const Function &F) {
  if (const auto *Address = dyn_cast<BlockAddress>(C))
    return Address->getFunction() != &F;
  if (isa<GlobalValue>(C))
    return false;
  return any_of(C->operands(), [&](const Use &Operand) {
    const auto *Inner = dyn_cast<Constant>(Operand);
    return Inner && namesForeignBlock(Inner, F);
  });
}

static bool namesForeignBlock(const Function &F) {
  return any_of(instructions(F), [&](const Instruction &I) {
    return any_of(I.operands(), [&](const Use &Operand) {
      const auto *C = dyn_cast<Constant>(Operand);
      return C && namesForeignBlock(C, F);
    });
  });
}

/// Takes debug information away. LLVM's StripDebugInfo names a kind of metadata
/// that the context may not know yet, and all kinds are written to bitcode.
static void dropDebugInfo(Function &F) {
  F.setSubprogram(nullptr);
  for (Instruction &I : make_early_inc_range(instructions(F))) {
    I.dropDbgRecords();
    I.setDebugLoc(DebugLoc());
    I.setMetadata(LLVMContext::MD_DIAssignID, nullptr);
    // It names positions of the loop.
    I.setMetadata(LLVMContext::MD_loop, nullptr);
    if (isa<DbgInfoIntrinsic>(I))
      I.eraseFromParent();
  }
  Module &M = *F.getParent();
  for (NamedMDNode &Node : make_early_inc_range(M.named_metadata()))
    M.eraseNamedMetadata(&Node);
}

std::optional<tv::Alone> tv::cloneAlone(const Function &F) {
  if (namesForeignBlock(F))
    return std::nullopt;
  const Module &Old = *F.getParent();
  auto New =
      std::make_unique<Module>(Old.getModuleIdentifier(), Old.getContext());
  New->setSourceFileName(Old.getSourceFileName());
  New->setDataLayout(Old.getDataLayout());
  New->setTargetTriple(Old.getTargetTriple());
  New->setIsNewDbgInfoFormat(Old.IsNewDbgInfoFormat);
  Function *Copy =
      Function::Create(F.getFunctionType(), F.getLinkage(), F.getAddressSpace(),
                       F.getName(), New.get());
  ValueToValueMapTy Map;
  Map[&F] = Copy;
  for (auto [From, To] : zip(F.args(), Copy->args())) {
    To.setName(From.getName());
    Map[&From] = &To;
  }
  SmallVector<ReturnInst *, 4> Returns;
  Declarer Globals(*New);
  CloneFunctionInto(Copy, &F, Map, CloneFunctionChangeType::DifferentModule,
                    Returns, "", nullptr, nullptr, &Globals);
  dropDebugInfo(*Copy);
  return Alone{std::move(New), Copy};
}

std::string tv::nameOf(const Function &F) {
  std::string Name;
  raw_string_ostream Stream(Name);
  F.printAsOperand(Stream, /*PrintType=*/false);
  return Name;
}

std::string tv::textOf(const Module &M) {
  std::string Text;
  raw_string_ostream Stream(Text);
  M.print(Stream, nullptr);
  return Text;
}

std::string tv::printed(const Function &F) {
  std::string Text;
  raw_string_ostream Stream(Text);
  Stream << "target datalayout = \"" << F.getParent()->getDataLayoutStr()
         << "\"\n";
  F.print(Stream);
  return Text;
}
