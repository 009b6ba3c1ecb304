//===- Reach.cpp - A function with all that it reaches --------------------===//

#include "Reach.h"
#include "llvm/IR/Constants.h"
#include "llvm/IR/DebugInfo.h"
#include "llvm/IR/InstIterator.h"
#include "llvm/IR/IntrinsicInst.h"
#include "llvm/Transforms/Utils/Cloning.h"
#include "llvm/Transforms/Utils/ValueMapper.h"

using namespace llvm;

namespace {

/// Copies one function. Other globals are made where the copy first names them,
/// and completed one after the other: what they name is made meanwhile.
class Copier : public ValueMaterializer {
public:
  Copier(tv::Reach &Names, const Function &Old, Module &New)
      : Names(Names), Old(Old), New(New) {}

  Function *run();
  bool reachesForeignBlock() const { return ForeignBlock; }

  Value *materialize(Value *V) override;

private:
  Function *makeFunction(const Function &From, GlobalValue::LinkageTypes);
  GlobalValue *makeDeclaration(const Function &From);
  GlobalValue *makeVariable(const GlobalVariable &From);
  void copyBody(Function &To);
  void complete(const GlobalValue &From, GlobalValue &To);
  void copyConstants(const Function &From, Function &To);
  void copyMetadata(const GlobalObject &From, GlobalObject &To);
  void copyComdat(const GlobalObject &From, GlobalObject &To);
  void copyFlags();

  Constant *mapped(const Constant *C) {
    return cast<Constant>(MapValue(C, Map, RF_None, nullptr, this));
  }

  tv::Reach &Names;
  const Function &Old;
  Module &New;
  ValueToValueMapTy Map;
  SmallVector<std::pair<const GlobalValue *, GlobalValue *>, 16> Incomplete;
  bool ForeignBlock = false;
};

} // namespace

Function *Copier::run() {
  Function *Copy = makeFunction(Old, Old.getLinkage());
  Map[&Old] = Copy;
  copyBody(*Copy);
  copyConstants(Old, *Copy);
  copyComdat(Old, *Copy);
  copyMetadata(Old, *Copy);
  copyFlags();
  while (!Incomplete.empty()) {
    auto [From, To] = Incomplete.pop_back_val();
    complete(*From, *To);
  }
  return Copy;
}

Value *Copier::materialize(Value *V) {
  if (auto *Address = dyn_cast<BlockAddress>(V)) {
    if (Address->getFunction() == &Old)
      return nullptr;
    ForeignBlock = true;
    return PoisonValue::get(V->getType());
  }
  auto *From = dyn_cast<GlobalValue>(V);
  if (!From || From->getParent() == &New)
    return nullptr;
  GlobalValue *To = nullptr;
  if (auto *Callee = dyn_cast<Function>(From))
    To = makeDeclaration(*Callee);
  else if (auto *Variable = dyn_cast<GlobalVariable>(From))
    To = makeVariable(*Variable);
  else if (isa<GlobalAlias>(From))
    To = GlobalAlias::create(From->getValueType(), From->getAddressSpace(),
                             From->getLinkage(), Names.nameOf(*From), &New);
  else
    To = GlobalIFunc::create(From->getValueType(), From->getAddressSpace(),
                             From->getLinkage(), Names.nameOf(*From), nullptr,
                             &New);
  Incomplete.push_back({From, To});
  return To;
}

/// A function without a body. It has no constants yet, such as a personality:
/// those of `From` are of another module.
Function *Copier::makeFunction(const Function &From,
                               GlobalValue::LinkageTypes Linkage) {
  Function *To =
      Function::Create(From.getFunctionType(), Linkage, From.getAddressSpace(),
                       Names.nameOf(From), &New);
  To->setIsNewDbgInfoFormat(New.IsNewDbgInfoFormat);
  To->copyAttributesFrom(&From);
  To->setPersonalityFn(nullptr);
  To->setPrefixData(nullptr);
  To->setPrologueData(nullptr);
  return To;
}

GlobalValue *Copier::makeDeclaration(const Function &From) {
  return makeFunction(From, From.hasExternalWeakLinkage()
                                ? GlobalValue::ExternalWeakLinkage
                                : GlobalValue::ExternalLinkage);
}

GlobalValue *Copier::makeVariable(const GlobalVariable &From) {
  auto *To = new GlobalVariable(New, From.getValueType(), From.isConstant(),
                                From.getLinkage(), nullptr, Names.nameOf(From),
                                nullptr, From.getThreadLocalMode(),
                                From.getAddressSpace());
  To->copyAttributesFrom(&From);
  return To;
}

/// Takes debug information from an instruction, also from a loop's properties.
static void dropDebugInfo(Instruction &I) {
  I.dropDbgRecords();
  I.setDebugLoc(DebugLoc());
  I.setMetadata(LLVMContext::MD_DIAssignID, nullptr);
  MDNode *Loop = I.getMetadata(LLVMContext::MD_loop);
  if (Loop && any_of(Loop->operands(), [](const MDOperand &Operand) {
        return isa_and_nonnull<DILocation>(Operand.get());
      }))
    updateLoopMetadataDebugLocations(I, [](Metadata *Property) {
      return isa<DILocation>(Property) ? nullptr : Property;
    });
}

void Copier::copyBody(Function &To) {
  for (auto [From, Argument] : zip(Old.args(), To.args())) {
    Argument.setName(From.getName());
    Map[&From] = &Argument;
  }
  for (const BasicBlock &Block : Old)
    Map[&Block] = CloneBasicBlock(&Block, Map, "", &To);
  for (Instruction &I : make_early_inc_range(instructions(To))) {
    if (isa<DbgInfoIntrinsic>(I)) {
      I.eraseFromParent();
      continue;
    }
    dropDebugInfo(I);
    RemapInstruction(&I, Map, RF_None, nullptr, this);
  }
}

/// Gives a global that was made for another one's sake what it has to name.
void Copier::complete(const GlobalValue &From, GlobalValue &To) {
  if (const auto *Alias = dyn_cast<GlobalAlias>(&From)) {
    cast<GlobalAlias>(To).copyAttributesFrom(Alias);
    cast<GlobalAlias>(To).setAliasee(mapped(Alias->getAliasee()));
  } else if (const auto *IFunc = dyn_cast<GlobalIFunc>(&From)) {
    cast<GlobalIFunc>(To).copyAttributesFrom(IFunc);
    cast<GlobalIFunc>(To).setResolver(mapped(IFunc->getResolver()));
    copyMetadata(*IFunc, cast<GlobalIFunc>(To));
  } else if (const auto *Variable = dyn_cast<GlobalVariable>(&From)) {
    if (Variable->hasInitializer())
      cast<GlobalVariable>(To).setInitializer(
          mapped(Variable->getInitializer()));
    copyComdat(*Variable, cast<GlobalVariable>(To));
    copyMetadata(*Variable, cast<GlobalVariable>(To));
  } else {
    const auto &Callee = cast<Function>(From);
    if (Callee.isDeclaration())
      copyConstants(Callee, cast<Function>(To));
    copyMetadata(Callee, cast<Function>(To));
  }
}

void Copier::copyConstants(const Function &From, Function &To) {
  if (From.hasPersonalityFn())
    To.setPersonalityFn(mapped(From.getPersonalityFn()));
  if (From.hasPrefixData())
    To.setPrefixData(mapped(From.getPrefixData()));
  if (From.hasPrologueData())
    To.setPrologueData(mapped(From.getPrologueData()));
}

void Copier::copyMetadata(const GlobalObject &From, GlobalObject &To) {
  SmallVector<std::pair<unsigned, MDNode *>, 4> Found;
  From.getAllMetadata(Found);
  for (auto [Kind, Node] : Found)
    // A profile is of a body.
    if (Kind != LLVMContext::MD_dbg &&
        (Kind != LLVMContext::MD_prof || &From == &Old))
      To.addMetadata(Kind, *MapMetadata(Node, Map, RF_None, nullptr, this));
}

void Copier::copyComdat(const GlobalObject &From, GlobalObject &To) {
  if (const Comdat *Group = From.getComdat()) {
    Comdat *Copy = New.getOrInsertComdat(Group->getName());
    Copy->setSelectionKind(Group->getSelectionKind());
    To.setComdat(Copy);
  }
}

/// Copies the module's flags but for the profile of all its calls, which names
/// each function and means nothing.
void Copier::copyFlags() {
  const NamedMDNode *Flags = Old.getParent()->getModuleFlagsMetadata();
  if (!Flags)
    return;
  for (const MDNode *Flag : Flags->operands()) {
    const auto *Name = Flag->getNumOperands() == 3
                           ? dyn_cast_or_null<MDString>(Flag->getOperand(1))
                           : nullptr;
    if (!Name || Name->getString() != "CG Profile")
      New.getOrInsertModuleFlagsMetadata()->addOperand(
          MapMetadata(Flag, Map, RF_None, nullptr, this));
  }
}

std::optional<tv::WithReach> tv::Reach::copy(const Function &F) {
  auto New = std::make_unique<Module>(M.getModuleIdentifier(), M.getContext());
  New->setSourceFileName("");
  New->setDataLayout(M.getDataLayout());
  New->setTargetTriple(M.getTargetTriple());
  New->setModuleInlineAsm(M.getModuleInlineAsm());
  New->setIsNewDbgInfoFormat(M.IsNewDbgInfoFormat);
  Copier Copy(*this, F, *New);
  Function *Alone = Copy.run();
  if (Copy.reachesForeignBlock())
    return std::nullopt;
  return WithReach{std::move(New), Alone};
}

std::string tv::Reach::nameOf(const GlobalValue &Global) {
  if (Global.hasName())
    return Global.getName().str();
  if (Numbers.empty()) {
    // In the order in which LLVM's print numbers them.
    unsigned Next = 0;
    auto Number = [&](const GlobalValue &Each) {
      if (!Each.hasName())
        Numbers[&Each] = Next++;
    };
    for_each(M.globals(), Number);
    for_each(M.aliases(), Number);
    for_each(M.ifuncs(), Number);
    for_each(M.functions(), Number);
  }
  return Prefix + std::to_string(Numbers.lookup(&Global));
}

std::string tv::Reach::unusedPrefix(ArrayRef<const Module *> Modules) {
  std::string Prefix = "unnamed.";
  while (any_of(Modules, [&](const Module *M) {
    return any_of(M->global_values(), [&](const GlobalValue &Global) {
      return Global.getName().starts_with(Prefix);
    });
  }))
    Prefix += ".";
  return Prefix;
}
