//===- Print.cpp - A module's print, and where its functions are ----------===//

#include "Print.h"
#include "llvm/ADT/StringExtras.h"
#include "llvm/IR/AssemblyAnnotationWriter.h"
#include "llvm/IR/ModuleSlotTracker.h"
#include "llvm/Support/FormattedStream.h"
#include "llvm/Support/raw_ostream.h"

using namespace llvm;

namespace {

/// Notes the offsets at which functions begin and end.
class Marker : public AssemblyAnnotationWriter {
public:
  struct Mark {
    const Function *F;
    uint64_t Begin;
    uint64_t End;
  };

  void emitFunctionAnnot(const Function *F,
                         formatted_raw_ostream &Out) override {
    if (!F->isDeclaration())
      Marks.push_back({F, Out.tell(), 0});
  }

  void emitBasicBlockEndAnnot(const BasicBlock *Block,
                              formatted_raw_ostream &Out) override {
    Marks.back().End = Out.tell();
  }

  std::vector<Mark> Marks;
};

} // namespace

/// The offset of a function's `define`: there may be a comment before it.
static size_t defineAt(StringRef Text, size_t Offset) {
  while (Offset < Text.size() && !Text.substr(Offset).starts_with("define "))
    Offset = Text.find('\n', Offset) + 1;
  return Offset;
}

static std::string nameOf(const Function &F, ModuleSlotTracker &Slots) {
  std::string Name;
  raw_string_ostream Stream(Name);
  F.printAsOperand(Stream, /*PrintType=*/false, Slots);
  return Stream.str().substr(1);
}

static std::vector<std::pair<std::string, std::string>>
notesOf(const Function &F) {
  std::vector<std::pair<std::string, std::string>> Notes;
  for (Attribute Each : F.getAttributes().getFnAttrs())
    if (Each.isStringAttribute() && Each.getKindAsString().starts_with("tv-"))
      Notes.emplace_back(Each.getKindAsString().str(),
                         Each.getValueAsString().str());
  return Notes;
}

tv::Printed tv::print(const Module &M) {
  Printed Found;
  Marker Marks;
  raw_string_ostream Stream(Found.Text);
  M.print(Stream, &Marks);
  Stream.flush();
  // A print without a head begins with an empty line.
  size_t Dropped =
      std::min(Found.Text.find_first_not_of('\n'), Found.Text.size());
  ModuleSlotTracker Slots(&M, /*ShouldInitializeAllMetadata=*/false);
  StringRef Text = Found.Text;
  size_t Counted = Dropped;
  unsigned Line = 1;
  for (const Marker::Mark &Mark : Marks.Marks) {
    size_t Begin = defineAt(Text, Mark.Begin);
    // After the last block there may be orders of uses, then the brace.
    size_t End = Text.find("\n}\n", Mark.End - 1) + 3;
    Line += Text.slice(Counted, Begin).count('\n');
    unsigned Lines = Text.slice(Begin, End).count('\n');
    Found.Functions.push_back(
        {Mark.F, nameOf(*Mark.F, Slots), Line, Lines, notesOf(*Mark.F)});
    Line += Lines;
    Counted = End;
  }
  Found.Text.erase(0, Dropped);
  return Found;
}

StringRef tv::Printed::body() const {
  StringRef Rest = Text;
  while (Rest.starts_with("; ModuleID") || Rest.starts_with("source_filename"))
    Rest = Rest.split('\n').second;
  return Rest;
}
