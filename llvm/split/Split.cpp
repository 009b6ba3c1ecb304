//===- Split.cpp - Cuts modules into functions for the scripts ------------===//
//
//     tv-split A [B]
//
// Reads one or two modules, text or bitcode, with LLVM's own parser and
// verifier, and writes one JSON document to standard output: of each module its
// print without debug information, and its functions with a body in the
// module's order. Of a function that isn't the same in both modules, or of a
// single module, it writes the function alone with all that it reaches
// (lib/Reach.h). docs/TOOLS.md has the fields.
//
// Status: 0, or 1 where A isn't a module, 2 where B isn't, 3 for the command
// line, 4 where a file can't be read, 5 where writing failed. Else than with
// status 0 there is one line on standard error and no document.
//
//===----------------------------------------------------------------------===//

#include "../lib/Reach.h"
#include "Document.h"
#include "Print.h"
#include "llvm/IR/DebugInfo.h"
#include "llvm/IR/DiagnosticInfo.h"
#include "llvm/IR/DiagnosticPrinter.h"
#include "llvm/IR/Verifier.h"
#include "llvm/IRReader/IRReader.h"
#include "llvm/Support/MemoryBuffer.h"
#include "llvm/Support/SourceMgr.h"
#include "llvm/Support/raw_ostream.h"
#include <map>

using namespace llvm;

namespace {

enum Status {
  Success,
  FirstIsNoModule,
  SecondIsNoModule,
  Words,
  Unreadable,
  Unwritten
};

/// One of the modules. Each has a context of its own: two modules in one would
/// get different names for types of equal names.
struct Side {
  LLVMContext Context;
  std::unique_ptr<Module> M;
  tv::Printed Whole;
  std::map<std::string, const Function *> ByName;
};

} // namespace

static int fault(Status Code, StringRef Message) {
  errs() << "tv-split: " << Message.split('\n').first << "\n";
  return Code;
}

/// The words of an error of LLVM's parser: file, line and column first.
static std::string wordsOf(const SMDiagnostic &Error) {
  std::string Text = Error.getFilename().str();
  if (Error.getLineNo() > 0)
    Text += ":" + std::to_string(Error.getLineNo()) + ":" +
            std::to_string(Error.getColumnNo() + 1);
  return Text + ": " + Error.getMessage().str();
}

/// Keeps the print's head as the text has it, so that the lines of a text that
/// LLVM printed are those of its print.
static void setHead(Module &M, MemoryBufferRef Buffer) {
  if (M.getSourceFileName() == Buffer.getBufferIdentifier())
    M.setSourceFileName("");
  StringRef Name = Buffer.getBuffer().split('\n').first;
  bool HasHead = Name.consume_front("; ModuleID = '") && Name.consume_back("'");
  M.setModuleIdentifier(HasHead ? Name : "");
}

/// Reads a module; what is wrong with it, or nothing.
static std::string read(Side &To, MemoryBufferRef Buffer) {
  std::string Wrong;
  To.Context.setDiagnosticHandlerCallBack(
      [](const DiagnosticInfo *Info, void *Wrong) {
        if (Info->getSeverity() != DS_Error)
          return;
        raw_string_ostream Stream(*static_cast<std::string *>(Wrong));
        DiagnosticPrinterRawOStream Printer(Stream);
        Info->print(Printer);
      },
      &Wrong);
  SMDiagnostic Error;
  To.M = parseIR(Buffer, Error, To.Context);
  if (!To.M)
    return wordsOf(Error);
  std::string File = Buffer.getBufferIdentifier().str() + ": ";
  std::string Said;
  raw_string_ostream Stream(Said);
  bool BrokenDebugInfo = false;
  if (verifyModule(*To.M, &Stream, &BrokenDebugInfo))
    return File + Stream.str();
  StripDebugInfo(*To.M);
  setHead(*To.M, Buffer);
  if (!Wrong.empty())
    return File + Wrong;
  To.Whole = tv::print(*To.M);
  return "";
}

/// A function alone, as print; nothing where it can't be cut out.
static std::optional<tv::Printed> alone(tv::Reach &Reach, const Function &F) {
  std::optional<tv::WithReach> Copy = Reach.copy(F);
  if (!Copy)
    return std::nullopt;
  Copy->Module->setModuleIdentifier("");
  return tv::print(*Copy->Module);
}

namespace {

/// The functions of one or two modules, compared.
class Comparison {
public:
  explicit Comparison(ArrayRef<std::unique_ptr<Side>> Sides);

  void write(tv::Document &To);

private:
  struct Cut {
    bool Same = false;
    std::optional<tv::Printed> Alone;
  };

  void compare(const std::string &Name);
  void write(tv::Document &To, size_t At);
  void writeAlone(tv::Document &To, const Cut &Found);

  ArrayRef<std::unique_ptr<Side>> Sides;
  std::vector<tv::Reach> Reaches;
  std::vector<std::map<std::string, Cut>> Cuts;
};

} // namespace

Comparison::Comparison(ArrayRef<std::unique_ptr<Side>> Sides)
    : Sides(Sides), Cuts(Sides.size()) {
  std::vector<const Module *> Modules;
  for (const auto &Each : Sides)
    Modules.push_back(Each->M.get());
  std::string Prefix = tv::Reach::unusedPrefix(Modules);
  for (const Module *M : Modules)
    Reaches.emplace_back(*M, Prefix);
  for (size_t At = 0; At < Sides.size(); ++At)
    for (const tv::PrintedFunction &Each : Sides[At]->Whole.Functions)
      if (!Cuts[At].count(Each.Name))
        compare(Each.Name);
}

/// Cuts the functions of a name out of all modules that have one.
void Comparison::compare(const std::string &Name) {
  for (size_t At = 0; At < Sides.size(); ++At) {
    auto Found = Sides[At]->ByName.find(Name);
    if (Found != Sides[At]->ByName.end())
      Cuts[At][Name].Alone = alone(Reaches[At], *Found->second);
  }
  if (Sides.size() < 2 || !Cuts[0].count(Name) || !Cuts[1].count(Name))
    return;
  Cut &One = Cuts[0][Name], &Other = Cuts[1][Name];
  bool Same = One.Alone && Other.Alone
                  ? One.Alone->Text == Other.Alone->Text
                  : Sides[0]->Whole.body() == Sides[1]->Whole.body();
  if (Same)
    One = Other = {true, std::nullopt};
}

void Comparison::write(tv::Document &To) {
  To.object([&] {
    To.field("tv-split", 1u);
    To.list("modules", Sides.size(), [&](size_t At) { write(To, At); });
    To.field("end", true);
  });
}

void Comparison::write(tv::Document &To, size_t At) {
  const tv::Printed &Whole = Sides[At]->Whole;
  To.object([&] {
    To.field("text", Whole.Text);
    To.list("functions", Whole.Functions.size(), [&](size_t Number) {
      const tv::PrintedFunction &Function = Whole.Functions[Number];
      const Cut &Found = Cuts[At][Function.Name];
      To.object([&] {
        To.field("name", Function.Name);
        To.field("first", Function.FirstLine);
        To.field("lines", Function.Lines);
        To.field("same", Found.Same);
        To.list("notes", Function.Notes.size(), [&](size_t Note) {
          To.object([&] {
            To.field("key", Function.Notes[Note].first);
            To.field("value", Function.Notes[Note].second);
          });
        });
        writeAlone(To, Found);
      });
    });
  });
}

void Comparison::writeAlone(tv::Document &To, const Cut &Found) {
  if (!Found.Alone)
    return;
  const tv::PrintedFunction &Function = Found.Alone->Functions.front();
  To.member("alone");
  To.object([&] {
    To.field("text", Found.Alone->Text);
    To.field("name", Function.Name);
    To.field("first", Function.FirstLine);
    To.field("lines", Function.Lines);
  });
}

int main(int Count, char **Arguments) {
  if (Count != 2 && Count != 3)
    return fault(Words, "one or two files: tv-split A [B]");
  std::vector<std::unique_ptr<Side>> Sides;
  for (int At = 1; At < Count; ++At) {
    auto Buffer = MemoryBuffer::getFile(Arguments[At]);
    if (!Buffer)
      return fault(Unreadable, std::string(Arguments[At]) + ": " +
                                   Buffer.getError().message());
    Sides.push_back(std::make_unique<Side>());
    std::string Wrong = read(*Sides.back(), **Buffer);
    if (!Wrong.empty())
      return fault(At == 1 ? FirstIsNoModule : SecondIsNoModule, Wrong);
    for (const tv::PrintedFunction &Each : Sides.back()->Whole.Functions)
      Sides.back()->ByName[Each.Name] = Each.Function;
  }
  tv::Document Document;
  Comparison(Sides).write(Document);
  outs() << Document.text() << "\n";
  outs().flush();
  if (outs().has_error()) {
    outs().clear_error();
    return fault(Unwritten, "the document can't be written");
  }
  return Success;
}
