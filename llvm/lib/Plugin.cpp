//===- Plugin.cpp - What opt and clang load -------------------------------===//

#include "Causes.h"
#include "Lowering.h"
#include "Observer.h"
#include "llvm/Config/llvm-config.h"
#include "llvm/Passes/PassBuilder.h"
#include "llvm/Passes/PassPlugin.h"
#include "llvm/Support/Signals.h"
#include "llvm/Support/WithColor.h"
#include "llvm/Support/raw_ostream.h"
#include <cstdlib>

using namespace llvm;

// What a shell, and the scripts in tools, answer where a program is missing.
static constexpr int NotFound = 127;

/// Has each pass observed. The observer lives as long as the callbacks do, so
/// to the end of the compilation.
static void observe(tv::Options Opts, std::unique_ptr<tv::Checker> Judge,
                    PassInstrumentationCallbacks &PIC) {
  auto Observer =
      std::make_shared<tv::Observer>(std::move(Opts), std::move(Judge), PIC);
  PIC.registerBeforeNonSkippedPassCallback(
      [Observer](StringRef Pass, Any IR) { Observer->before(Pass, IR); });
  PIC.registerAfterPassCallback(
      [Observer](StringRef Pass, Any, const PreservedAnalyses &) {
        Observer->after(Pass);
      });
  PIC.registerAfterPassInvalidatedCallback(
      [Observer](StringRef Pass, const PreservedAnalyses &) {
        Observer->after(Pass);
      });
}

static bool addPass(StringRef Name, ModulePassManager &Passes,
                    ArrayRef<PassBuilder::PipelineElement>) {
  if (Name != "tv-lower")
    return false;
  Passes.addPass(tv::LowerPass());
  return true;
}

static bool addFunctionPass(StringRef Name, FunctionPassManager &Passes,
                            ArrayRef<PassBuilder::PipelineElement>) {
  if (Name != "tv-causes")
    return false;
  Passes.addPass(tv::CausesPass());
  return true;
}

/// The value, or an end of the compiler: where tv, or what is asked of it,
/// isn't known, nothing is checked, and that must not look like passes that are
/// right.
template <typename T> static T valueOrExit(Expected<T> Found, int Status) {
  if (Found)
    return std::move(*Found);
  WithColor::error(errs(), "tv") << toString(Found.takeError()) << '\n';
  // Removes what the compiler has begun to write.
  sys::RunInterruptHandlers();
  std::exit(Status);
}

static std::unique_ptr<tv::Checker> checkerOrExit(const tv::Options &Opts) {
  if (Opts.InProcess)
    return valueOrExit(tv::createLibraryChecker(Opts.Arguments), 1);
  return tv::createProcessChecker(valueOrExit(tv::findProgram(), NotFound),
                                  Opts.Arguments, Opts.Seconds);
}

static void registerPlugin(PassBuilder &Builder) {
  Builder.registerPipelineParsingCallback(addPass);
  Builder.registerPipelineParsingCallback(addFunctionPass);
  tv::Options Opts = valueOrExit(tv::readOptions(), 1);
  PassInstrumentationCallbacks *PIC = Builder.getPassInstrumentationCallbacks();
  if (!Opts.Check || !PIC)
    return;
  std::unique_ptr<tv::Checker> Judge = checkerOrExit(Opts);
  observe(std::move(Opts), std::move(Judge), *PIC);
}

extern "C" LLVM_ATTRIBUTE_WEAK
    LLVM_ATTRIBUTE_VISIBILITY_DEFAULT PassPluginLibraryInfo
    llvmGetPassPluginInfo() {
  return {LLVM_PLUGIN_API_VERSION, "tv", LLVM_VERSION_STRING, registerPlugin};
}
