//===- NoLibrary.cpp - In the place of LibraryChecker.cpp -----------------===//

#include "Checker.h"

using namespace llvm;

Expected<std::unique_ptr<tv::Checker>>
tv::createLibraryChecker(std::vector<std::string> Arguments) {
  return createStringError("-tv-in-process: this plugin was built without the "
                           "library (cmake -DTV_LIBRARY=FILE)");
}
