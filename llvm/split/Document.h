//===- Document.h - JSON, written piece by piece --------------------------===//

#ifndef TV_LLVM_DOCUMENT_H
#define TV_LLVM_DOCUMENT_H

#include "llvm/ADT/STLFunctionalExtras.h"
#include "llvm/ADT/StringRef.h"
#include <string>

namespace tv {

/// Writes JSON. A byte of a text is a character of the same number, so that no
/// text is lost, whatever its encoding: llvm/Support/JSON.h takes UTF-8 alone.
class Document {
public:
  void object(llvm::function_ref<void()> Members);
  void list(llvm::StringRef Name, size_t Count,
            llvm::function_ref<void(size_t)> Item);

  void member(llvm::StringRef Name);
  void field(llvm::StringRef Name, llvm::StringRef Value);
  void field(llvm::StringRef Name, const std::string &Value) {
    field(Name, llvm::StringRef(Value));
  }
  void field(llvm::StringRef Name, unsigned Value);
  void field(llvm::StringRef Name, bool Value);

  const std::string &text() const { return Text; }

private:
  void string(llvm::StringRef Value);

  std::string Text;
};

} // namespace tv

#endif
