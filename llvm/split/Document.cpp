//===- Document.cpp - JSON, written piece by piece ------------------------===//

#include "Document.h"

using namespace llvm;

void tv::Document::object(function_ref<void()> Members) {
  Text += "{";
  Members();
  Text += "}";
}

void tv::Document::list(StringRef Name, size_t Count,
                        function_ref<void(size_t)> Item) {
  member(Name);
  Text += "[";
  for (size_t At = 0; At < Count; ++At) {
    if (At > 0)
      Text += ",\n";
    Item(At);
  }
  Text += "]";
}

void tv::Document::member(StringRef Name) {
  if (Text.back() != '{')
    Text += ",\n";
  string(Name);
  Text += ": ";
}

void tv::Document::field(StringRef Name, StringRef Value) {
  member(Name);
  string(Value);
}

void tv::Document::field(StringRef Name, unsigned Value) {
  member(Name);
  Text += std::to_string(Value);
}

void tv::Document::field(StringRef Name, bool Value) {
  member(Name);
  Text += Value ? "true" : "false";
}

void tv::Document::string(StringRef Value) {
  static const char Digits[] = "0123456789abcdef";
  Text += '"';
  for (unsigned char Byte : Value) {
    if (Byte == '"' || Byte == '\\') {
      Text += '\\';
      Text += static_cast<char>(Byte);
    } else if (Byte == '\n') {
      Text += "\\n";
    } else if (Byte < 0x20 || Byte >= 0x7f) {
      Text += "\\u00";
      Text += Digits[Byte >> 4];
      Text += Digits[Byte & 15];
    } else {
      Text += static_cast<char>(Byte);
    }
  }
  Text += '"';
}
