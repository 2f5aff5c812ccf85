// Reads frames (u32 length, bytes), and answers each with one byte: 1 if FlatBuffers' own verifier takes it for a size-prefixed Feature.
#include "feature_generated.h"
#include <cstdint>
#include <cstdio>
#include <vector>

int main() {
  uint32_t length;
  while (fread(&length, 4, 1, stdin) == 1) {
    std::vector<uint8_t> bytes(length);
    if (length && fread(bytes.data(), length, 1, stdin) != 1) return 1;
    flatbuffers::Verifier verifier(bytes.data(), length);
    putchar(VerifySizePrefixedFeatureBuffer(verifier) ? 1 : 0);
    fflush(stdout);
  }
}
