// An engine over the interpreter of wabt, which loads guest.wasm when it runs. It owns its memory, so each step copies the lent memory in and out.
// The interpreter runs on a stack of its own, so core code can stand still while an import is served.
#include "demo_engine.h"

#include "fiber.h"

#include <wabt/binary-reader.h>
#include <wabt/interp/binary-reader-interp.h>
#include <wabt/interp/interp.h>

#include <cstdlib>
#include <cstring>
#include <fstream>
#include <iterator>
#include <memory>
#include <string>
#include <vector>

namespace {

using namespace wabt;
using namespace wabt::interp;

constexpr size_t kStack = 1024 * 1024;

/// The exports by their numbers, as component.h has them.
constexpr const char *kExports[] = {"words", "greet", "total", "make", "unmake", "same", "length", "sum", "broken", "crash"};
/// The imports by their numbers.
constexpr const char *kImports[][2] = {{"counter", "new"}, {"counter", "rep"}, {"counter", "drop"}, {"host", "clock"}, {"host", "log"}};

canon_step Ends(canon_end end) { return canon_step{end, 0, 0, {0}}; }

struct Interp {
  Store store;
  RefPtr<Instance> instance;
  RefPtr<Memory> memory;
  RefPtr<Module> module;
  fiber code{};
  std::string func; // what the next run calls
  Values params;
  canon_step step{};
  uint64_t answer = 0; // the word that a resume brings
  bool stands = false;  // core code stands still at an ask
  bool over = false;    // it is to be left there

  /// The export of this name, or none.
  Func::Ptr Find(const std::string &name) {
    const auto &exports = module->desc().exports;
    for (size_t i = 0; i < exports.size(); i++)
      if (exports[i].type.name == name && exports[i].type.type->kind == ExternKind::Func)
        return store.UnsafeGet<Func>(instance->exports()[i]);
    return {};
  }

  /// Calls an export that returns no word or one.
  canon_step Call(const std::string &name, const Values &params) {
    Func::Ptr func = Find(name);
    if (!func || func->type().params.size() != params.size()) return Ends(CANON_TRAPS);
    Values results;
    Trap::Ptr trap;
    if (Failed(func->Call(store, params, results, &trap))) return Ends(CANON_TRAPS);
    canon_step step = Ends(CANON_RETURNS);
    for (const Value &it : results) step.words[step.count++] = it.Get<u32>();
    return step;
  }

  /// Stands still until the host resumes.
  u32 Ask(u32 import, const Values &words) {
    canon_step ask = Ends(CANON_ASKS);
    ask.import = import;
    for (const Value &it : words) ask.words[ask.count++] = it.Get<u32>();
    step = ask;
    stands = true;
    fiber_leave(&code);
    stands = false;
    return static_cast<u32>(answer);
  }

  void CopyIn(const canon_memory *from) {
    if (from->len > memory->ByteSize()) (void)memory->Grow((from->len - memory->ByteSize()) / 65536);
    if (from->len == memory->ByteSize()) std::memcpy(memory->UnsafeData(), from->bytes, from->len);
  }

  /// Copies memory back, longer where core code grew it.
  bool CopyOut(canon_memory *to) {
    const size_t len = memory->ByteSize();
    if (len < to->len || !canon_grow(to, len - to->len)) return false;
    std::memcpy(to->bytes, memory->UnsafeData(), len);
    return true;
  }

  /// Enters the code's stack in this memory.
  canon_step StepIn(canon_memory *lent) {
    CopyIn(lent);
    fiber_enter(&code);
    return CopyOut(lent) ? step : Ends(CANON_SHORT);
  }
};

void CodeMain(void *data) {
  auto *it = static_cast<Interp *>(data);
  it->step = it->Call(it->func, it->params);
  fiber_leave(&it->code);
}

bool Instantiate(void *data, canon_memory *lent) {
  auto *it = static_cast<Interp *>(data);
  RefVec imports;
  for (const ImportDesc &import : it->module->desc().imports) {
    u32 number = 0;
    while (number < 5 && (import.type.module != kImports[number][0] || import.type.name != kImports[number][1])) number++;
    if (number == 5 || import.type.type->kind != ExternKind::Func) return false;
    const FuncType type = *cast<FuncType>(import.type.type.get());
    auto ask = [it, number](Thread &, const Values &params, Values &results, Trap::Ptr *) {
      const u32 word = it->Ask(number, params);
      if (it->over) return Result::Error; // so that the interpreter leaves its frames
      for (Value &result : results) result = Value::Make(word);
      return Result::Ok;
    };
    imports.push_back(HostFunc::New(it->store, type, ask).ref());
  }
  Trap::Ptr trap;
  it->instance = Instance::Instantiate(it->store, it->module.ref(), imports, &trap);
  if (!it->instance || it->instance->memories().empty()) return false;
  it->memory = it->store.UnsafeGet<Memory>(it->instance->memories()[0]);
  return it->memory->ByteSize() == lent->len && it->CopyOut(lent);
}

canon_step Start(void *data, canon_memory *lent, uint32_t func, const uint64_t *words, size_t count) {
  auto *it = static_cast<Interp *>(data);
  if (func >= std::size(kExports)) return Ends(CANON_TRAPS);
  it->func = kExports[func];
  it->params.clear();
  for (size_t i = 0; i < count; i++) it->params.push_back(Value::Make(static_cast<u32>(words[i])));
  fiber_begin(&it->code, CodeMain, it);
  return it->StepIn(lent);
}

canon_step Resume(void *data, canon_memory *lent, const uint64_t *words, size_t count) {
  auto *it = static_cast<Interp *>(data);
  it->answer = count ? words[0] : 0;
  return it->StepIn(lent);
}

/// Calls what asks for no import.
canon_step Direct(Interp *it, canon_memory *lent, const char *name, const Values &params) {
  it->CopyIn(lent);
  const canon_step step = it->Call(name, params);
  return it->CopyOut(lent) ? step : Ends(CANON_SHORT);
}

canon_step Realloc(void *data, canon_memory *lent, uint64_t old, uint64_t old_size, uint32_t align, uint64_t new_size) {
  const auto word = [](uint64_t n) { return Value::Make(static_cast<u32>(n)); };
  return Direct(static_cast<Interp *>(data), lent, "cabi_realloc", {word(old), word(old_size), word(align), word(new_size)});
}

canon_step PostReturn(void *data, canon_memory *lent, uint32_t, const uint64_t *words, size_t count) {
  return Direct(static_cast<Interp *>(data), lent, "post", {Value::Make(static_cast<u32>(count ? words[0] : 0))});
}

// A counter has nothing to destroy.
canon_step Dtor(void *, canon_memory *, uint32_t, uint32_t) { return Ends(CANON_RETURNS); }

const canon_engine kEngine = {Instantiate, Start, Resume, Realloc, PostReturn, Dtor};

} // namespace

extern "C" const canon_engine *const demo_engine = &kEngine;

extern "C" void *demo_engine_new() {
  const char *path = std::getenv("GUEST_WASM");
  std::ifstream file(path ? path : "guest.wasm", std::ios::binary);
  const std::vector<char> bytes((std::istreambuf_iterator<char>(file)), std::istreambuf_iterator<char>());
  auto it = std::make_unique<Interp>();
  ModuleDesc desc;
  Errors errors;
  if (Failed(ReadBinaryInterp("guest.wasm", bytes.data(), bytes.size(), ReadBinaryOptions(), &errors, &desc))) return nullptr;
  it->module = Module::New(it->store, desc);
  if (!fiber_make(&it->code, kStack)) return nullptr;
  return it.release();
}

extern "C" void demo_engine_free(void *data) {
  std::unique_ptr<Interp> it(static_cast<Interp *>(data));
  if (!it) return;
  it->over = true;
  if (it->stands) fiber_enter(&it->code);
  fiber_free(&it->code);
}
