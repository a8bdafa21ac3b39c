// The types of a driver pack, as its sheet in tests/end_to_end.rs has them.
#ifndef TRIALS_MILL_H
#define TRIALS_MILL_H

#include "cxx.h"

namespace mill {
enum class Tool : std::uint8_t;

struct Pair final {
  std::int32_t number;
  double factor;
};

struct Plan final {
  rust::String name;
  std::uint32_t count;
};

struct Part final {
  explicit Part(int number) : number(number) {}
  ~Part() { ++dropped; }
  int number;
  static inline int dropped = 0;
};

struct Job final {
  static rust::Box<Job> open(std::uint32_t id, rust::Str name) noexcept;
  std::uint32_t id() const noexcept;
  void rename(rust::String name) noexcept;
  rust::String append(Plan plan, rust::Str error);
  void stop();
  ~Job() = delete;
  struct layout {
    static std::size_t size() noexcept;
    static std::size_t align() noexcept;
  };
};
} // namespace mill

extern "C" void mill_drop_job(mill::Job *job) noexcept;

template <>
inline void rust::Box<mill::Job>::drop() noexcept {
  mill_drop_job(ptr);
}

#endif
