// A small stand-in for the header of the crate cxx: what the text of a sheet
// leans on, and no more. A Rust String has Rust's own functions behind it; who
// loads the text has them.
#ifndef TRIALS_CXX_H
#define TRIALS_CXX_H

#include <array>
#include <cstddef>
#include <cstdint>
#include <exception>
#include <memory>
#include <string>
#include <type_traits>
#include <utility>
#include <vector>

namespace rust {
using isize = std::ptrdiff_t;

namespace repr {
struct PtrLen final {
  void *ptr;
  std::size_t len;
};
using Fat = std::array<std::uintptr_t, 2>;
} // namespace repr

template <typename T>
class impl;

class String;
extern "C" {
void cxxbridge1$string$new(String *self) noexcept;
void cxxbridge1$string$from(String *self, char const *ptr, std::size_t len) noexcept;
void cxxbridge1$string$drop(String *self) noexcept;
char const *cxxbridge1$string$ptr(String const *self) noexcept;
std::size_t cxxbridge1$string$len(String const *self) noexcept;
}

class String final {
public:
  String(char const *text) noexcept {
    cxxbridge1$string$from(this, text, std::char_traits<char>::length(text));
  }
  String(String &&other) noexcept : repr(other.repr) { cxxbridge1$string$new(&other); }
  ~String() noexcept { cxxbridge1$string$drop(this); }
  std::string str() const { return {cxxbridge1$string$ptr(this), cxxbridge1$string$len(this)}; }

private:
  std::array<std::uintptr_t, 3> repr;
};

template <typename T>
class Vec final {
public:
  Vec(Vec &&other) noexcept;
  ~Vec() noexcept;
};

class Str final {
public:
  Str(char const *text) noexcept : ptr(text), len(std::char_traits<char>::length(text)) {}
  std::string str() const { return {ptr, len}; }

private:
  friend impl<Str>;
  Str(repr::Fat fat) noexcept : ptr(reinterpret_cast<char const *>(fat[0])), len(fat[1]) {}
  char const *ptr;
  std::size_t len;
};

template <>
class impl<Str> final {
public:
  static Str new_unchecked(repr::Fat fat) noexcept { return fat; }
};

template <typename T>
class Slice final {
public:
  Slice(T *ptr, std::size_t len) noexcept : ptr(ptr), len(len) {}
  T &operator[](std::size_t at) const noexcept { return ptr[at]; }
  std::size_t size() const noexcept { return len; }

private:
  T *ptr;
  std::size_t len;
};

template <typename T>
class impl<Slice<T>> final {
public:
  static Slice<T> slice(repr::Fat fat) noexcept {
    return {reinterpret_cast<T *>(fat[0]), fat[1]};
  }
};

template <typename T>
class Box final {
public:
  Box(Box &&other) noexcept : ptr(other.into_raw()) {}
  ~Box() noexcept {
    if (ptr) {
      drop();
    }
  }
  T &operator*() noexcept { return *ptr; }
  static Box from_raw(T *ptr) noexcept { return Box(ptr); }
  T *into_raw() noexcept { return std::exchange(ptr, nullptr); }

private:
  explicit Box(T *ptr) noexcept : ptr(ptr) {}
  void drop() noexcept;
  T *ptr;
};

template <typename Signature>
class Fn;

template <typename Ret, typename... Args>
class Fn<Ret(Args...)> final {
public:
  Ret operator()(Args... args) const noexcept {
    return (*trampoline)(std::forward<Args>(args)..., fn);
  }

private:
  Ret (*trampoline)(Args..., void *fn) noexcept;
  void *fn;
};

class Error final : public std::exception {
public:
  char const *what() const noexcept override { return message.c_str(); }

private:
  friend impl<Error>;
  explicit Error(repr::PtrLen text) : message(static_cast<char const *>(text.ptr), text.len) {}
  std::string message;
};

template <>
class impl<Error> final {
public:
  static Error error(repr::PtrLen text) { return Error(text); }
};

template <typename T>
union ManuallyDrop {
  T value;
  ManuallyDrop(T &&value) : value(std::move(value)) {}
  ~ManuallyDrop() {}
};

template <typename T>
union MaybeUninit {
  T value;
  MaybeUninit() {}
  ~MaybeUninit() {}
};
} // namespace rust

#endif
