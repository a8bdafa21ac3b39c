// What C++ does with the glue; it stands behind the text of the sheet in
// tests/end_to_end.rs. `run` answers what is wrong, or null.

#define CHECK(condition)                                                                           \
  if (!(condition)) {                                                                              \
    return #condition;                                                                             \
  }

// The call throws, with this message.
#define THROWS(call, message)                                                                      \
  try {                                                                                            \
    call;                                                                                          \
    return "no exception: " #call;                                                                 \
  } catch (rust::Error const &error) {                                                             \
    CHECK(std::string(error.what()) == message);                                                   \
  }

static char const *values() {
  CHECK(mill::add(7, -9, 0.5, true) == -1);
  CHECK(mill::flip(mill::Tool{3}) == mill::Tool{252});
  mill::Pair pair = mill::turn({-5, 2.5}, mill::Tool{4});
  CHECK(pair.number == -20 && pair.factor == 10.0);
  std::uint8_t bytes[] = {1, 2, 3, 4, 5};
  CHECK(mill::between(bytes + 1, bytes + 4) == 3);
  CHECK(mill::find("spindle", {bytes, 3}).str() == "ndle");
  rust::Slice<std::uint8_t> half = mill::half({bytes, 5});
  CHECK(half.size() == 3 && &half[0] == bytes + 2);
  std::array<std::uint32_t, 3> reversed = mill::reversed({1, 20, 300});
  CHECK(reversed[0] == 300 && reversed[1] == 20 && reversed[2] == 1);
  return nullptr;
}

static char const *jobs() {
  rust::Box<mill::Job> first = mill::Job::open(10, "first");
  rust::Box<mill::Job> second = mill::Job::open(25, "second");
  CHECK(mill::Job::layout::size() == mill::size() && mill::Job::layout::align() == 8);
  CHECK((*first).id() == 10 && (*second).id() == 25);
  CHECK(mill::apart(*first, *second) == -15);
  CHECK(mill::title(*second).str() == "second 25");
  CHECK(&mill::later(*first, *second) == &*second);
  mill::swap(*first, *second);
  CHECK((*first).id() == 25 && (*second).id() == 10);
  (*first).rename("renamed");
  CHECK(mill::close(std::move(second), std::move(first)).str() == "first, renamed");
  return nullptr;
}

static char const *held() {
  mill::Plan plan = mill::plan("crown", 3);
  CHECK(plan.name.str() == "crown" && plan.count == 3);
  CHECK(mill::difference(std::move(plan), {"bridge", 5}).str() == "crown -2 bridge");
  std::unique_ptr<mill::Part> part(new mill::Part(41));
  mill::Part *address = part.get();
  part = mill::finish(std::move(part));
  CHECK(part.get() == address && part->number == 42);
  std::shared_ptr<mill::Part> one(new mill::Part(1)), two(new mill::Part(2));
  std::array<std::shared_ptr<mill::Part>, 2> both = mill::exchanged(one, two);
  CHECK(both[0] == two && both[1] == one && one.use_count() == 2 && two.use_count() == 2);
  return nullptr;
}

static char const *thrown() {
  rust::Box<mill::Job> first = mill::Job::open(1, "first");
  rust::Box<mill::Job> second = mill::Job::open(2, "second");
  CHECK(mill::below(*first, 9) == 8);
  THROWS(mill::below(*second, 1), "over the limit");
  CHECK(&mill::earlier(*second, *first) == &*first);
  THROWS(mill::earlier(*first, *first), "one and the same");
  CHECK((*first).append({"inlay", 4}, ", polished").str() == "first, inlay 4, polished");
  THROWS((*first).append({"onlay", 0}, ""), "no parts");
  (*second).stop();
  THROWS((*second).stop(), "stopped already");
  return nullptr;
}

extern "C" char const *run() {
  // All objects that g++ builds have one such variable.
  mill::Part::dropped = 0;
  for (auto part : {values, jobs, held, thrown}) {
    if (char const *wrong = part()) {
      return wrong;
    }
  }
  CHECK(mill::Part::dropped == 3);
  return nullptr;
}
