// Families of surveys with as many groups and links as there can be.
#pragma once
#include "survey.hpp"
#include <string>

// The same numbers on every machine (splitmix64).
class Random {
  public:
    explicit Random(std::uint64_t seed) : state(seed) {}
    std::uint64_t next();
    unsigned below(unsigned limit) { return unsigned((next() >> 32) * limit >> 32); }

  private:
    std::uint64_t state;
};

extern const std::vector<std::string> SHAPES, COUNTS;

// A survey of a shape and a sort of counts that these lists name.
Survey make(const std::string &shape, const std::string &counts, Random &random);

// A survey near this one: a few counts or links changed. It may have a cycle.
Survey near(const Survey &survey, Random &random);
