// The proved library, over the boundary: numbers, and slices as a pointer and a length in bytes.
#include "survey.hpp"

extern "C" {
std::uint64_t corkgully_choose(std::uint64_t n, std::uint64_t e, const std::uint8_t *groups, std::size_t groups_length,
                               const std::uint8_t *links, std::size_t links_length, std::uint8_t *marks,
                               std::size_t marks_length, std::uint8_t *amounts, std::size_t amounts_length);
std::uint64_t corkgully_check(std::uint64_t n, std::uint64_t e, const std::uint8_t *groups, std::size_t groups_length,
                              const std::uint8_t *links, std::size_t links_length, const std::uint8_t *marks,
                              std::size_t marks_length, const std::uint8_t *amounts, std::size_t amounts_length);
}

std::uint64_t by_corkgully(Lists &l) {
    return corkgully_choose(l.n, l.e, l.groups.data(), l.groups.size(), l.links.data(), l.links.size(), l.marks.data(),
                            l.marks.size(), l.amounts.data(), l.amounts.size());
}

bool accepted(const Lists &l) {
    return 0 == corkgully_check(l.n, l.e, l.groups.data(), l.groups.size(), l.links.data(), l.links.size(),
                                l.marks.data(), l.marks.size(), l.amounts.data(), l.amounts.size());
}
