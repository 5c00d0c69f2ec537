/*
 * Empty texts and lists as C++ has them: the data of an empty vector may be
 * null. Prints what is wrong, and ends with 1 then.
 */
#include <cstdio>
#include <cstring>
#include <vector>

#include "tolkjirp.h"

static bool is_wrong = false;

/*
 * Expands a text into a list and holds the answer to three numbers, and the
 * tally to no hit, or to one by tool 1 that is the first entry.
 */
static void expect(const char *what, const std::vector<uint8_t> &text,
                   std::vector<int32_t> list, uint64_t refusal,
                   uint64_t count, uint64_t line, uint64_t hits = 0)
{
    const uint64_t expected[3] = {refusal, count, line};
    const tolkjirp_tool tools[TOLKJIRP_TOOLS] = {{hits, hits, hits}};
    uint64_t answer[3] = {99, 99, 99};
    tolkjirp_tool tally[TOLKJIRP_TOOLS];

    std::memset(tally, 77, sizeof tally);
    tolkjirp_expand(TOLKJIRP_HUNDREDTHS, text.data(), text.size(), list.data(),
                    list.size(), tally, answer);
    if (std::memcmp(answer, expected, sizeof answer) != 0) {
        std::printf("%s: %s\n", what, tolkjirp_refusal_text(answer[0]));
        is_wrong = true;
    }
    if (std::memcmp(tally, tools, sizeof tally) != 0) {
        std::printf("%s: the tally is another\n", what);
        is_wrong = true;
    }
}

static std::vector<uint8_t> bytes(const char *text)
{
    return std::vector<uint8_t>(text, text + std::strlen(text));
}

int main()
{
    const std::vector<uint8_t> no_entry = bytes("G92X600.Y600.\nG50\n");
    const std::vector<uint8_t> one_hit = bytes("G92X600.Y600.\nX1T1\nG50\n");
    const std::vector<uint8_t> one_stop = bytes("G92X600.Y600.\nM00\nG50\n");

    expect("both empty", {}, {}, TOLKJIRP_TEXT_LENGTH, 0, 0);
    expect("no text", {}, {7, 7, 7, 7}, TOLKJIRP_TEXT_LENGTH, 0, 0);
    expect("no list, no entry", no_entry, {}, TOLKJIRP_ACCEPTED, 0, 0);
    expect("no list, a hit", one_hit, {}, TOLKJIRP_LIST_FULL, 0, 2);
    expect("no list, a stop", one_stop, {}, TOLKJIRP_LIST_FULL, 0, 2);
    expect("a hit", one_hit, {7, 7, 7, 7}, TOLKJIRP_ACCEPTED, 1, 0, 1);
    expect("a stop", one_stop, {7, 7, 7, 7}, TOLKJIRP_ACCEPTED, 1, 0);
    return is_wrong;
}
