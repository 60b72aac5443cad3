// The generator PCG XSL RR 128/64, as docs/FORMATS.md describes it ("What `overlay` prints").
#pragma once
#include <cstdint>

using Wide = unsigned __int128;

/// The generator that a seed of 64 bits makes.
class Pcg64 {
  public:
    explicit Pcg64(uint64_t seed) {
        uint32_t words[8];
        for (uint32_t& word : words) {
            seed = seed * 6364136223846793005u + 11634580027462260723u;
            word = rotated32(static_cast<uint32_t>((seed >> 18 ^ seed) >> 27), static_cast<unsigned>(seed >> 59));
        }
        increment = joined(words + 4) | 1;
        state = joined(words) + increment;
        step();
    }

    /// The next word.
    uint64_t next() {
        step();
        auto mixed = static_cast<uint64_t>(state >> 64) ^ static_cast<uint64_t>(state);
        auto by = static_cast<unsigned>(state >> 122);
        return mixed >> by | mixed << (-by & 63);
    }

    /// Leaves out so many words as `EventWords` asks for, at once.
    void jump(Wide multiplier, Wide sum) { state = state * multiplier + increment * sum; }

    static constexpr Wide MULTIPLIER = Wide{0x2360ed051fc65da4} << 64 | 0x4385df649fccf645;

  private:
    static uint32_t rotated32(uint32_t word, unsigned by) { return word >> by | word << (-by & 31); }
    static Wide joined(const uint32_t* words) {
        return Wide{words[3]} << 96 | Wide{words[2]} << 64 | Wide{words[1]} << 32 | words[0];
    }
    void step() { state = state * MULTIPLIER + increment; }

    Wide state, increment;
};

/// The random words of events: 64 for each, of which only those that are used are made.
class EventWords {
  public:
    static constexpr int EACH = 64;

    explicit EventWords(uint64_t seed) : ahead(seed) {
        for (int i = 0; i < EACH; i++) {
            sum = sum * Pcg64::MULTIPLIER + 1;
            multiplier *= Pcg64::MULTIPLIER;
        }
    }

    /// A generator whose next words are those of the next event.
    Pcg64 of_next_event() {
        Pcg64 words = ahead;
        ahead.jump(multiplier, sum);
        return words;
    }

  private:
    Pcg64 ahead;
    Wide multiplier = 1, sum = 0;
};
