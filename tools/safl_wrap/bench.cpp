// {{bench}}: {{calls}} of {{script}} through the module {{wrapper}}, compared with the replies of safl session.
// Written by safl-wrap. It is a test: nothing is proved by it.
//
//   verilator --cc --exe --build --top-module {{wrapper}} {{files}}
//   obj_dir/V{{wrapper}} [SEED [STALLS [show]]]
//
// Both sides pause at random: in STALLS of 100 cycles a side that could go on does not. SEED picks the pauses, and the cycle of a
// second reset, after which all calls are made anew. While nothing is offered to the circuit, its data are random.
{{frames_note}}// With show the results are printed that come after the second reset. The status is 1 if the results are not the session's.
#include "V{{wrapper}}.h"
#include "verilated.h"
#include <cstddef>
#include <cstdint>
#include <cstdio>
#include <cstdlib>
#include <cstring>

using Word = std::uint32_t;
const long CALLS = {{count}}, IN = {{in_count}}, OUT = {{out_count}};  // calls, and transfers of each call and of its result
const long PATIENCE = {{patience}};  // the most cycles in a row without a transfer
const long AFTER = {{after}};  // the cycles after the last result in which no other one may come
const long SPAN = {{span}};  // the second reset comes in one of so many cycles
const bool FRAMED = {{framed}};  // whether there are wrong frames

// What is transferred, in words of 32 bits, the lowest one first.
const int IN_WORDS = {{in_words}}, OUT_WORDS = {{out_words}}, OUT_WIDTH = {{out_width}};
const Word given[CALLS * IN][IN_WORDS] = {
{{given}}
};
const Word wanted[CALLS * OUT][OUT_WORDS] = {
{{wanted}}
};

template <class T> void put(T& port, const Word* words) {
    std::uint64_t number = words[0];
    if (sizeof(T) > sizeof(Word)) number |= std::uint64_t{words[1]} << 32;
    port = static_cast<T>(number);
}
template <std::size_t N> void put(VlWide<N>& port, const Word* words) {
    for (std::size_t i = 0; i < N; i++) port[i] = words[i];
}
template <class T> void get(const T& port, Word* words) {
    words[0] = static_cast<Word>(port);
    if (sizeof(T) > sizeof(Word)) words[1] = static_cast<Word>(std::uint64_t{port} >> 32);
}
template <std::size_t N> void get(const VlWide<N>& port, Word* words) {
    for (std::size_t i = 0; i < N; i++) words[i] = port[i];
}

struct Transfer {
    bool valid, last;
    Word data[OUT_WORDS];
    bool operator==(const Transfer& other) const {
        return valid == other.valid && last == other.last && !std::memcmp(data, other.data, sizeof data);
    }
};

class Bench {
  public:
    Bench(unsigned long seed, long stalls, bool shows) : stalls(stalls), shows(shows), random(seed & 0x7fffffff) {}

    int run() {
        second_reset = 1 + draw() % SPAN;
        for (cycle = 0; got < CALLS * OUT || cycle <= second_reset || cycle < finished + AFTER; cycle++) {
            const bool rst = cycle == 0 || cycle == second_reset;
            top.{{reset}} = {{reset_value}};
            offer();
            top.{{clock}} = 0;
            top.eval();
            if (rst) look_at_reset(); else look();
            if (failed) return 1;
            top.{{clock}} = 1;
            top.eval();
        }
        std::printf("{{bench}}: {{calls}}, results and order as in the session, %ld cycles\n", finished - second_reset);
        return 0;
    }

  private:
    V{{wrapper}} top;
    const long stalls;
    const bool shows;
    unsigned long random;
    long cycle = 0, second_reset = 0;
    long sent = 0, got = 0;  // the transfers since the last reset
    long quiet = 0;  // how many cycles in a row had no transfer
    long finished = 0;  // the cycle of the last result
    bool offered = false;  // whether the next transfer to the circuit is offered
    long place = 0, length = IN;  // the transfers of the frame since its first one, and all of them
    bool wrong = false;  // whether the frame is no call
    bool told = false;  // whether the end of a wrong frame was taken in the last cycle
    bool failed = false;
    Transfer kept = {};  // what was offered from the circuit in the last cycle, and not taken
    unsigned __int128 result = 0;

    long draw() {
        random = (random * 1103515245UL + 12345) & 0x7fffffff;
        return random >> 16;
    }

    void fail(const char* what) {
        if (!failed) std::printf("{{bench}}: FAILED in cycle %ld, call %ld: %s\n", cycle, got / OUT + 1, what);
        failed = true;
    }

    // Some frames have too few transfers or too many.
    void frame() {
        wrong = false;
        length = IN;
        if (!FRAMED) return;
        wrong = draw() % 100 < 30;
        const long drawn = draw();
        if (wrong) length = 1 + drawn % (2 * IN);
        if (wrong && length == IN) length = 2 * IN + 1;
    }

    void offer() {
        const bool goes = draw() % 100 >= stalls;
        if (!offered && sent < CALLS * IN && goes) {
            offered = true;
            if (place == 0) frame();
        }
        top.{{in_valid}} = offered;
        Word noise[IN_WORDS];
        for (Word& word : noise) word = random * 2654435761u;
        {{put_data}}
        {{put_last}}
        top.{{out_ready}} = draw() % 100 >= stalls;
    }

    void look_at_reset() {
        if (top.{{in_ready}} || top.{{out_valid}}) fail("valid or ready in a reset");
        sent = got = quiet = finished = place = 0;
        offered = told = false;
        kept = {};
    }

    void look() {
        Transfer now = {};
        now.valid = top.{{out_valid}};
        now.last = {{is_last}};
        get(top.{{out_data}}, now.data);
        if (now.valid && got == CALLS * OUT) fail("a result too many");
        if (kept.valid && !(kept == now)) fail("a transfer changes before it is taken");
        quiet++;
        kept = {};
        if (now.valid && top.{{out_ready}}) {
            quiet = 0;
            take(now);
        } else if (now.valid) {
            kept = now;
        }
        if (FRAMED && {{frame_error}} != told) fail("a wrong frame is not told, or none is");
        told = false;
        if (offered && top.{{in_ready}}) {
            quiet = 0;
            offered = false;
            sent += !wrong;
            if (++place == length) {
                told = wrong;
                place = 0;
            }
        }
        if (quiet > PATIENCE && got < CALLS * OUT) fail("no transfer for too long");
    }

    void take(const Transfer& now) {
        if (failed) return;
        if (got / OUT >= sent / IN) fail("a result before its call");
        if (std::memcmp(now.data, wanted[got], sizeof now.data)) fail("the result is not the session's");
        if (now.last != (got % OUT == OUT - 1)) fail("last is wrong");
        if (got % OUT == 0) result = 0;
        for (int i = 0; i < OUT_WORDS && OUT_WIDTH * (got % OUT) + 32 * i < 128; i++)
            result |= static_cast<unsigned __int128>(now.data[i]) << (OUT_WIDTH * (got % OUT) + 32 * i);
        got++;
        if (got == CALLS * OUT) finished = cycle;
        if (got % OUT == 0 && cycle > second_reset && shows) show();
    }

    void show() {
        char digits[40];
        int at = 39;
        digits[at] = 0;
        unsigned __int128 rest = result;
        do digits[--at] = '0' + static_cast<int>(rest % 10); while (rest /= 10);
        std::puts(digits + at);
    }
};

int main(int count, char** words) {
    const unsigned long seed = count > 1 ? std::strtoul(words[1], nullptr, 10) : {{seed}};
    const long stalls = count > 2 ? std::strtol(words[2], nullptr, 10) : {{stalls}};
    Bench bench(seed, stalls, count > 3 && !std::strcmp(words[3], "show"));
    return bench.run();
}
