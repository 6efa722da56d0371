// {{bench}}: {{calls}} of {{script}} through the registers of {{wrapper}}, compared with the replies of safl session.
// Written by safl-wrap. It is a test: nothing is proved by it.
//
//   verilator --cc --exe --build --top-module {{wrapper}} {{files}}
//   obj_dir/V{{wrapper}} [SEED [STALLS]]
//
// The bench is a master on AXI4-Lite. It writes arguments in any order, some of them in two parts and some while a run goes on,
// reads them back, and waits for STATUS or for irq. All channels pause at random: in STALLS of 100 cycles one that could go on
// does not. SEED picks the pauses, and the cycle of a second reset, after which everything is done anew.
#include "V{{wrapper}}.h"
#include "verilated.h"
#include <cstdint>
#include <cstdio>
#include <cstdlib>

enum Kind { WRITE, READ, POLL, WAIT };  // POLL reads until bit 1 is 1, and WAIT waits for irq
struct Step {
    Kind kind;
    std::uint32_t address, data;  // what is written, or what has to be read
    int strobes;
};
const Step steps[] = {
{{table}}
};
const long STEPS = {{steps}}, PATIENCE = {{patience}}, SPAN = {{span}};

class Bench {
  public:
    Bench(unsigned long seed, long stalls) : stalls(stalls), random(seed & 0x7fffffff) {}

    int run() {
        second_reset = 1 + draw() % SPAN;
        begin(0);
        for (cycle = 0; step < STEPS || cycle <= second_reset || quiet < 100; cycle++) {
            const bool rst = cycle == 0 || cycle == second_reset;
            top.aresetn = !rst;
            offer();
            top.aclk = 0;
            top.eval();
            if (rst) look_at_reset(); else look();
            if (failed) return 1;
            top.aclk = 1;
            top.eval();
        }
        std::printf("{{bench}}: {{calls}}, results and order as in the session, %ld cycles\n", cycle - second_reset);
        return 0;
    }

  private:
    V{{wrapper}} top;
    const long stalls;
    unsigned long random;
    long cycle = 0, second_reset = 0;
    long step = 0, quiet = 0;  // what is done, and how many cycles it has taken so long
    bool address_left = false, data_left = false, read_left = false;  // what of it has not been taken
    bool awvalid = false, wvalid = false, arvalid = false;
    bool b_kept = false, r_kept = false;  // what was offered in the last cycle, and not taken
    std::uint32_t kept_data = 0;
    bool failed = false;

    long draw() {
        random = (random * 1103515245UL + 12345) & 0x7fffffff;
        return random >> 16;
    }
    bool goes() { return draw() % 100 >= stalls; }

    void fail(const char* what) {
        if (!failed) std::printf("{{bench}}: FAILED in cycle %ld, step %ld: %s\n", cycle, step, what);
        failed = true;
    }

    bool is(Kind kind) const { return step < STEPS && steps[step].kind == kind; }

    void begin(long number) {
        step = number;
        quiet = 0;
        address_left = data_left = is(WRITE);
        read_left = is(READ) || is(POLL);
    }

    void offer() {
        const bool address = goes(), data = goes(), read = goes();
        awvalid = awvalid || (address_left && address);
        wvalid = wvalid || (data_left && data);
        arvalid = arvalid || (read_left && read);
        top.s_axi_bready = goes();
        top.s_axi_rready = goes();
        top.s_axi_awvalid = awvalid;
        top.s_axi_wvalid = wvalid;
        top.s_axi_arvalid = arvalid;
        if (awvalid) top.s_axi_awaddr = steps[step].address;
        if (wvalid) top.s_axi_wdata = steps[step].data;
        if (wvalid) top.s_axi_wstrb = steps[step].strobes;
        if (arvalid) top.s_axi_araddr = steps[step].address;
    }

    void look_at_reset() {
        if (top.s_axi_awready || top.s_axi_wready || top.s_axi_bvalid || top.s_axi_arready || top.s_axi_rvalid || top.irq)
            fail("valid or ready in a reset");
        awvalid = wvalid = arvalid = b_kept = r_kept = false;
        begin(0);
    }

    void look() {
        const bool bvalid = top.s_axi_bvalid, rvalid = top.s_axi_rvalid;
        const std::uint32_t rdata = top.s_axi_rdata;
        if ((b_kept && !bvalid) || (r_kept && (!rvalid || rdata != kept_data))) fail("what is offered changes");
        b_kept = bvalid && !top.s_axi_bready;
        r_kept = rvalid && !top.s_axi_rready;
        kept_data = rdata;
        if (bvalid && (!is(WRITE) || address_left || data_left)) fail("a response too many");
        if (rvalid && (!(is(READ) || is(POLL)) || read_left)) fail("an answer too many");
        if ((bvalid && top.s_axi_bresp) || (rvalid && top.s_axi_rresp)) fail("a response is not OKAY");
        if (rvalid && is(READ) && rdata != steps[step].data) fail("a register holds something else");
        quiet++;
        if (awvalid && top.s_axi_awready) awvalid = address_left = false;
        if (wvalid && top.s_axi_wready) wvalid = data_left = false;
        if (arvalid && top.s_axi_arready) arvalid = read_left = false;
        if (bvalid && top.s_axi_bready) begin(step + 1);
        else if (rvalid && top.s_axi_rready) {
            if (is(POLL) && !(rdata & 2)) read_left = true; else begin(step + 1);
        } else if (is(WAIT) && top.irq) begin(step + 1);
        if (quiet > PATIENCE && step < STEPS) fail("no end of a step");
    }
};

int main(int count, char** words) {
    const unsigned long seed = count > 1 ? std::strtoul(words[1], nullptr, 10) : {{seed}};
    const long stalls = count > 2 ? std::strtol(words[2], nullptr, 10) : {{stalls}};
    Bench bench(seed, stalls);
    return bench.run();
}
