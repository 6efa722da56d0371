// The accesses to the bus, on the Verilog by Verilator: a master that waits for ready and valid of the AXI4-Lite bus.
#include "Vdivider.h"
#include "bus.h"

namespace {

// The model, after a reset.
class Bus : public Vdivider {
public:
    explicit Bus(VerilatedContext *context) : Vdivider(context)
    {
        s_axi_wstrb = 15;
        aclk = aresetn = 0;
        eval();
        cycle();
        aresetn = 1;
        eval();
    }

    void cycle()
    {
        aclk = 1;
        eval();
        aclk = 0;
        eval();
    }
};

Bus &the_bus()
{
    static VerilatedContext context;
    static Bus bus(&context);
    return bus;
}

}  // namespace

void bus_write(uint32_t address, uint32_t value)
{
    Bus &bus = the_bus();
    bus.s_axi_awaddr = address;
    bus.s_axi_wdata = value;
    bus.s_axi_awvalid = bus.s_axi_wvalid = bus.s_axi_bready = 1;
    bus.eval();
    while (!(bus.s_axi_awready && bus.s_axi_wready)) bus.cycle();
    bus.cycle();
    bus.s_axi_awvalid = bus.s_axi_wvalid = 0;
    bus.eval();
    while (!bus.s_axi_bvalid) bus.cycle();
    bus.cycle();
    bus.s_axi_bready = 0;
    bus.eval();
}

uint32_t bus_read(uint32_t address)
{
    Bus &bus = the_bus();
    bus.s_axi_araddr = address;
    bus.s_axi_arvalid = 1;
    bus.eval();
    while (!bus.s_axi_arready) bus.cycle();
    bus.cycle();
    bus.s_axi_arvalid = 0;
    bus.s_axi_rready = 1;
    bus.eval();
    while (!bus.s_axi_rvalid) bus.cycle();
    uint32_t value = bus.s_axi_rdata;
    bus.cycle();
    bus.s_axi_rready = 0;
    bus.eval();
    return value;
}
