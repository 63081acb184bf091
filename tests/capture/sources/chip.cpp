// Runs the board of chip.v for Verilator, a tick each unit of time, and prints what each tick ends with.
#include "Vboard.h"
#include "verilated.h"
#include "verilated_vcd_c.h"
#include <bitset>
#include <iostream>

int main() {
    VerilatedContext context;
    context.traceEverOn(true);
    Vboard board(&context);
    VerilatedVcdC trace;
    board.trace(&trace, 99);
    trace.open("out.vcd");
    for (int time = 0; time < 24; time++) {
        // both edges within one unit
        board.clk = 1;
        board.eval();
        trace.dump((uint64_t)time);
        std::cout << "tick " << time << " 0 " << std::bitset<7>(board.cycle) << ' ' << std::bitset<9>(board.raster) << ' ' << std::bitset<1>(board.ba) << ' '
                  << std::bitset<1>(board.aec) << ' ' << std::bitset<8>(board.dma) << ' ' << std::bitset<3>(board.rc) << ' '
                  << std::bitset<10>(board.vc) << ' ' << std::bitset<1>(board.irq) << '\n';
        board.clk = 0;
        board.eval();
    }
    trace.close();
}
