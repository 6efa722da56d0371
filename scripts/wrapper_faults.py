"""Changes of a wrapper that safl-wrap wrote, each with what it does. A bench has to find each of them, and a prover to refute it."""

# Of a wrapper with valid and ready and with frames, for a circuit of which calls and results have several transfers.
OF_STREAM = (
    ("ready in a reset", "~rst & (too_long", "(too_long"),
    ("a call is taken while the circuit runs", "~(last_in & busy)", "1'b1"),
    ("a result is offered in a reset", "~rst & full", "full"),
    ("a result that has to wait is lost", "moves_on = (done | waiting)", "moves_on = done"),
    ("a result takes the place of one that is offered", "(~full | over)", "1'b1"),
    ("the circuit counts as free while it runs", "start | (busy & ~moves_on)", "start"),
    ("a result waits for one cycle only", "waiting <= (done | waiting)", "waiting <= done"),
    ("a result is dropped after its first transfer", "(full & ~over)", "(full & ~moves_out)"),
    ("a result is offered for one cycle", "(full & ~over)", "(full & over)"),
    ("a result is offered twice", "full <= moves_on | (full & ~over)", "full <= moves_on | full"),
    ("transfers come in another order", "words = {in_data, held}", "words = {held, in_data}"),
    ("what is offered counts as taken", "else if (moves_in) begin", "else if (in_valid) begin"),
    ("what can be taken counts as offered", "else if (moves_out) count", "else if (out_ready) count"),
    ("a call has a transfer too few", "LAST = IN - 1", "LAST = IN - 2"),
    ("a result has a transfer too few", "LAST = OUT - 1", "LAST = OUT - 2"),
    ("last only when it is taken", "out_last = last_out", "out_last = over"),
    ("the circuit is not reset", ".rst(rst)", ".rst(1'b0)"),
    ("the same transfer again", "kept <= kept >> WIDTH", "kept <= kept"),
    ("a second start", ".start(start)", ".start(start | waiting)"),
    ("a short frame goes on", "(too_long | last_in | in_last) ? 0", "last_in ? 0"),
    ("the end of a long frame is a call", "~in_last & (too_long | last_in)", "~in_last & last_in"),
    ("a long frame is a call", "~too_long & last_in & in_last", "~too_long & last_in"),
    ("a short frame is not told", "in_last & ~start", "in_last & too_long"),
    ("no error at all", "frame_error = wrong", "frame_error = 1'b0"),
    ("no reset of busy", "busy <= 1'b0;", "busy <= busy === 1'b1;"),
    ("no reset of full", "full <= 1'b0;", "full <= full === 1'b1;"),
    ("no reset of the frame", "too_long <= 1'b0;", "too_long <= too_long === 1'b1;"),
    ("no reset of the count of a call", "if (rst) count <= 0;\n        else if (moves_in)",
     "if (rst) count <= ^count === 1'bx ? 0 : count;\n        else if (moves_in)"),
    ("no reset of the count of a result", "if (rst) count <= 0;\n        else if (moves_out)",
     "if (rst) count <= ^count === 1'bx ? 0 : count;\n        else if (moves_out)"),
)
# A bench finds these too seldom, or not at all: some only cost cycles, or make a path.
OF_STREAM_PROVED = (
    ("a call starts while a result waits", "start | (busy & ~moves_on)", "start | (busy & ~done)"),
    ("no reset of waiting", "waiting <= 1'b0;", "waiting <= waiting === 1'b1;"),
    ("a path from ready to ready", "~(last_in & busy)", "~(last_in & busy & ~over)"),
    ("a path from valid to valid", "~rst & full", "~rst & full & ~in_valid"),
    ("an idle cycle after each result", "busy <= start | (busy & ~moves_on)", "busy <= start | (busy & ~(moves_on & waiting)) | done"),
    ("a call waits until the result was taken", "~(last_in & busy)", "~(last_in & (busy | full))"),
)
# Of a wrapper with registers.
OF_REGISTERS = (
    ("a write needs no address", "write = has_address & has_data", "write = has_data"),
    ("a response that has to wait is lost", "(write | (responds & ~s_axi_bready))", "write"),
    ("a write has two responses", "(responds & ~s_axi_bready)", "responds"),
    ("an answer changes while it waits", "if (s_axi_arready) read <= value;", "read <= value;"),
    ("a read has two answers", "has_read ? ~s_axi_rready", "has_read ? 1'b1"),
    ("strobes are ignored", "{8{strobes[0]}}};", "8'hff};"),
    ("a start with every write", "wire start = ~rst & control & data[0]", "wire start = ~rst & write & data[0]"),
    ("done is not kept", "done | (finished & ~start & ~clear)", "done"),
    ("an argument is at another address", "d4) argument_0", "d5) argument_0"),
    ("the circuit gets something else", ".in$a(argument_0)", ".in$a(~argument_0)"),
    ("no reset of busy", "busy <= 1'b0;", "busy <= busy;"),
    ("ready in a reset", "s_axi_wready = ~rst & ~has_data", "s_axi_wready = ~has_data"),
)
# The master of the benches does nothing by which these could be seen, or too seldom.
OF_REGISTERS_PROVED = (
    ("a write is made while a response waits", "has_address & has_data & ~responds", "has_address & has_data"),
    ("a start while the circuit runs", "data[0] & ~busy", "data[0]"),
    ("done is lost if it is cleared then", "done | (finished & ~start & ~clear)", "~clear & (done | (finished & ~start))"),
    ("an interrupt that is not enabled", "finished & enabled", "finished"),
    ("a path from valid to ready", "~rst & ~has_address", "~rst & (~has_address | s_axi_wvalid)"),
)
FAULTS = {"--width 1 --last": OF_STREAM + OF_STREAM_PROVED, "--axi-lite": OF_REGISTERS + OF_REGISTERS_PROVED}  # of wrappers of these shapes


def planted(text, old, new):
    """The wrapper with a fault, if it has the place once."""
    return text.replace(old, new) if text.count(old) == 1 else None
