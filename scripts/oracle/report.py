"""What is printed of a program's plan and of its circuit's registers."""


def answer(is_so):
    return "yes" if is_so else "no"


def function_line(circuit, f):
    calls = sum(circuit.program.sites[k].callee is f for k in circuit.sites)
    return f"function {f.name} sites {calls} arbiter {answer(f.group in circuit.plan.arbiters)}"


def site_line(circuit, k):
    site = circuit.program.sites[k]
    return f"site {k} {site.callee.name} in {site.caller.name} kept {answer(k in circuit.plan.kept)}"


def register_line(circuit):
    widths = [width for _, width in circuit.registers()]
    return f"registers {len(widths)} bits {sum(widths)}"


def report_lines(circuit):
    functions = [function_line(circuit, f) for f in circuit.program.functions]
    return functions + [site_line(circuit, k) for k in circuit.sites] + [register_line(circuit)]


def summary_lines(circuit):
    """The numbers of functions, of sites, of functions with an arbiter, and of registers."""
    functions = circuit.program.functions
    arbiters = sum(f.group in circuit.plan.arbiters for f in functions)
    return [f"functions {len(functions)}", f"sites {len(circuit.sites)}", f"arbiters {arbiters}", register_line(circuit)]
