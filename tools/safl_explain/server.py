"""A server of the language server protocol: the first fault of each open source, with what safl-explain tells about it."""
import os
import re
import sys

from safl_explain import faults, source
from safl_explain.text import Page
from safl_tools import files, temporary
from safl_tools.outside import library

LIBRARY, PACKAGE = "pylsp_jsonrpc", "python3-pylsp-jsonrpc"
ERROR, WHOLE_TEXTS = 1, 1
LINE = re.compile(r".*:(\d+):(\d+): (E\d\d) (.*)", re.S)


def position(page, place):
    """A place in lines and in the units of 16 bits in which the protocol counts columns."""
    line, begin = page.line_of(min(place, len(page.data)))
    before = page.data[begin:place].decode("utf-8", "replace")
    return {"line": line, "character": len(before.encode("utf-16-le")) // 2}


def span(page, spot):
    return {"start": position(page, spot.place), "end": position(page, spot.end)}


def message(report, text):
    """What is told about a fault, as plain lines."""
    told = [f"{report.rule} {text}", report.spot.label, *report.hints, *(f"{word}: {rest}" for word, rest in faults.row(report.row))]
    return "\n".join(filter(None, told))


def diagnostic(page, uri, rule, place, text):
    report = source.explained(page.data, rule, place)
    others = [{"location": {"uri": uri, "range": span(page, each)}, "message": each.label} for each in report.others]
    return {"range": span(page, report.spot), "severity": ERROR, "code": rule, "source": "safl", "message": message(report, text),
            "relatedInformation": others}


def diagnostics(safl, uri, text):
    """The fault of a text as `safl check` reports it, in a list; the list is empty if there is none."""
    with temporary.folder() as folder:
        path = os.path.join(folder, "source.safl")
        files.write(path, text)
        told = safl.told("check", path)
    page, found = Page(text.encode("utf-8", "surrogateescape")), LINE.fullmatch(told.err.strip())
    if not found:
        line = told.err.strip().replace(path, "the source")
        start = {"line": 0, "character": 0}
        return [{"range": {"start": start, "end": start}, "severity": ERROR, "source": "safl", "message": line}] if told.status else []
    return [diagnostic(page, uri, found[3], page.place_of(int(found[1]), int(found[2])), found[4])]


def methods(dispatchers, safl, endpoint, reader):
    """What is done with the messages of the editor, by their names: `m_` and the name in lower case."""

    class Methods(dispatchers.MethodDispatcher):
        def m_initialize(self, **_):
            return {"capabilities": {"textDocumentSync": {"openClose": True, "change": WHOLE_TEXTS}}, "serverInfo": {"name": "safl-explain"}}

        def m_initialized(self, **_):
            pass

        def m_shutdown(self, **_):
            pass

        def m_exit(self, **_):
            reader().close()

        def m_text_document__did_open(self, textDocument=None, **_):
            self.tell(textDocument["uri"], diagnostics(safl, textDocument["uri"], textDocument["text"]))

        def m_text_document__did_change(self, textDocument=None, contentChanges=(), **_):
            self.tell(textDocument["uri"], diagnostics(safl, textDocument["uri"], contentChanges[-1]["text"]))

        def m_text_document__did_close(self, textDocument=None, **_):
            self.tell(textDocument["uri"], [])

        def tell(self, uri, found):
            endpoint().notify("textDocument/publishDiagnostics", {"uri": uri, "diagnostics": found})

    return Methods()


def serve(safl):
    """Serves until the editor ends the connection."""
    library(LIBRARY, PACKAGE)
    from pylsp_jsonrpc import dispatchers, endpoint, streams
    reader, writer = streams.JsonRpcStreamReader(sys.stdin.buffer), streams.JsonRpcStreamWriter(open(1, "wb", closefd=False))
    served = endpoint.Endpoint(methods(dispatchers, safl, lambda: served, lambda: reader), writer.write)
    reader.listen(served.consume)
    served.shutdown()
