"""Where points are built: here, or on a Dask cluster. Its workers need no part of safl-explore: what they run is sent to them."""
import concurrent.futures
import logging
import re
import sys
import time

from safl_tools import outside
from safl_tools.ending import NOT_THERE, WRONG_USE, Refusal

SENT = ("safl_tools", "safl_path", "safl_place", "safl_explore")
PATIENCE = 30  # seconds for which a cluster may have no workers


class Here(concurrent.futures.ThreadPoolExecutor):
    """Threads of this program, as a pool."""

    def changed(self):
        """Nothing that has to be told becomes of threads."""


class Cluster:
    """The workers of a scheduler, as a pool."""

    def __init__(self, address):
        if not re.fullmatch(r"(\w+://)?[^\s/]+:\d+", address):
            raise Refusal(WRONG_USE, f"{address} is no address HOST:PORT of a scheduler")
        distributed = outside.library("distributed", "python3-distributed")
        import cloudpickle
        for name in ("distributed", "tornado", "asyncio"):
            logging.getLogger(name).setLevel(logging.CRITICAL)
        for name, module in list(sys.modules.items()):
            if name.split(".")[0] in SENT:
                cloudpickle.register_pickle_by_value(module)
        try:
            self.client = distributed.Client(address, timeout="10s", set_as_default=False)
        except (OSError, ValueError) as fault:
            why = (str(fault) or "no time left").splitlines()[0]
            raise Refusal(NOT_THERE, f"no scheduler answers at {address}: {why}") from None
        self.workers, self.empty = len(self.client.nthreads()), None
        if not self.workers:
            self.client.close()
            raise Refusal(NOT_THERE, f"the scheduler at {address} has no workers")
        self.pool = self.client.get_executor(pure=False)

    def submit(self, *call):
        return self.pool.submit(*call)

    def changed(self):
        """A line if workers are gone since the last time. The scheduler gives what they had to others."""
        now, before = len(self.client.nthreads()), self.workers
        self.workers = now
        if now:
            self.empty = None
        elif self.empty is None:
            self.empty = time.monotonic()
        elif time.monotonic() - self.empty > PATIENCE:
            raise Refusal(NOT_THERE, "the cluster has no workers any more")
        return f"{before - now} of {before} workers lost: their points are tried again" if now < before else None

    def shutdown(self):
        self.client.close()
