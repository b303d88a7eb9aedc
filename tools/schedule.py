"""When each crate is proved, with how many processes, and about how long the rest takes. `proving.py` goes by it."""
import pathlib

WEIGHTS = pathlib.Path(__file__).resolve().parent / "weights.txt"
# the seconds for a byte of the sources of a crate without a weight, in the mean of all crates
SECONDS_A_BYTE = 0.0009


def weights():
    """The seconds of one processor that the proof of each crate takes."""
    lines = [line.split() for line in WEIGHTS.read_text().splitlines() if not line.startswith("#")]
    return {crate: float(seconds) for crate, seconds in lines}


def span(weight, jobs):
    """How long a proof takes with so many processes. Each process loads the crates below, so two take a third more processor time than one."""
    return weight * (2 + jobs) / (3 * jobs)


class Schedule:
    """The crates of a build, lowest first: those below each, directly or not, and the weight of each. `lanes` processes run side by side."""

    def __init__(self, below, weights, lanes):
        self.below, self.weights, self.lanes = below, weights, lanes

    def chains(self, due):
        """For each crate the weight of the longest chain of those that wait for one another, from it up."""
        behind = {}
        for crate in reversed(due):
            behind[crate] = self.weights[crate] + max((behind[it] for it in behind if crate in self.below[it]), default=0)
        return behind

    def beside(self, crate, due):
        """The weight of the crates that are due and can be proved beside this one."""
        return sum(self.weights[it] for it in due if it != crate and it not in self.below[crate] and crate not in self.below[it])

    def jobs(self, crate, due, busy):
        """How many processes a crate of the longest chain gets: half of them at least, all of them if nothing can be proved beside it, and of the free ones as
        many as its share of the work."""
        weight, beside = self.weights[crate], self.beside(crate, due)
        share = round(self.lanes * weight / (weight + beside))
        return max((self.lanes + 1) // 2, min(share, self.lanes - busy), self.lanes if not beside else 0)

    def next(self, due, at_work):
        """The crates to begin with now, each with its number of processes: those with the longest chains first. One of another chain gets a process once one is
        free. `at_work` has the processes of those that have begun."""
        chains, busy, found = self.chains(due), sum(at_work.values()), {}
        ready = [it for it in due if it not in at_work and not {*self.below[it]} & {*due}]
        for crate in sorted(ready, key=chains.get, reverse=True):
            jobs = self.jobs(crate, due, busy) if chains[crate] == max(chains.values()) else 1
            if jobs > 1 or busy < self.lanes:
                found[crate] = jobs
                busy += jobs
        return found

    def ends(self, due, at_work=(), passed=()):
        """When each crate that is due is proved, from now on. `passed` has how long those at work have been proved; each takes a tenth of its time at least."""
        due, at_work, now, ends = [*due], dict(at_work), 0.0, {}
        rest = {it: max(span(self.weights[it], jobs) - passed[it], span(self.weights[it], jobs) / 10) for it, jobs in at_work.items()}
        while due:
            for crate, jobs in self.next(due, at_work).items():
                at_work[crate], rest[crate] = jobs, span(self.weights[crate], jobs)
            # more processes than lanes share these
            slow = max(1.0, sum(at_work.values()) / self.lanes)
            first = min(rest, key=rest.get)
            now = ends[first] = now + rest[first] * slow
            rest = {it: seconds - rest[first] for it, seconds in rest.items() if it != first}
            due.remove(first)
            del at_work[first]
        return ends
