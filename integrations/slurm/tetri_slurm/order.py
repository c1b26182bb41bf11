"""What the loop does to jobs: orders one, takes an order back, hands a job over, gives all back. Each job by itself: one that fails stops no other."""
from . import hosts, mark
from .mark import Mark
from .programs import Failed, TimedOut

# Above what any other job has, so that a job that was handed over and waits does not stand before one that is ordered.
HIGHEST = 4294967293


class Orders:
    def __init__(self, programs, query, seconds, clock, host, every=30, longest=3600):
        self.programs, self.query, self.seconds, self.clock, self.host = programs, query, seconds, clock, host
        self.every, self.longest = every, longest
        self.hangs = False

    def _call(self, *words):
        """None where it worked, else why not."""
        try:
            answer = self.programs.run(["scontrol", *words], self.seconds)
        except Failed as why:
            self.hangs |= isinstance(why, TimedOut)
            return str(why)
        return None if answer.status == 0 else answer.reason()

    def _update(self, job, comment, required=None, its=None):
        words = [f"JobId={job}", f"AdminComment={mark.written(comment, its)}"]
        if required is not None:
            words.append(f"ReqNodeList={required}")
        return self._call("update", *words)

    def give(self, job, nodes, others_wait):
        """Orders a planned job onto these nodes; None where it was done, else why not. The mark goes with the list, in one update, so that whose list it is can
        never be lost; then the job is released; then it goes before those that wait, where some do."""
        now = self.query.job(job.name)
        if now is None:
            return "it is not there any more"
        if not now.pending or not now.held_by_user:
            return f"it is {now.state} {now.reason} by now"
        if (now.required, now.restarts) != (job.required, job.restarts):
            return "it was changed since it was planned"
        its = job.mark or Mark(mark.BACKED)
        ordered = its.changed(state=mark.ORDERED, time=int(self.clock.now()), until=0, restarts=job.restarts, wanted=job.required, host=self.host, why="")
        why = self._update(job.name, job.comment, ",".join(nodes), ordered)
        if why:
            # Slurm may keep some of an update that it refuses, as of a job that it could not start there, so what it kept is undone.
            again = self._update(job.name, job.comment, job.required, self._backed(ordered, why))
            return f"update: {why}" + (f"; undoing it: {again}" if again else "")
        why = self._call("release", job.name)
        if why:
            return f"release: {why}"
        if others_wait:
            self._call("update", f"JobId={job.name}", f"Priority={HIGHEST}")
        return None

    def _backed(self, its, why):
        """The mark behind an order that came to nothing: not again before twice as many cycles as the last time."""
        now, tries = int(self.clock.now()), its.tries + 1
        return Mark(mark.BACKED, now, tries, now + int(min(self.every * 2 ** min(tries, 20), self.longest)), its.restarts, "", self.host, why)

    def take_back(self, job):
        """Holds a job that was ordered and did not start, and gives it its user's list; the job as it then is, None where it began or ended, and why it could not
        be done. Where Slurm did start it and put it back into the queue, that counts as no try."""
        its = job.mark
        # Slurm did start it, or it was never released, or an operator held it at once: its nodes did not fail it.
        untried = job.restarts > its.restarts or job.reason.startswith("JobHeld")
        if untried:
            tries = 0 if job.restarts > its.restarts else its.tries
            backed = Mark(mark.BACKED, int(self.clock.now()), tries, 0, job.restarts, "", self.host, its.why)
        else:
            backed = self._backed(its, f"{job.reason} {job.description}".strip())
        found = self.query.job(job.name)
        if found is None or not found.pending:
            return None, None
        by_operator = found.held and found.reason == "JobHeldAdmin"
        if not found.held_by_user and not by_operator:
            why = self._call("uhold", job.name)
            if why:
                return job, f"uhold: {why}"
        why = self._update(job.name, job.comment, its.wanted, backed)
        if why:
            found = self.query.job(job.name)
            if found is not None and not found.pending:
                # It began just now, so the list is that of an order again.
                self._update(job.name, job.comment, None, its)
                return None, None
            if found is None or not same(found.required, its.wanted):
                return job, f"update: {why}"
        return job.changed(comment=mark.written(job.comment, backed), required=its.wanted, priority=0, reason="JobHeldAdmin" if by_operator else "JobHeldUser"), None

    def _is_freed(self, name, wanted):
        """Whether a list was taken back though Slurm answered with an error, as it does for a job that could not start anywhere."""
        found = self.query.job(name)
        return found is not None and same(found.required, wanted)

    def hand_over(self, job, why):
        """Releases a job as it is. The mark comes last: without it the job is Slurm's all the same."""
        name = f"{job.array}_[{job.tasks.split('%')[0]}]" if job.tasks else str(job.leader or job.name)
        failed = self._call("release", name)
        if failed and self._is_held(job.name):
            return f"release: {failed}"
        self._update(name, job.comment, None, Mark(mark.OVER, int(self.clock.now()), host=self.host, why=why))
        return None

    def give_back(self, job):
        """Gives one job back to Slurm: without our list, released, unless an operator holds it or it was held again."""
        its, name = job.mark, f"{job.array}_[{job.tasks.split('%')[0]}]" if job.tasks else str(job.leader or job.name)
        if its and its.state == mark.ORDERED:
            if not job.held:
                # Held and released it has its usual priority again.
                self._call("uhold", name)
            why = self._update(name, job.comment, its.wanted, Mark(mark.OVER, int(self.clock.now()), host=self.host, why="given back"))
            if why and not self._is_freed(job.name, its.wanted):
                return f"update: {why}"
        if job.held and not job.held_by_user:
            return None
        failed = self._call("release", name)
        return failed if failed and self._is_held(job.name) else None

    def _is_held(self, name):
        """Whether a job is held after a release that Slurm answered with an error, as it does for one that could not start anywhere."""
        found = self.query.job(name)
        return found is not None and found.held


def same(one, other):
    """Whether two lists of hosts are of the same hosts."""
    try:
        return sorted(hosts.expand(one)) == sorted(hosts.expand(other))
    except hosts.NoHosts:
        return one == other


def to_give_back(jobs):
    """The jobs that --release-all gives back: held by their users, or ordered by us; not those that were held again after they were handed over."""
    return [it for it in jobs if it.pending and (it.mark and it.mark.state == mark.ORDERED
                                                 or it.held_by_user and not (it.mark and it.mark.state == mark.OVER))]
