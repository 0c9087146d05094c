"""Work side by side: as much as there are processors, and as memory holds."""
import threading, time
from collections import namedtuple

from kit import free, processors

# What has to be done before, how soon it has to begin (the highest first), the bytes that it takes, a call that gets
# how many jobs it may use and returns whether it went well, the most jobs that it can use, and whether it yields the
# processors to those that don't: these don't wait for it to end.
Task = namedtuple("Task", "waits rank memory call most yields", defaults=[1, False])
# In how many seconds a check grows to the memory that it takes at most.
GROWS = 180


class Lanes:
    """`reserve` gives the bytes that others may still take, who aren't among the tasks."""

    def __init__(self, tasks, reserve=lambda: 0):
        self.tasks, self.reserve, self.ends, self.running = tasks, reserve, {}, {}
        self.count, self.turn, self.began = processors(), threading.Condition(), time.time()
        self.free = self.least = free()

    def has_room(self, task):
        """Whether there is memory for it, beside what those that began lately may still take."""
        growing = sum(self.tasks[it].memory for it, (_, began) in self.running.items() if time.time() - began < GROWS)
        return not self.running or task.memory + growing + self.reserve() <= free()

    def next(self, left):
        """What begins next, with how many jobs; or None, if nothing can."""
        ready = [it for it in left if all(below in self.ends for below in self.tasks[it].waits)]
        if not ready:
            return None
        first = max(ready, key=lambda it: self.tasks[it].rank)
        task = self.tasks[first]
        beside = [jobs for it, (jobs, _) in self.running.items() if task.yields or not self.tasks[it].yields]
        idle = self.count - sum(beside)
        if idle < 1 or not self.has_room(task):
            return None
        return first, max(1, min(task.most, idle // len(ready)))

    def work(self, key, jobs):
        ended = False
        try:
            ended = all(self.ends[it] for it in self.tasks[key].waits) and self.tasks[key].call(jobs)
        finally:
            with self.turn:
                self.ends[key] = bool(ended)
                del self.running[key]
                self.turn.notify_all()

    @property
    def memory(self):
        """The most memory that was taken meanwhile by all that ran, in MB."""
        return (self.free - self.least) >> 20

    def run(self, goes_on=lambda: None):
        """Does all of it, and returns how each ended. `goes_on` is called once a minute meanwhile."""
        left, told = set(self.tasks), time.time()
        with self.turn:
            while left or self.running:
                found = self.next(left)
                if found:
                    left.remove(found[0])
                    self.running[found[0]] = found[1], time.time()
                    threading.Thread(target=self.work, args=found, daemon=True).start()
                    continue
                self.turn.wait(5)
                self.least = min(self.least, free())
                if time.time() - told >= 60:
                    told = time.time()
                    goes_on()
        return self.ends
