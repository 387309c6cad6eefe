"""Processes, their queues and timeslices (docs/MACHINE.md, section 6)."""
import collections

from memory import require
from words import IPTR, NEXT, workspace_of

HIGH, LOW, MOST_LIVE = 0, 1, 512
# All that is put aside of an interrupted process.
Kept = collections.namedtuple("Kept", "a b c iptr wptr error halt_on_error count")


class Processes:
    """The scheduler of a processor."""

    def add(self, descriptor, iptr):
        """Adds a process, as the loader does."""
        self.may_begin(descriptor)
        self.memory.set_word(workspace_of(descriptor) - IPTR, iptr)
        self.enqueue(descriptor)

    def may_begin(self, descriptor):
        """Checks that a new process may have this descriptor."""
        workspace = workspace_of(descriptor)
        require(workspace % 4 == 0, "Unaligned")
        require(not self.is_taken(workspace), "AlreadyLive")
        live = len(self.queues[HIGH]) + len(self.queues[LOW]) + len(self.waiting)
        live += (self.current is not None) + (self.interrupted is not None)
        require(live < MOST_LIVE, "TooManyProcesses")
        self.memory.may_leave(workspace)

    def is_taken(self, workspace):
        """Tells whether it is the workspace of a live process."""
        is_own = self.current is not None and workspace == self.wptr
        is_kept = self.interrupted is not None and workspace == self.interrupted.wptr
        return is_own or is_kept or workspace in self.memory.saved

    def own(self):
        """Returns the descriptor of the process that runs."""
        return self.wptr + self.current

    def is_interrupted(self, descriptor):
        return self.interrupted is not None and descriptor == self.interrupted.wptr + LOW

    def is_queued(self, descriptor):
        return descriptor in self.queues[descriptor & 1]

    def enqueue(self, descriptor):
        """Puts a process at the back of its queue."""
        queue = self.queues[descriptor & 1]
        if queue:
            self.memory.set_word(workspace_of(queue[-1]) - NEXT, workspace_of(descriptor))
        queue.append(descriptor)
        self.memory.saved.add(workspace_of(descriptor))

    def leave(self):
        """No process runs any more."""
        self.a = self.b = self.c = self.iptr = self.wptr = self.count = 0
        self.current = None

    def wait(self, reason):
        """The process that runs waits from now on."""
        self.memory.set_word(self.wptr - IPTR, self.iptr)
        self.waiting[self.own()] = reason
        self.memory.saved.add(self.wptr)
        self.leave()

    def release(self, descriptor):
        """A process waits no more."""
        del self.waiting[descriptor]
        self.enqueue(descriptor)

    def has_step(self):
        """Tells whether it is neither halted nor idle."""
        is_busy = self.current is not None or self.queues[HIGH] or self.queues[LOW] or self.interrupted
        return bool(is_busy) and not self.is_halted

    def preempts(self):
        return self.current == LOW and bool(self.queues[HIGH])

    def step(self):
        """One step, which there is; a break changes nothing."""
        if self.current is not None and not self.preempts():
            self.do_instruction()
        elif self.queues[HIGH]:
            if self.preempts():
                self.interrupted = Kept(*(getattr(self, it) for it in Kept._fields))
            self.dispatch(HIGH)
        elif self.interrupted:
            for name, value in self.interrupted._asdict().items():
                setattr(self, name, value)
            self.interrupted, self.current = None, LOW
        else:
            self.dispatch(LOW)

    def dispatch(self, priority):
        """The first process of a queue runs."""
        self.leave()
        self.wptr = workspace_of(self.queues[priority].pop(0))
        self.memory.saved.discard(self.wptr)
        self.iptr, self.current = self.memory.word(self.wptr - IPTR), priority

    def may_end_timeslice(self):
        """The check of a jump at which the process gives way to another one."""
        if self.current == LOW and self.count + 1 >= self.timeslice and self.queues[LOW]:
            self.memory.may_leave(self.wptr)

    def end_timeslice(self):
        """Gives way to another low process, or begins another timeslice."""
        self.count = 0
        if self.queues[LOW]:
            self.memory.set_word(self.wptr - IPTR, self.iptr)
            self.enqueue(self.own())
            self.leave()

    # Operations of the scheduler.

    def do_startp(self):
        require(self.a % 4 == 0, "Unaligned")
        self.may_begin(self.a)
        self.memory.set_word(self.a - IPTR, self.iptr + self.b)
        self.enqueue(self.a + self.current)
        self.pop(2)

    def do_endp(self):
        self.memory.touch_word(self.a, False)
        self.memory.touch_word(self.a + 4, True)
        count = self.memory.word(self.a + 4)
        require(count != 1 or self.a == self.wptr or not self.is_taken(self.a), "AlreadyLive")
        self.memory.set_word(self.a + 4, count - 1)
        if count == 1:
            self.wptr, self.iptr = self.a, self.memory.word(self.a)
            self.a = self.b = self.c = 0
        else:
            self.leave()

    def do_runp(self):
        self.may_begin(self.a)
        self.enqueue(self.a)
        self.pop()

    def do_stopp(self):
        self.write(self.wptr - IPTR, self.iptr)
        self.leave()

    def do_stoperr(self):
        if self.error:
            self.do_stopp()
