"""Tasks of one rule, done one after the other, and two side by side while a lane of the gate is idle."""
import threading

import lanes

# seconds until an idle lane is looked for again
PAUSE = 5.0


class Tasks:
    """Tasks that are left: functions without arguments, each of which returns the tasks that follow from it."""

    def __init__(self, folder, first):
        self.folder, self.left, self.busy, self.fault = folder, list(first), 0, None
        self.changed = threading.Condition()

    def run(self):
        """Does all tasks, and raises what one of them raised."""
        helper = threading.Thread(target=self.help, daemon=True)
        helper.start()
        while self.wait_for_one():
            self.do_one()
        helper.join()
        if self.fault:
            raise self.fault

    def wait_for_one(self):
        """Waits for a task. Returns `False` if there is none, and none will follow."""
        with self.changed:
            while not self.left and self.busy:
                self.changed.wait()
            return bool(self.left)

    def do_one(self):
        """Does the first task, if one is left."""
        with self.changed:
            task = self.left.pop(0) if self.left else None
            self.busy += task is not None
        if task is None:
            return
        more = []
        try:
            more = task()
        except Exception as fault:
            self.fault = fault
        with self.changed:
            self.left = [] if self.fault else self.left + more
            self.busy -= 1
            self.changed.notify_all()

    def help(self):
        """Does tasks in a second lane, whenever one is idle."""
        while self.wait_for_one():
            with lanes.second(self.folder) as is_idle:
                if is_idle:
                    self.do_one()
            if not is_idle:
                with self.changed:
                    if self.left or self.busy:
                        self.changed.wait(PAUSE)
