"""The work of src/work.rs as SimPy processes, over the same times. Each list gives its times one by one to whoever asks.

Reads from standard input: the kind of model, how many live, how many customers are to finish, then a line of times for each list.
Prints how many finished, the clock and the seconds of processor time.
"""
import sys
import time

import simpy


class Run:
    """An environment that stops once `customers` have finished."""

    def __init__(self, living, customers, lists):
        self.env = simpy.Environment()
        self.living = living
        self.customers = customers
        self.lists = [iter(times) for times in lists]
        self.done = 0
        self.stop = self.env.event()

    def hold(self, number):
        return self.env.timeout(next(self.lists[number - 1]))

    def finish(self):
        self.done += 1
        if self.done == self.customers:
            self.stop.succeed()

    def closed(self, customer):
        """As many customers as live at one time; each that finishes is followed by another."""
        for _ in range(self.living):
            self.env.process(customer())

    def arrivals(self, number, customer):
        for wait in self.lists[number - 1]:
            yield self.env.timeout(wait)
            self.env.process(customer())


class Changed:
    """Whoever waits for a condition asks it again when something changed."""

    def __init__(self, env):
        self.env = env
        self.event = env.event()

    def fire(self):
        event, self.event = self.event, self.env.event()
        event.succeed()


def single_server(run):
    server = simpy.Resource(run.env, 1)

    def customer():
        with server.request() as request:
            yield request
            yield run.hold(2)
        run.finish()

    run.env.process(run.arrivals(1, customer))


def future_events(run):
    def customer():
        yield run.hold(2)
        run.finish()
        run.env.process(customer())

    run.closed(customer)


def served(run, capacity):
    server = simpy.Resource(run.env, capacity)

    def customer():
        with server.request() as request:
            yield request
            yield run.hold(2)
        run.finish()
        run.env.process(customer())

    run.closed(customer)


def waiting_values(run):
    changed = Changed(run.env)
    busy, used = [0], [0]

    def customer():
        while busy[0] + (used[0] == 2) > 0:
            yield changed.event
        busy[0] = 1
        used[0] += 1
        yield run.hold(2)
        busy[0] = 0
        used[0] -= 1
        changed.fire()
        run.finish()
        run.env.process(customer())

    run.closed(customer)


def ship_and_tug(run):
    changed = Changed(run.env)
    storm, tug, berths = [0], [0], [0]

    def storms():
        while True:
            yield run.hold(2)
            storm[0] = 1
            yield run.hold(3)
            storm[0] = 0
            changed.fire()

    def towed():
        tug[0] = 1
        yield run.hold(5)
        tug[0] = 0
        changed.fire()

    def ship():
        while tug[0] + (berths[0] == 3) + storm[0] > 0:
            yield changed.event
        berths[0] += 1
        yield from towed()
        yield run.hold(6)
        while tug[0] + storm[0] > 0:
            yield changed.event
        yield from towed()
        berths[0] -= 1
        changed.fire()
        run.finish()

    run.env.process(storms())
    run.env.process(run.arrivals(4, ship))


MODELS = {
    "single_server": single_server,
    "future_events": future_events,
    "long_queue": lambda run: served(run, 1),
    "stampede": lambda run: served(run, 10),
    "waiting_values": waiting_values,
    "ship_and_tug": ship_and_tug,
}


def main():
    kind, living, customers = sys.stdin.readline().split()
    lists = [[int(word) for word in line.split()] for line in sys.stdin]
    run = Run(int(living), int(customers), lists)
    start = time.process_time()
    MODELS[kind](run)
    run.env.run(until=run.stop)
    print(run.done, run.env.now, time.process_time() - start)


main()
