"""The two programs on a pseudo-terminal, as the test plays them: the panel, which says an object of JSON for each event, and the simulated boards, which
take orders."""
import json
import os
import signal
import subprocess
import threading
import time


class Failed(Exception):
    """Something did not happen as it must."""


def command_of(out, name):
    """The words that run a program."""
    with open(os.path.join(out, name + ".words"), encoding="utf-8") as file:
        return file.read().split("\n")[:-1]


class Program:
    """A running program, with what it has said so far, line by line."""

    running = []

    def __init__(self, out, name, words, log, **more):
        self.log = open(os.path.join(out, log), "w", encoding="utf-8")
        self.name, self.said, self.changed = name, [], threading.Condition()
        self.process = subprocess.Popen(command_of(out, name) + words, stdin=subprocess.PIPE, stdout=subprocess.PIPE, text=True, **more)
        Program.running.append(self)
        self.reader = threading.Thread(target=self.read, daemon=True)
        self.reader.start()

    def read(self):
        for line in self.process.stdout:
            self.log.write(line)
            self.log.flush()
            with self.changed:
                self.said.append(self.understood(line.rstrip("\n")))
                self.changed.notify_all()

    def understood(self, line):
        return line

    def place(self):
        """How much was said so far: what is said later stands from there on."""
        with self.changed:
            return len(self.said)

    def since(self, place):
        with self.changed:
            return self.said[place:]

    def wait(self, what, test, place=0, seconds=20):
        """Waits until something that passes the test is said at this place or later. Where it was said, and what."""
        end = time.monotonic() + seconds
        with self.changed:
            while True:
                for i in range(place, len(self.said)):
                    if test(self.said[i]):
                        return i, self.said[i]
                place = len(self.said)
                left = end - time.monotonic()
                if left <= 0 or not self.changed.wait(left):
                    raise Failed(f"{self.name} did not say within {seconds} s: {what}. It ends with:\n" +
                                 "\n".join(map(str, self.said[-12:])))

    def kill(self):
        self.process.kill()
        self.process.wait()

    @staticmethod
    def kill_all():
        for program in Program.running:
            program.kill()

    def stop(self):
        """Asks it to end. Its exit status."""
        self.process.send_signal(signal.SIGTERM)
        status = self.process.wait(20)
        self.reader.join(20)
        return status


class Boards(Program):
    def __init__(self, out, link, faster, *words):
        super().__init__(out, "boards", ["--link", link, "--faster", str(faster), *words], f"boards-{time.monotonic_ns()}.txt")
        self.wait("its device", lambda line: line.startswith("device "))

    def order(self, words):
        """Gives an order, which must be taken."""
        place = self.place()
        self.process.stdin.write(words + "\n")
        self.process.stdin.flush()
        _, line = self.wait(f"an answer to '{words}'", lambda line: line.startswith(("ok", "no:")), place)
        if line.startswith("no:"):
            raise Failed(f"boards do not take '{words}': {line}")


class Panel(Program):
    def __init__(self, out, link, faster, *words):
        super().__init__(out, "panel", [link, "--json", "--faster", str(faster), *words], f"panel-{time.monotonic_ns()}.json")

    def understood(self, line):
        return json.loads(line)

    def event(self, name, place=0, seconds=20, **values):
        """Waits for an event with these values."""
        def test(event):
            return event["event"] == name and all(event.get(key) == value for key, value in values.items())
        return self.wait(f"{name} {values}", test, place, seconds)

    def events(self, name, place=0, **values):
        return [e for e in self.since(place) if e["event"] == name and all(e.get(k) == v for k, v in values.items())]
