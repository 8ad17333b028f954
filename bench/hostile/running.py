"""Runs the built program in limits of memory and time, and tells whether it ended as its table of statuses says."""
import collections
import os
import pathlib
import resource
import signal

MEMORY = 2 << 30
SECONDS = 60
COMMANDS = {
    "check": ("check", "x", "x"),
    "check --expose": ("check", "x", "x", "--expose"),
    "check --mode event": ("check", "x", "x", "--mode", "event"),
    "check --mode event --expose": ("check", "x", "x", "--mode", "event", "--expose"),
    "graph": ("graph", "x"),
    "graph --mode event": ("graph", "x", "--mode", "event"),
    "sim": ("sim", "x", "s"),
    "sim --mode event": ("sim", "x", "s", "--mode", "event"),
    "replay": ("replay", "x", "x", "s"),
    "replay --mode event": ("replay", "x", "x", "s", "--mode", "event"),
    "induct": ("induct", "x", "x"),
}
PLAIN, EVENT = {0, 4, 8}, {0, 3, 4, 8}
STATUSES = {name: EVENT if "event" in name else PLAIN for name in COMMANDS} | {
    "check": {0, 4, 8, 9},
    "check --mode event": {0, 3, 4, 8, 9},
    "induct": {0, 2, 3, 4, 8},
}
# What reading and flattening don't refuse.
LATER = (b"refused A TooLarge", b"refused TooManyEvents", b"refused S", b"refused Power")

Text = collections.namedtuple("Text", "circuit stimulus power")
Ended = collections.namedtuple("Ended", "status report seconds")


def limit():
    """Limits what this process and those that it starts may take. The limit of time is for each of them alone, and this one passes over it."""
    signal.signal(signal.SIGXCPU, signal.SIG_IGN)
    resource.setrlimit(resource.RLIMIT_AS, (MEMORY, MEMORY))
    resource.setrlimit(resource.RLIMIT_CPU, (SECONDS, resource.RLIM_INFINITY))
    resource.setrlimit(resource.RLIMIT_CORE, (0, 0))


class Runner:
    """Runs the program in a folder of its own, in which the circuit is the file `x` and the stimulus the file `s`."""

    def __init__(self, program, folder):
        self.program = program
        self.folder = pathlib.Path(folder)
        os.chdir(folder)
        limit()

    def take(self, text):
        self.folder.joinpath("x").write_bytes(text.circuit)
        self.folder.joinpath("s").write_bytes(text.stimulus)

    def run(self, words):
        """The status, below 0 for a signal, the report, and the seconds of processor time. Standard error is a part of the report."""
        out = os.open("report", os.O_RDWR | os.O_CREAT | os.O_TRUNC | os.O_APPEND)
        to_file = [(os.POSIX_SPAWN_DUP2, out, 1), (os.POSIX_SPAWN_DUP2, out, 2)]
        process = os.posix_spawn(self.program, [self.program, *words], {}, file_actions=to_file, setsigdef=[signal.SIGXCPU])
        _, ended, used = os.wait4(process, 0)
        os.close(out)
        report = self.folder.joinpath("report").read_bytes()
        return Ended(os.waitstatus_to_exitcode(ended), report, used.ru_utime + used.ru_stime)

    def run_all(self, text, number):
        """What each command ends with, by its name. A circuit that `check` refuses as it reads or flattens it is given to one other command alone,
        which the number picks."""
        self.take(text)
        check, *others = COMMANDS
        ends = {check: self.run(words_of(check, text))}
        if is_refused(ends[check]):
            others = [others[number % len(others)]]
        return ends | {name: self.run(words_of(name, text)) for name in others}


def words_of(command, text):
    if command.startswith("sim") and text.power is not None:
        return [*COMMANDS[command], "--power", text.power]
    return COMMANDS[command]


def last_line(report):
    return report[report.rfind(b"\n", 0, -1) + 1:]


def is_refused(ended):
    """Whether the circuit is refused, as it is read or flattened."""
    return ended.status == 4 and not ended.report.startswith(LATER)


def fault_of(command, ended):
    """Why a run didn't end as it should, or None."""
    status, report, _ = ended
    if status < 0:
        return f"signal {-status}"
    if status not in STATUSES[command]:
        return f"status {status}"
    if status == 8:
        return None if not report else "a report with status 8"
    if not report.endswith(b"\n"):
        return "a report that isn't ended"
    last = last_line(report)
    if command.split()[0] in ("check", "induct") and status in (2, 3):
        verdict = b"\nverdict not-shown " if status == 2 else b"\nverdict limit "
        return None if report.startswith(b"inputs ") and verdict in report else f"status {status}: {last[:80]!r}"
    if status in (3, 4, 9):
        begins = {3: b"limit recover A:", 4: b"refused ", 9: b"cyclic A "}[status]
        return None if report.startswith(begins) and report.count(b"\n") == 1 else f"status {status}: {report[:80]!r}"
    fits = {
        "check": last == b"verdict equal\n",
        "induct": last == b"verdict equal\n",
        "graph": last == b"acyclic\n" or last.startswith(b"cycle "),
        "sim": report.startswith(b"outputs"),
        "replay": report == b"replay same\n",
    }[command.split()[0]]
    return None if fits else f"status 0: {last[:80]!r}"


def faults_of(ends):
    """What is wrong in a text's runs: each by itself, and where two don't go together."""
    for command, ended in ends.items():
        fault = fault_of(command, ended)
        if fault:
            yield command, fault
    if any(ended.status in (8, -signal.SIGXCPU) for ended in ends.values()):
        return
    refused = {is_refused(ended) for ended in ends.values()}
    if len(refused) > 1 or (True in refused and len({ended.report for ended in ends.values()}) > 1):
        yield "all", "the commands refuse the circuit otherwise"
    if True in refused:
        return
    for mode in ("", " --mode event"):
        yield from cycle_faults(ends[f"check{mode}"], ends[f"graph{mode}"])


def cycle_faults(check, graph):
    """What is wrong where a circuit is compared with itself and its latch graph is told, both in one mode."""
    if check.status == 9 and last_line(graph.report).removeprefix(b"cycle ") != check.report.removeprefix(b"cyclic A "):
        yield "graph", "not the cycle that check names"
    if check.status == 0 and last_line(graph.report) != b"acyclic\n":
        yield "graph", "a cycle where check finds equal"
