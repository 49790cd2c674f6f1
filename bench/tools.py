"""What the measurements of `flume agent` share: its configuration, its sessions, the disk's own counter, the bare loop, and tables."""
import os, socket, struct, subprocess, sys, time

TOP = os.path.dirname(os.path.dirname(os.path.abspath(__file__)))
FLUME = os.path.join(TOP, "flume")
PROGRAM = os.path.join(TOP, "crates", "flume_main", "out", "flume_main")


def program():
    """The built program: proved and built first where it is not there or not current."""
    if subprocess.run([FLUME], capture_output=True).returncode == 125:
        sys.exit("the program was not built")
    return PROGRAM


def free_port():
    with socket.create_server(("127.0.0.1", 0)) as one:
        return one.getsockname()[1]


def flushes(folder):
    """How often the disk of the folder was flushed so far, by its own counter, if it has one."""
    number = os.stat(folder).st_dev
    device = os.path.realpath(f"/sys/dev/block/{os.major(number)}:{os.minor(number)}")
    if os.path.exists(os.path.join(device, "partition")):
        device = os.path.dirname(device)
    try:
        with open(os.path.join(device, "stat")) as numbers:
            return int(numbers.read().split()[15])
    except (OSError, IndexError):
        return None


def syncs_since(before, folder, lines):
    """What is said of the flushes since then."""
    return "syncs not told" if before is None else f"{(flushes(folder) - before) / lines:.2f} syncs a line"


def configured(file, keys):
    """Writes the configuration of an agent `a`, and answers its file."""
    with open(file, "w") as text:
        text.write("".join(f"a.{key} = {value}\n" for key, value in keys.items()))
    return file


def started(file, **streams):
    """An agent of this configuration. It ends when its standard input is closed."""
    words = [PROGRAM, "agent", "-n", "a", "-f", file]
    return subprocess.Popen(words, stdin=subprocess.PIPE, stdout=subprocess.PIPE, stderr=subprocess.PIPE, **streams)


def opened(port, run):
    """A link to an agent, once it listens."""
    while run.poll() is None:
        try:
            link = socket.create_connection(("127.0.0.1", port))
            link.setsockopt(socket.IPPROTO_TCP, socket.TCP_NODELAY, 1)
            return link
        except ConnectionRefusedError:
            time.sleep(0.01)
    sys.exit(f"the agent ended with {run.returncode}: {run.stderr.read().decode()}")


def bare(folder, lines):
    """The writes and syncs of a commit for each line, on a file of the folder. Answers the lines a second, and what is said of the
    syncs."""
    file = os.open(os.path.join(folder, "bare"), os.O_RDWR | os.O_CREAT | os.O_EXCL)
    gate, before = 16, flushes(folder)
    start = time.perf_counter()
    for number, line in enumerate(lines):
        event = struct.pack(">II", 0, len(line)) + line
        frame = b"\x01" + struct.pack(">QI", number + 1, len(event)) + event
        frame += b"\x04" + struct.pack(">QQI", number + 1, number, 1) + b"\x06" + struct.pack(">I", 2) + b"\x00"
        os.pwrite(file, frame, gate + 1)
        os.fsync(file)
        os.pwrite(file, b"\x01", gate)
        os.fsync(file)
        gate += len(frame)
    seconds = time.perf_counter() - start
    os.close(file)
    return len(lines) / seconds, syncs_since(before, folder, len(lines))


def in_files(folder):
    """The whole lines of the files of a folder."""
    for name in sorted(os.listdir(folder)):
        with open(os.path.join(folder, name), "rb") as file:
            yield from (line[:-1] for line in file if line.endswith(b"\n"))


def load():
    return f"load {os.getloadavg()[0]:.1f} on {os.cpu_count()} processors"


def row(table, *values):
    """Adds a row to a table for `bench/plots`, if one is asked for."""
    if table:
        with open(table, "a") as file:
            file.write("\t".join(f"{value:.6g}" if isinstance(value, float) else str(value) for value in values) + "\n")
