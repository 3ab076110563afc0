"""What the scripts share: measuring programs that are proved and built, times, and the bytes of disks and files.

Nothing here is run by the gate.
"""
import os
import resource
import shutil
import statistics
import struct
import subprocess
import sys
import time

TOP = os.path.join(os.path.dirname(os.path.abspath(__file__)), "..")


def program_argument(usage):
    """The program that a script measures, its one argument."""
    if len(sys.argv) != 2:
        sys.exit(usage)
    return os.path.abspath(sys.argv[1])


def text_of(path):
    """A file of the project, by its path from the top."""
    with open(os.path.join(TOP, path), encoding="utf-8") as text:
        return text.read()


def build(folder, name, crate, files, extra=()):
    """Proves and builds the program `name` over one of the project's crates in a scratch folder, and gives its path.

    `files` are the program's sources by their paths in its crate, `extra` further libraries of the kit. Its first run
    has no arguments.
    """
    with open(os.path.join(TOP, "crates.txt")) as text:
        uses = {line.split(":")[0]: line.split(":")[1].split() for line in text if ":" in line and not line.startswith("#")}
    below = [crate]
    for other in below:
        below += [used for used in uses[other] if used in uses and used not in below]
    libraries = [other for other in uses[crate] if other not in uses]
    at = os.path.join(folder, "crates", name)
    for path, text in files.items():
        os.makedirs(os.path.dirname(os.path.join(at, path)), exist_ok=True)
        with open(os.path.join(at, path), "w") as file:
            file.write(text)
    for other in below:
        subprocess.run(["cp", "-r", os.path.join(TOP, "crates", other), os.path.join(folder, "crates")], check=True)
    with open(os.path.join(folder, "crates.txt"), "w") as text:
        text.write("".join(f"{other}: {' '.join(uses[other])}\n" for other in below))
        text.write(f"{name}: {' '.join([*below, *libraries, *extra])}\n")
    run = subprocess.run(["rt", "run"], cwd=at, capture_output=True, text=True)
    program = os.path.join(at, "out", name)
    if not os.path.exists(program):
        sys.exit(run.stdout + run.stderr)
    return program


def processor_seconds(command):
    """What a command prints, and its time on the processor."""
    begin = resource.getrusage(resource.RUSAGE_CHILDREN).ru_utime
    run = subprocess.run(command, capture_output=True, check=True)
    return run.stdout, resource.getrusage(resource.RUSAGE_CHILDREN).ru_utime - begin


def median_milliseconds(command, folder, runs):
    """The median time of a command by the clock."""
    times = []
    for _ in range(runs):
        begin = time.perf_counter()
        subprocess.run(command, cwd=folder, stdout=subprocess.PIPE, check=True)
        times.append(time.perf_counter() - begin)
    return statistics.median(times) * 1000


def resident_kib(command, folder, statuses=(0,)):
    """The greatest resident memory of a command, in KiB. It needs Debian's package time.

    What the system tells of a child of this script is at least what the script itself has.
    """
    run = subprocess.run(["/usr/bin/time", "-q", "-f", "%M", *command], cwd=folder, capture_output=True, text=True)
    if run.returncode not in statuses:
        sys.exit(f"{command[0]} ends with status {run.returncode}: {run.stdout[:200]!r}")
    return int(run.stderr.strip())


def copy_formatted(folder, disks):
    for disk in disks:
        shutil.copy(os.path.join(folder, "formatted"), os.path.join(folder, disk))


def replay_beside(name, programs, folder, words, runs, begins, statuses=(0,), disks=("target.disk",)):
    """Runs two programs in turn, each on copies of the disk `formatted`, and prints the medians of their times, on the
    processor and by the clock, and the most memory of each. Both have to print the same, which begins with `begins`.
    Gives the median time of the first by the clock, in seconds.
    """
    processor, clock, memory = [[], []], [[], []], []
    for _ in range(runs):
        texts = []
        for at, program in enumerate(programs):
            copy_formatted(folder, disks)
            begin = time.perf_counter()
            child = subprocess.Popen([program, *words], cwd=folder, stdout=subprocess.PIPE)
            texts.append(child.stdout.read())
            _, status, usage = os.wait4(child.pid, 0)
            clock[at].append(time.perf_counter() - begin)
            processor[at].append(usage.ru_utime + usage.ru_stime)
            if os.waitstatus_to_exitcode(status) not in statuses:
                sys.exit(f"{name}: {program} says {texts[-1][:200]!r}")
        if texts[0] != texts[1] or not texts[0].startswith(begins):
            sys.exit(f"{name}: {texts[0][:200]!r}, the other {texts[1][:200]!r}")
    for program in programs:
        copy_formatted(folder, disks)
        memory.append(resident_kib([program, *words], folder, statuses) * 1024)
    (ours, other), (clocked, other_clocked) = ([statistics.median(each) for each in times] for times in (processor, clock))
    print(f"{name}: {ours * 1000:.0f} ms on the processor, {ours / other:.2f} times the other's {other * 1000:.0f} ms; "
          f"{clocked * 1000:.0f} ms by the clock, {clocked / other_clocked:.2f} times; "
          f"{memory[0] / 1e6:.1f} MB, {memory[0] / memory[1]:.2f} times the other's {memory[1] / 1e6:.1f} MB", flush=True)
    return clocked


def coding_speed(program, kind, file, times, runs):
    """The seconds of one decoding and of one encoding of a file by a program `KIND FILE DECODINGS ENCODINGS`.

    It prints how many bytes it encoded, which have to be as many as the file has.
    """

    def median(decodings, encodings):
        seconds = []
        for _ in range(runs):
            told, taken = processor_seconds([program, kind, file, str(decodings), str(encodings)])
            if encodings and int(told) != os.path.getsize(file):
                sys.exit(f"{file} was encoded with another length")
            seconds.append(taken)
        return statistics.median(seconds)

    empty = median(0, 0)
    decoding = (median(times, 0) - empty) / times
    return decoding, (median(1, times) - empty - decoding) / times


# The start of a measuring program that decodes and encodes a file: its arguments, and the file's bytes.
CODING_MAIN = """\
fn main(rt: HostRuntime) -> ExitCode {
    let Ok(mut words) = env::args(&rt) else {
        return ExitCode::from(2);
    };
    words.next();
    let (Some(kind), Some(file), Some(decodings), Some(encodings)) =
        (words.next(), words.next(), words.next(), words.next())
    else {
        return ExitCode::from(2);
    };
    let (Ok(decodings), Ok(encodings)) = (decodings.parse::<u32>(), encodings.parse::<u32>()) else {
        return ExitCode::from(2);
    };
    let Ok(bytes) = fs::read(&rt, file.as_str()) else {
        return ExitCode::from(2);
    };
    let mut encoded = 0;
    for _ in 0..decodings {
        encoded = coded(rt.alloc(), kind.as_str(), bytes.as_slice(), encodings);
    }
    match println!(&rt; "{encoded}") {
        Ok(()) => ExitCode::from(0),
        Err(_) => ExitCode::from(7),
    }
}
"""


def crc16_table():
    table = []
    for byte in range(256):
        register = byte << 8
        for _ in range(8):
            register = (register << 1 ^ (0x1021 if register & 0x8000 else 0)) & 0xFFFF
        table.append(register)
    return table


TABLE = crc16_table()


def crc16(data):
    register = 0xFFFF
    for byte in data:
        register = (register << 8 & 0xFFFF) ^ TABLE[register >> 8 ^ byte]
    return register


def padded(text):
    return struct.pack(">H", len(text)) + text + bytes(len(text) % 2)


def short(text):
    return bytes([len(text)]) + text


def manifest_of(loads, types=None, layout=2):
    """A manifest of loads of these types, or else of type 1, each the names and lengths of its files. Layout 1 says no types."""
    parts = [struct.pack(">HH", 0xA002, len(loads)) if layout == 2 else struct.pack(">H", len(loads))]
    for files, kind in zip(loads, types or [1] * len(loads)):
        said = struct.pack(">H", kind) if layout == 2 else b""
        parts.append(b"ABC41-0000-0001" + said + struct.pack(">H", len(files)))
        parts += [short(name) + struct.pack(">I", size) for name, size in files]
    return b"".join(parts)


def write_disk(path, bank, sequence, contents, manifest, size=None):
    """A disk of target HW1, L, SN1 whose slot A names bank 0 with these contents, in pieces, and this manifest."""
    identity = b"A615" + struct.pack(">HI", 1, bank) + short(b"HW1") + short(b"L") + short(b"SN1")
    with open(path, "wb") as disk:
        disk.write(identity + struct.pack(">H", crc16(identity)))
        disk.seek(8192)
        for piece in contents:
            disk.write(piece)
        end = disk.tell() - 8192
        disk.write(manifest)
        disk.seek(4096)
        disk.write(b"\xa5")
        disk.seek(4112)
        disk.write(struct.pack(">IBII", sequence, 0, end, len(manifest)))
        if size is not None:
            disk.truncate(size)
