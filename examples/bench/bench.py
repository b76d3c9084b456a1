"""bench.py RELINK FOLDER: measures RELINK and the linkers that are installed on kits below FOLDER, on one processor and one thread, and
prints tables of processor seconds and memory, each the least of some runs, which take turns."""

import hashlib
import os
import shutil
import subprocess
import sys

import objects

RUNS = 5
LINKED, TOTAL, FLAW, SPAN = 0, 12, 13, 14
PEERS = {
    "ld.lld": ("ld.lld", "--threads=1"),
    "ld.bfd": ("ld.bfd",),
    "gold": ("gold", "--no-threads"),
    "mold": ("mold", "--no-threads"),
}
ADDRESS = 0xFFFFFFFF81000000


def measured(words, folder):
    """The status of a command, its processor seconds, and its greatest memory in MiB."""
    process = subprocess.Popen(words, cwd=folder, stdout=subprocess.DEVNULL, stderr=subprocess.PIPE)
    message = process.stderr.read().decode(errors="replace")
    _, status, usage = os.wait4(process.pid, 0)
    process.returncode = os.waitstatus_to_exitcode(status)
    return process.returncode, usage.ru_utime + usage.ru_stime, usage.ru_maxrss / 1024, message


def compare(what, commands, folder, runs=RUNS):
    """Prints a line for each command, a name with its words and the statuses that are wanted."""
    least = {}
    for _ in range(runs):
        for name, words, wanted in commands:
            status, seconds, memory, message = measured(words, folder)
            if status not in wanted:
                sys.exit(f"{what}: {name} ended with status {status}: {message[:400]}")
            before = least.get(name, (seconds, memory))
            least[name] = (min(seconds, before[0]), min(memory, before[1]))
    print(f"\n{what}\n")
    print("| | processor seconds | MiB |\n|---|---|---|")
    for name, (seconds, memory) in least.items():
        print(f"| {name} | {seconds:.3f} | {memory:.0f} |")
    sys.stdout.flush()


def write(folder, name, content):
    path = os.path.join(folder, "kit", name)
    os.makedirs(os.path.dirname(path), exist_ok=True)
    with open(path, "wb") as file:
        file.write(content)


def make(folder, name, maker, *words):
    """Writes what a maker gives for these words, in a process of its own: what a process takes counts for the memory of those it starts."""
    child = os.fork()
    if child == 0:
        write(folder, name, maker(*words))
        os._exit(0)
    if os.waitpid(child, 0)[1] != 0:
        sys.exit(f"{name} wasn't made")


def kit_of(folder, names):
    """Makes the kit text, and a list of files for the others."""
    lines = ["kind kernel", "output /bsd", "entry start"] + [f"object {name}" for name in names]
    write(folder, "link.conf", "".join(line + "\n" for line in lines).encode())
    write(folder, "files", "".join(f"kit/{name}\n" for name in names).encode())


def new_folder(root, name):
    folder = os.path.join(root, name)
    shutil.rmtree(folder, ignore_errors=True)
    os.makedirs(os.path.join(folder, "kit"))
    return folder


def peers(options):
    found = [(name, words) for name, words in PEERS.items() if shutil.which(words[0])]
    return [(f"{name} {options[0]}", [*words, *for_linker(name, options), "-o", "linked", "@kit/files"], (0,)) for name, words in found]


def for_linker(name, options):
    """The options of a linker: mold takes the address of the first page in the place of that of the code."""
    return [f"--image-base={ADDRESS:#x}" if name == "mold" and option.startswith("-Ttext=") else option for option in options]


def machine(relink, folder):
    """Makes the folder a machine's root, whose kernel is linked from the kit."""
    os.makedirs(os.path.join(folder, "usr/share/relink"))
    os.makedirs(os.path.join(folder, "var/db"))
    os.symlink(os.path.join(folder, "kit"), os.path.join(folder, "usr/share/relink/kernel"))
    subprocess.run([relink, "link", "/kit"], cwd=folder, check=True, stdout=subprocess.DEVNULL)
    kernel = os.path.join(folder, "bsd")
    os.rename(os.path.join(folder, "kit/linked.relink"), kernel)
    with open(kernel, "rb") as file, open(os.path.join(folder, "var/db/kernel.SHA256"), "w") as record:
        record.write(f"SHA256 (/bsd) = {hashlib.sha256(file.read()).hexdigest()}\n")


def linked(relink, root, count):
    folder = new_folder(root, "linked")
    names = [f"{n // 100}/{n}.o" for n in range(count)]
    for n, name in enumerate(names):
        write(folder, name, objects.common_object(n, count))
    kit_of(folder, names)
    machine(relink, folder)
    options = [f"-Ttext={ADDRESS:#x}", "-e", "start", "-static", "-Map=map"]
    own = [("relink link", [relink, "link", "/kit"], (LINKED,)), ("relink reorder_kernel", [relink, "reorder_kernel"], (LINKED,))]
    compare(
        f"{count:,} objects of {len(objects.common_object(1, count)):,} bytes, linked with a map",
        own + [(name.split()[0], words, wanted) for name, words, wanted in peers(options)],
        folder,
    )
    write(folder, "bss.o", objects.bss((1 << 29) + 1))
    kit_of(folder, names)
    resolved(f"{count:,} objects, read and resolved", relink, folder, names)


def resolved(what, relink, folder, names):
    """Reads and resolves: relink stops where the kit's span is too large, and the others make one relocatable object."""
    write(folder, "bss.o", objects.bss((1 << 29) + 1))
    kit_of(folder, names)
    others = peers(["-r"])
    kit_of(folder, names + ["bss.o"])
    write(folder, "files", "".join(f"kit/{name}\n" for name in names).encode())
    compare(what, [("relink, to its refusal", [relink, "link", "/kit"], (SPAN,))] + others, folder)


def many(relink, root):
    folder = new_folder(root, "many")
    make(folder, "many.o", objects.many_fields, 100000, 19)
    resolved("one object of 1,900,000 fields to 100,000 names, read and resolved", relink, folder, ["many.o"])


def archive(relink, root, path):
    """The members of an archive, and an object that defines the names that they lack."""
    folder = new_folder(root, "archive")
    kit = os.path.join(folder, "kit")
    subprocess.run(["ar", "x", path], cwd=kit, check=True)
    names = sorted(os.listdir(kit))
    listed = subprocess.run(["nm", "-A", *names], cwd=kit, check=True, capture_output=True, text=True).stdout.split("\n")
    symbols = [(line.split()[-2], line.split()[-1]) for line in listed if line]
    missing = sorted({name for kind, name in symbols if kind == "U"} - {name for kind, name in symbols if kind.isupper() and kind != "U"})
    source = "".join(f".globl {name}\n{name}:\n" for name in ["start", *missing]) + "ret\n"
    subprocess.run(["as", "--64", "-o", "missing.o", "-"], cwd=kit, check=True, input=source, text=True)
    size = sum(os.path.getsize(os.path.join(kit, name)) for name in names)
    resolved(f"{len(names)} members of {os.path.basename(path)}, {size:,} bytes, read and resolved", relink, folder, ["missing.o", *names])


def library(relink, root, path):
    """The members of an archive, linked as a shared object with its map."""
    folder = new_folder(root, "library")
    kit = os.path.join(folder, "kit")
    subprocess.run(["ar", "x", path], cwd=kit, check=True)
    names = sorted(os.listdir(kit))
    size = sum(os.path.getsize(os.path.join(kit, name)) for name in names)
    soname = os.path.basename(path).replace(".a", ".so")
    lines = ["kind library", f"output /usr/lib/{soname}", f"soname {soname}"] + [f"object {name}" for name in names]
    write(folder, "link.conf", "".join(line + "\n" for line in lines).encode())
    write(folder, "files", "".join(f"kit/{name}\n" for name in names).encode())
    options = ["-shared", f"-soname={soname}", "--hash-style=sysv", "-z", "now", "-Map=map"]
    compare(
        f"{len(names)} members of {os.path.basename(path)}, {size:,} bytes, linked as a shared object with a map",
        [("relink link", [relink, "link", "/kit"], (LINKED,))] + [(name.split()[0], words, wanted) for name, words, wanted in peers(options)],
        folder,
    )


def hostile(relink, root):
    cases = (
        ("a name of 30 MB and the end of it, with 1,000 fields to them", objects.long_names, (30 * 10**6, 1000), LINKED),
        ("100 relocation sections that name the same 30 MB", objects.one_range, (30 * 10**6, 100), TOTAL),
        ("500 relocation sections that name the same 30 MB", objects.one_range, (30 * 10**6, 500), TOTAL),
        ("5,000 groups that list each other's 5,000 members", objects.groups, (5000,), FLAW),
    )
    for k, (what, maker, words, wanted) in enumerate(cases):
        folder = new_folder(root, f"hostile{k}")
        make(folder, "hostile.o", maker, *words)
        kit_of(folder, ["hostile.o"])
        compare(what, [("relink", [relink, "link", "/kit"], (wanted,))], folder, runs=2)


def main():
    relink, root = sys.argv[1:3]
    chosen = sys.argv[3:] or ["linked", "many", "archive", "library", "hostile"]
    os.sched_setaffinity(0, {max(os.sched_getaffinity(0))})
    if "linked" in chosen:
        linked(relink, root, 5000)
    if "many" in chosen:
        many(relink, root)
    if "archive" in chosen:
        archive(relink, root, "/usr/lib/x86_64-linux-gnu/libcrypto.a")
    if "library" in chosen:
        library(relink, root, "/usr/lib/x86_64-linux-gnu/libcrypto.a")
    if "hostile" in chosen:
        hostile(relink, root)


if __name__ == "__main__":
    main()
