#!/usr/bin/env python3
"""Times `desk script` over a register in memory: a subscriber, so many orders, and the registrations that fill them; once
with spread serial numbers, because a CA draws random ones, and once with rising ones."""
import os
import resource
import subprocess
import sys
import tempfile
import time

TOP = os.path.dirname(os.path.dirname(os.path.abspath(__file__)))
START = "2026-01-01T00:00:00Z"
# The serial number of an index, in hexadecimal digits: 20 octets, the spread ones by a multiplicative hash.
SERIALS = {"spread": lambda place: f"40000000{place * 0x9E37_79B9_7F4A_7C15 % 2**64:016x}{0:016x}", "rising": lambda place: f"40{place:038x}"}


def write_script(path, registers, serial_text):
    with open(path, "w", encoding="utf-8") as it:
        it.write(f"{START} subscriber acme\n")
        it.writelines(f"{START} order 1 398\n" for _ in range(registers))
        it.writelines(f"{START} register {place} {serial_text(place)} {START} 2026-12-31T23:59:59Z\n" for place in range(1, registers + 1))


def run(path):
    """Returns the seconds of a run, and the lines that the run wrote."""
    with open(path, "rb") as script:
        start = time.perf_counter()
        ran = subprocess.run([f"{TOP}/crates/reg_desk/out/reg_desk", "script"], stdin=script, capture_output=True, check=True)
        return time.perf_counter() - start, ran.stdout.split(b"\n")


def main():
    words = sys.argv[1:]
    kinds = [it for it in words if it in SERIALS] or list(SERIALS)
    numbers = [int(it) for it in words if it not in SERIALS] or [1_000, 10_000, 100_000]
    print("| Serial numbers | Registers | Lines | Seconds | Lines a second | Peak memory so far, MiB |\n|---|---|---|---|---|---|")
    with tempfile.TemporaryDirectory(prefix="script-bench-", dir=os.environ.get("SCRIPT_BENCH_FOLDER")) as folder:
        for kind in kinds:
            for registers in numbers:
                path = f"{folder}/script"
                write_script(path, registers, SERIALS[kind])
                took = 1e9
                for _ in range(3 if registers <= 10_000 else 1):
                    seconds, written = run(path)
                    if written.count(b"registered") != registers:
                        raise SystemExit("not all were registered")
                    took = min(took, seconds)
                lines = 2 * registers + 1
                peak = resource.getrusage(resource.RUSAGE_CHILDREN).ru_maxrss / 1024
                print(f"| {kind} | {registers:,} | {lines:,} | {took:.2f} | {lines / took:,.0f} | {peak:.0f} |", flush=True)


main()
