"""Runs a command, and prints how long it took and the most memory that it had."""
import resource
import subprocess
import sys
import time


def main():
    begun = time.monotonic()
    subprocess.run(sys.argv[1:], check=True, stdout=subprocess.DEVNULL, stderr=subprocess.DEVNULL)
    spent = time.monotonic() - begun
    peak = resource.getrusage(resource.RUSAGE_CHILDREN).ru_maxrss
    print(f"{spent * 1000:.0f} ms, at most {peak // 1024} MiB")


if __name__ == "__main__":
    main()
