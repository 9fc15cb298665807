#!/usr/bin/env python3
"""A plugin for the machine that it runs on: packages and their files, processes, users, mounts and listening sockets.

It reads a request a line and answers each by reply lines of the same number. A table is a part of
TABLES: its columns, a function that yields its items, each with a value for each column of its own,
and where it has them its keys, its get, and the functions of the columns that cost a call a row.
"""
import grp
import json
import os
import pwd
import re
import socket
import struct
import subprocess
import sys
from datetime import datetime, timezone

# The tables are read anew for each request, and the machine counts no versions of itself.
VERSION = 1
# No text is longer, so that no line comes near the limit of 1,048,576 bytes.
LONGEST_TEXT = 16384


class Failure(Exception):
    """An error for the caller: a code to match by `CODE:*`, and a message."""

    def __init__(self, code, message):
        super().__init__(f"{code}: {message}")


# ---- values


def text(value):
    """A text as JSON can have it: bytes that are no UTF-8 are replaced."""
    if isinstance(value, str):
        value = value.encode("utf-8", "surrogateescape")
    return value.decode("utf-8", "replace")[:LONGEST_TEXT]


def integer(value):
    """An integer of 64 bits, or null."""
    try:
        number = int(value)
    except ValueError:
        return None
    return number if -(2**63) <= number < 2**63 else None


def instant(seconds):
    """Seconds since 1970 in the one form of times, which orders as the times do."""
    return datetime.fromtimestamp(seconds, timezone.utc).strftime("%Y-%m-%dT%H:%M:%SZ")


def read(path):
    with open(path, "rb") as file:
        return file.read()


def read_lines(path):
    return read(path).splitlines()


# ---- packages

PACKAGE_FIELDS = {
    "name": "${Package}",
    "version": "${Version}",
    "architecture": "${Architecture}",
    "section": "${Section}",
    "priority": "${Priority}",
    "source": "${source:Package}",
    "maintainer": "${Maintainer}",
    "summary": "${binary:Summary}",
    "installed_size": "${Installed-Size}",
    "status": "${db:Status-Status}",
}
SHOW_PACKAGES = ["dpkg-query", "--show", "--showformat=" + "\\t".join(PACKAGE_FIELDS.values()) + "\\n"]


def packages(name=None):
    """Installed Debian packages, or those of a name, one for each architecture; `installed_size` is in KiB."""
    if name is None:
        return installed(output_lines(SHOW_PACKAGES))
    if not re.fullmatch("[a-z0-9][a-z0-9+.-]*", name):
        return iter(())  # no package has such a name; dpkg-query would take it for a pattern, or for an option
    return installed(output_lines([*SHOW_PACKAGES, name], nothing_found=1))


def installed(lines):
    for line in lines:
        values = line.split(b"\t")
        if len(values) != len(PACKAGE_FIELDS):
            continue
        item = {name: text(value) or None for name, value in zip(PACKAGE_FIELDS, values)}
        if item.pop("status") == "installed":
            item["installed_size"] = integer(item["installed_size"] or "")
            yield item


def count_files(package):
    return {"files": len(files_of(package))}


def package_files(package):
    for found in packages(package):
        for path in files_of(found):
            yield {"package": found["name"], "architecture": found["architecture"], "path": text(path)}


def files_of(package):
    """The files and folders of a package, without the root."""
    lines = output_lines(["dpkg-query", "--listfiles", f"{package['name']}:{package['architecture']}"], nothing_found=1)
    return [line for line in lines if line.startswith(b"/") and line != b"/."]


def output_lines(command, nothing_found=0):
    """The lines that a program writes, none where it ends with the status that says so. Its input is empty: it may not read the requests."""
    try:
        done = subprocess.run(command, stdin=subprocess.DEVNULL, capture_output=True, timeout=60)
    except FileNotFoundError:
        raise Failure("NotFound", f"{command[0]} isn't installed") from None
    except subprocess.TimeoutExpired:
        raise Failure("Timeout", f"{command[0]} took more than 60 seconds") from None
    if done.returncode == 0:
        return done.stdout.splitlines()
    if done.returncode == nothing_found:
        return []
    raise Failure("Failed", f"{command[0]}: {text(done.stderr).strip()}")


# ---- processes


def processes(pid=None):
    """The processes, or the one of a number. The number of a thread is none of a process."""
    booted = boot_time()
    names = {user.pw_uid: text(user.pw_name) for user in reversed(pwd.getpwall())}
    for found in process_ids():
        if pid not in (None, found):
            continue
        try:
            yield process(found, booted, names)
        except (FileNotFoundError, ProcessLookupError, PermissionError):
            continue  # it has ended, or it is hidden


def count_open_files(process):
    return {"open_files": len(os.listdir(f"/proc/{process['pid']}/fd"))}


def process_ids():
    return sorted(int(name) for name in os.listdir("/proc") if name.isdecimal())


def boot_time():
    for line in read_lines("/proc/stat"):
        if line.startswith(b"btime "):
            return int(line.split()[1])
    return None


def process(pid, booted, names):
    # The name stands in parentheses and may hold any bytes, also spaces and parentheses.
    before, _, after = read(f"/proc/{pid}/stat").rpartition(b")")
    fields = after.split()  # from the third field on, the state
    owner = os.stat(f"/proc/{pid}").st_uid
    since_boot = int(fields[19]) // os.sysconf("SC_CLK_TCK")
    return {
        "pid": pid,
        "parent_pid": int(fields[1]),
        "name": text(before.partition(b"(")[2]),
        "state": text(fields[0]),
        "user_id": owner,
        "user_name": names.get(owner),
        "threads": int(fields[17]),
        "resident_bytes": integer(int(fields[21]) * os.sysconf("SC_PAGE_SIZE")),
        "started_at": None if booted is None else instant(booted + since_boot),
        "arguments": arguments(read(f"/proc/{pid}/cmdline")),
    }


def arguments(bytes_of_them):
    words = bytes_of_them[:LONGEST_TEXT].split(b"\0")
    return [text(word) for word in (words if words[-1] else words[:-1])]


# ---- users


def users():
    groups = grp.getgrall()
    names = {group.gr_gid: text(group.gr_name) for group in reversed(groups)}
    for user in pwd.getpwall():
        yield {
            "name": text(user.pw_name),
            "user_id": user.pw_uid,
            "group_id": user.pw_gid,
            "group_name": names.get(user.pw_gid),
            "comment": text(user.pw_gecos),
            "home": text(user.pw_dir),
            "shell": text(user.pw_shell),
            "groups": [text(group.gr_name) for group in groups if user.pw_name in group.gr_mem],
        }


# ---- mounts


def mounts():
    # How full a file system is isn't asked here: where a server doesn't answer, that call doesn't return.
    return (mount_of(line) for line in read_lines("/proc/self/mountinfo"))


def mount_of(line):
    """A line has the mount's fields, " - ", and its file system's. Both have options, and each may be what forbids to write."""
    mount, _, file_system = line.partition(b" - ")
    fields, (kind, source, *further) = mount.split(b" "), file_system.split(b" ")
    options = [text(unescaped(word)) for word in b",".join([fields[5], *further]).split(b",")]
    read_only = "ro" in options
    return {
        "mount_id": int(fields[0]),
        "parent_id": int(fields[1]),
        "mount_point": text(unescaped(fields[4])),
        "root": text(unescaped(fields[3])),
        "file_system": text(kind),
        "source": text(unescaped(source)),
        "read_only": read_only,
        "options": list(dict.fromkeys(word for word in options if word != ("rw" if read_only else "ro"))),
    }


def unescaped(word):
    """Space, tab, line feed and backslash stand as \\040 and so on."""
    for byte in b" \t\n\\":
        word = word.replace(b"\\%03o" % byte, bytes([byte]))
    return word


# ---- listening sockets

# The state of a socket that waits for peers: LISTEN of TCP, and of UDP one that is bound without a peer.
PROTOCOLS = [("tcp", b"0A"), ("tcp6", b"0A"), ("udp", b"07"), ("udp6", b"07")]


def listeners():
    owners = socket_owners()
    for protocol, state in PROTOCOLS:
        try:
            lines = read_lines(f"/proc/net/{protocol}")[1:]
        except FileNotFoundError:
            continue  # the machine has no such protocol
        for line in lines:
            fields = line.split()
            if fields[3] == state:
                yield listener(protocol, fields, owners)


def listener(protocol, fields, owners):
    address, _, port = fields[1].partition(b":")
    inode = int(fields[9])
    return {
        "protocol": protocol,
        "address": printed_address(address),
        "port": int(port, 16),
        "user_id": int(fields[7]),
        "pid": owners.get(inode),
        "inode": inode,
    }


def printed_address(digits):
    """An address is printed as hexadecimal words of 32 bits, each in the machine's own order of bytes."""
    words = [int(digits[at : at + 8], 16) for at in range(0, len(digits), 8)]
    family = socket.AF_INET if len(words) == 1 else socket.AF_INET6
    return socket.inet_ntop(family, struct.pack(f"={len(words)}I", *words))


def socket_owners():
    """The least number of a process that holds a socket, by the socket's inode; of processes that may be looked into."""
    owners = {}
    for pid in process_ids():
        try:
            for descriptor in os.scandir(f"/proc/{pid}/fd"):
                target = os.readlink(descriptor.path)
                if target.startswith("socket:["):
                    owners.setdefault(int(target[8:-1]), pid)
        except OSError:
            continue  # it has ended, or it is another user's
    return owners


# ---- tables


class Table:
    """A column's kind stands by itself, or before the function whose result has its field. `items` is called with the values of keys by
    their columns' names."""

    def __init__(self, name, function, items, columns, keys=(), get=None, functions=()):
        self.name = name
        self.items = items
        self.columns = columns
        self.list = {"function": function, "keys": list(keys)} if keys else {"function": function}
        self.get = get
        self.functions = {function.name: function for function in functions}

    def declaration(self):
        declared = {"name": self.name, "columns": [column(*named) for named in self.columns.items()], "list": self.list}
        if self.get:
            declared["get"] = self.get
        if self.functions:
            declared["functions"] = [function.declaration() for function in self.functions.values()]
        return declared


def column(name, kind):
    if isinstance(kind, str):
        return {"name": name, "kind": kind}
    kind, function = kind
    return {"name": name, "kind": kind, "function": function}


class Function:
    def __init__(self, name, result, ignore=()):
        self.name = name
        self.result = result
        self.ignore = list(ignore)

    def declaration(self):
        return {"name": self.name, "ignore": self.ignore} if self.ignore else {"name": self.name}


TABLES = [
    Table("package", "listPackages", packages, {
        "name": "text", "version": "text", "architecture": "text", "section": "text", "priority": "text",
        "source": "text", "maintainer": "text", "summary": "text", "installed_size": "int", "files": ("int", "countFiles"),
    }, keys=[{"column": "name", "require": "optional"}], functions=[Function("countFiles", count_files)]),
    Table("package_file", "listPackageFiles", package_files, {
        "package": "text", "architecture": "text", "path": "text",
    }, keys=[{"column": "package", "match": "exact"}]),
    Table("process", "listProcesses", processes, {
        "pid": "int", "parent_pid": "int", "name": "text", "state": "text", "user_id": "int", "user_name": "text",
        "threads": "int", "resident_bytes": "int", "started_at": "text", "arguments": "json", "open_files": ("int", "countOpenFiles"),
    }, get={"function": "getProcess", "keys": [{"column": "pid"}]},
        # A process may have ended meanwhile, or be another user's.
        functions=[Function("countOpenFiles", count_open_files, ignore=["NotFound:*", "AccessDenied:*"])]),
    Table("user", "listUsers", users, {
        "name": "text", "user_id": "int", "group_id": "int", "group_name": "text", "comment": "text",
        "home": "text", "shell": "text", "groups": "json",
    }),
    Table("mount", "listMounts", mounts, {
        "mount_id": "int", "parent_id": "int", "mount_point": "text", "root": "text", "file_system": "text",
        "source": "text", "read_only": "bool", "options": "json",
    }),
    Table("listener", "listListeners", listeners, {
        "protocol": "text", "address": "text", "port": "int", "user_id": "int", "pid": "int", "inode": "int",
    }),
]


# ---- requests and replies


def declare(_request):
    yield {"declaration": {"tables": [table.declaration() for table in TABLES]}}


def version(_request):
    yield {"version": VERSION}


def table_of(request):
    for table in TABLES:
        if table.name == request.get("table"):
            return table
    raise Failure("Unsupported", "there is no such table")


def found_items(request):
    """The items of a list or a get: those of the table that the values of its keys leave."""
    table = table_of(request)
    access = table.list if request["op"] == "list" else table.get
    if access is None or access["function"] != request.get("function"):
        raise Failure("Unsupported", f"the table {table.name} has no such function")
    keys = {key["column"] for key in access.get("keys", [])}
    values = {}
    for name, operator, value in request.get("conditions") or []:
        if name not in keys or operator != "=":
            raise Failure("Unsupported", f"the table {table.name} has no such key")
        values[name] = value
    for item in table.items(**values):
        yield {"item": item}
    yield {"end": True}


def hydrate(request):
    table = table_of(request)
    function = table.functions.get(request.get("function"))
    if function is None:
        raise Failure("Unsupported", f"the table {table.name} has no such function")
    yield {"item": function.result(request["item"])}
    yield {"end": True}


OPERATIONS = {"declare": declare, "version": version, "list": found_items, "get": found_items, "hydrate": hydrate}


def replies(request):
    """The replies to a request, of which an error is the last."""
    try:
        operation = OPERATIONS.get(str(request.get("op")))
        if operation is None:
            raise Failure("Unsupported", "there is no such operation")
        yield from operation(request)
    except Failure as failure:
        yield {"error": str(failure)}
    except BrokenPipeError:
        raise  # nobody reads the replies
    except (FileNotFoundError, ProcessLookupError) as error:
        yield {"error": f"NotFound: {text(str(error))}"}
    except PermissionError as error:
        yield {"error": f"AccessDenied: {text(str(error))}"}
    except Exception as error:
        yield {"error": f"Internal: {type(error).__name__}: {text(str(error))}"}


def request_of(line):
    """A request with a number to answer to, or nothing."""
    try:
        request = json.loads(line.decode("utf-8"))
    except (ValueError, RecursionError):
        return None
    if not isinstance(request, dict) or type(request.get("id")) is not int:
        return None
    return request


def serve(requests, out):
    for line in requests:
        request = request_of(line)
        if request is None:
            print("a line without a number to answer to", file=sys.stderr)
            continue
        for reply in replies(request):
            out.write(json.dumps({"id": request["id"], **reply}, ensure_ascii=False).encode("utf-8") + b"\n")
            out.flush()


if __name__ == "__main__":
    try:
        serve(sys.stdin.buffer, sys.stdout.buffer)
    except (BrokenPipeError, KeyboardInterrupt):
        os._exit(0)  # what is left in the buffer can't be written any more
