"""Tries host.py on lines that a machine may have, and on requests.

    python3 plugins/host/test_host.py
"""
import os
import threading
import unittest
from unittest import mock

import host


class Mounts(unittest.TestCase):
    def mount(self, options, of_file_system):
        line = b"36 35 98:0 /a /mnt\\040b %b master:1 - ext4 /dev/sda1 %b" % (options, of_file_system)
        return host.mount_of(line)

    def test_a_file_system_that_is_read_only(self):
        mount = self.mount(b"rw,noatime", b"ro,errors=continue")
        self.assertTrue(mount["read_only"])
        self.assertEqual(mount["options"], ["noatime", "ro", "errors=continue"])

    def test_a_mount_that_is_read_only(self):
        mount = self.mount(b"ro,nosuid", b"rw,data=ordered")
        self.assertTrue(mount["read_only"])
        self.assertEqual(mount["options"], ["ro", "nosuid", "data=ordered"])

    def test_what_both_have_stands_once(self):
        mount = self.mount(b"rw,relatime", b"rw,relatime,size=64k")
        self.assertFalse(mount["read_only"])
        self.assertEqual(mount["options"], ["rw", "relatime", "size=64k"])

    def test_the_other_fields(self):
        mount = self.mount(b"rw", b"rw")
        del mount["read_only"], mount["options"]
        wanted = {"mount_id": 36, "parent_id": 35, "mount_point": "/mnt b", "root": "/a", "file_system": "ext4", "source": "/dev/sda1"}
        self.assertEqual(mount, wanted)


def answer(op, table, function, **members):
    """The items of a reply, and its ending."""
    *items, ending = host.replies({"id": 1, "op": op, "table": table, "function": function, **members})
    return [reply["item"] for reply in items], ending


class Processes(unittest.TestCase):
    def by_pid(self, pid):
        return answer("get", "process", "getProcess", conditions=[["pid", "=", pid]])

    def test_a_process_by_its_number(self):
        items, ending = self.by_pid(os.getpid())
        self.assertEqual([item["pid"] for item in items], [os.getpid()])
        self.assertEqual(ending, {"end": True})

    def test_a_number_of_no_process(self):
        for pid in [0, -1, 2**62]:
            self.assertEqual(self.by_pid(pid), ([], {"end": True}))

    def test_the_number_of_a_thread(self):
        numbers, done = [], threading.Event()
        thread = threading.Thread(target=lambda: (numbers.append(threading.get_native_id()), done.wait()))
        thread.start()
        try:
            while not numbers:
                pass
            self.assertEqual(self.by_pid(numbers[0]), ([], {"end": True}))
        finally:
            done.set()
            thread.join()

    def test_open_files(self):
        items, _ = answer("hydrate", "process", "countOpenFiles", item={"pid": os.getpid()}, results={})
        self.assertGreater(items[0]["open_files"], 0)

    def test_open_files_of_a_process_that_has_ended(self):
        items, ending = answer("hydrate", "process", "countOpenFiles", item={"pid": 2**62}, results={})
        self.assertEqual(items, [])
        self.assertRegex(ending["error"], "^NotFound: ")


LINES = [
    b"libc6\t2.36\tamd64\tlibs\toptional\tglibc\tann\tGNU C Library\t12986\tinstalled",
    b"libc6\t2.36\ti386\tlibs\toptional\tglibc\tann\tGNU C Library\t12000\tinstalled",
    b"gone\t1\tall\tlibs\toptional\tgone\tann\tGone\t\tconfig-files",
]


class Packages(unittest.TestCase):
    def answer(self, lines, *request, **members):
        """With these lines in place of what the program writes; and the program's words."""
        with mock.patch.object(host, "output_lines", return_value=lines) as program:
            items, ending = answer(*request, **members)
        self.assertEqual(ending, {"end": True})
        return items, [call.args[0] for call in program.call_args_list]

    def test_a_name_at_two_architectures(self):
        items, commands = self.answer(LINES, "list", "package", "listPackages", conditions=[["name", "=", "libc6"]])
        self.assertEqual([item["architecture"] for item in items], ["amd64", "i386"])
        self.assertEqual([command[-1] for command in commands], ["libc6"])

    def test_what_is_no_name_of_a_package(self):
        for name in ["", "-f", "lib*", "libc6:i386", "a\nb", "Bash"]:
            items, commands = self.answer(LINES, "list", "package", "listPackages", conditions=[["name", "=", name]])
            self.assertEqual((items, commands), ([], []))

    def test_how_many_files_a_package_has(self):
        item = {"name": "dash", "architecture": "amd64"}
        lines = [b"/.", b"/bin", b"/bin/dash", b"package diverts others to: /bin/sh.distrib"]
        items, commands = self.answer(lines, "hydrate", "package", "countFiles", item=item, results={})
        self.assertEqual(items, [{"files": 2}])
        self.assertEqual(commands, [["dpkg-query", "--listfiles", "dash:amd64"]])

    def test_a_machine_without_packages(self):
        with mock.patch.object(host.subprocess, "run", side_effect=FileNotFoundError):
            items, ending = answer("list", "package", "listPackages", conditions=[])
        self.assertEqual((items, ending), ([], {"error": "NotFound: dpkg-query isn't installed"}))


class Requests(unittest.TestCase):
    def test_conditions_that_no_key_has(self):
        for table, function, condition in [
            ("process", "listProcesses", ["pid", "=", 1]),
            ("package", "listPackages", ["name", ">", "a"]),
            ("package", "listPackages", ["version", "=", "1"]),
        ]:
            items, ending = answer("list", table, function, conditions=[condition])
            self.assertEqual(items, [])
            self.assertRegex(ending["error"], "^Unsupported: ")

    def test_calls_that_a_table_does_not_have(self):
        for op, table, function in [
            ("get", "package", "listPackages"), ("list", "process", "getProcess"), ("hydrate", "user", "countFiles"), ("list", "none", "list"),
        ]:
            self.assertRegex(answer(op, table, function, item={}, conditions=[])[1]["error"], "^Unsupported: ")

    def test_each_column_by_a_function_has_one(self):
        for table in host.TABLES:
            declared = table.declaration()
            functions = {function["name"] for function in declared.get("functions", [])}
            self.assertEqual({column["function"] for column in declared["columns"] if "function" in column}, functions)


if __name__ == "__main__":
    unittest.main()
