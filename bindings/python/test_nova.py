"""Tries nova.py: NOVA_LIBRARY=libnova_c.so python3 test_nova.py"""

import errno
import os
import unittest

from nova import Nova, Refused

LIBRARY = os.environ["NOVA_LIBRARY"]


class Calls(unittest.TestCase):
    def setUp(self):
        self.fs = Nova.format(LIBRARY, blocks=64, cpus=2)
        self.addCleanup(self.fs.close)

    def refusal(self, call, *words, **named):
        with self.assertRaises(Refused) as refused:
            call(*words, **named)
        return refused.exception.status, refused.exception.errno

    def test_a_file_is_written_and_read(self):
        self.fs.create("/hello", 0o640, cpu=1, time=3)
        self.fs.write("/hello", 2, b"hi there", time=4)
        self.assertEqual(self.fs.read("/hello"), b"\0\0hi there")
        self.assertEqual(self.fs.read("/hello", 5, 2), b"th")
        self.fs.set_size("/hello", 4, time=5)
        found = self.fs.stat("/hello")
        self.assertEqual((found.size, found.time, found.is_directory, found.mode, found.links), (4, 5, 0, 0o640, 1))

    def test_names_are_listed_whatever_room_they_take(self):
        self.fs.mkdir("/d")
        names = [b"name %03d of some length" % number for number in range(30)]
        for name in names:
            self.fs.create(b"/d/" + name)
        self.fs.link("/d/" + names[0].decode(), "/d/z" + "z" * 250)
        self.assertEqual([name for name, _ in self.fs.list("/d")], [*names, b"z" * 251])

    def test_names_go_and_move(self):
        self.fs.mkdir("/d")
        self.fs.create("/d/a")
        self.fs.create("/b")
        self.assertEqual(self.refusal(self.fs.rename, "/d/a", "/b"), (2, errno.EEXIST))
        self.fs.replace("/d/a", "/b")
        self.fs.rmdir("/d")
        self.fs.set_attr("/b", 0o400, 7, 8, time=9)
        self.assertEqual(self.fs.stat("/b")[2:], (9, 0, 0o400, 7, 8, 1))
        self.assertIsNone(self.fs.clean("/b"))
        self.fs.unlink("/b")
        self.assertEqual(self.fs.list("/"), [])

    def test_an_inode_is_read_by_its_number(self):
        self.fs.mkdir("/d")
        self.fs.create("/d/a", 0o640)
        self.fs.write("/d/a", 0, b"hi there", time=4)
        directory, file = self.fs.stat("/d").inode, self.fs.stat("/d/a").inode
        self.assertEqual(self.fs.list_inode(directory), [(b"a", file)])
        self.assertEqual(self.fs.stat_inode(file), self.fs.stat("/d/a"))
        self.fs.rename("/d/a", "/b")
        self.assertEqual(self.fs.read_inode(file), b"hi there")
        self.assertEqual(self.fs.read_inode(file, 3, 3), b"the")
        self.assertEqual(self.refusal(self.fs.stat_inode, 99), (1, errno.ENOENT))
        self.assertEqual(self.refusal(self.fs.read_inode, directory), (4, errno.EISDIR))
        self.assertEqual(self.refusal(self.fs.list_inode, file), (3, errno.ENOTDIR))

    def test_an_inode_is_changed_by_its_number(self):
        self.fs.create("/a")
        inode = self.fs.stat("/a").inode
        self.fs.write_inode(inode, 2, b"hi there", time=4)
        self.fs.set_size_inode(inode, 7, cpu=1, time=5)
        self.fs.set_attr_inode(inode, 0o400, 7, 8, time=6)
        self.assertEqual(self.fs.read("/a"), b"\0\0hi th")
        self.assertEqual(self.fs.stat("/a"), (inode, 7, 6, 0, 0o400, 7, 8, 1))
        self.assertEqual(self.refusal(self.fs.write_inode, 1, 0, b"x"), (4, errno.EISDIR))
        self.assertEqual(self.refusal(self.fs.set_size_inode, 99, 0), (1, errno.ENOENT))
        self.assertEqual(self.refusal(self.fs.set_attr_inode, inode, 0, 0, 0, cpu=2), (13, errno.EINVAL))

    def test_names_are_made_and_taken_in_a_directory_by_its_number(self):
        directory = self.fs.mkdir_inode(1, "d", 0o700, time=1)
        file = self.fs.create_inode(directory, b"a", 0o640, cpu=1, time=2)
        self.assertEqual(self.fs.lookup_inode(directory, "a"), self.fs.stat("/d/a"))
        self.assertEqual(self.fs.stat("/d/a").inode, file)
        self.fs.link_inode(file, 1, "b")
        self.fs.unlink_inode(directory, "a")
        self.assertEqual(self.refusal(self.fs.unlink_inode, 1, "d"), (4, errno.EISDIR))
        self.fs.rmdir_inode(1, "d")
        self.assertEqual(self.fs.list("/"), [(b"b", file)])
        self.assertEqual(self.refusal(self.fs.lookup_inode, 1, "d"), (1, errno.ENOENT))
        self.assertEqual(self.refusal(self.fs.create_inode, file, "a"), (3, errno.ENOTDIR))
        self.assertEqual(self.refusal(self.fs.mkdir_inode, 1, "b"), (2, errno.EEXIST))

    def test_refusals_have_a_status_and_an_errno(self):
        self.assertEqual(self.refusal(self.fs.stat, "/none"), (1, errno.ENOENT))
        self.assertEqual(self.refusal(self.fs.mkdir, "/a/b"), (1, errno.ENOENT))
        self.assertEqual(self.refusal(self.fs.create, "/a", cpu=2), (13, errno.EINVAL))
        self.assertEqual(self.refusal(Nova.format, LIBRARY, 7), (30, errno.EINVAL))
        self.assertEqual(self.refusal(Nova.open, LIBRARY, bytes(8 * 4096)), (21, errno.EINVAL))
        self.fs.close()
        self.assertEqual(self.refusal(self.fs.stat, "/"), (16, errno.EBADF))

    def test_an_image_is_opened_again(self):
        self.fs.create("/hello")
        self.fs.write("/hello", 0, b"hi there" * 1000)
        report, space = self.fs.report(), self.fs.space()
        with Nova.open(LIBRARY, self.fs.image()) as other:
            self.assertEqual(other.read("/hello"), b"hi there" * 1000)
            self.assertEqual((other.report(), other.space()), (report, space))


if __name__ == "__main__":
    unittest.main()
