#!/usr/bin/env python3
"""mounted_calls.py DIR [NAME..]: calls in a directory, each a case with the answer of a local file system. Prints how many
answer so, and for each other one its name and what it answered. Run it on ext4 too, to test the cases."""
import ctypes
import errno
import fcntl
import mmap
import os
import random
import shutil
import socket
import stat
import subprocess
import sys
import tempfile
import threading
import time

TOP = os.path.realpath(sys.argv[1])
NAMES = sys.argv[2:]
libc = ctypes.CDLL(None, use_errno=True)
cases = []


class Differs(Exception):
    """A call that answered otherwise."""


def case(function):
    cases.append(function)
    return function


def holds(condition, text=""):
    if not condition:
        raise Differs(text)


def same(got, wanted, text=""):
    if got != wanted:
        raise Differs(f"{text} got {got!r}, expected {wanted!r}")


def refused(number, call, *words, **more):
    name = getattr(call, "__name__", call)
    try:
        call(*words, **more)
    except OSError as caught:
        if caught.errno != number:
            raise Differs(f"{name}: {errno.errorcode.get(caught.errno)}, expected {errno.errorcode[number]}") from None
        return
    raise Differs(f"{name}: done, expected {errno.errorcode[number]}")


def write(path, data=b"x"):
    with open(path, "wb") as file:
        file.write(data)


def read(path):
    with open(path, "rb") as file:
        return file.read()


def opened(path, flags, mode=0o644):
    return os.open(path, flags, mode)


@case
def open_excl():
    write('f')
    refused(errno.EEXIST, opened, 'f', os.O_CREAT | os.O_EXCL)
    os.close(opened('g', os.O_CREAT | os.O_EXCL | os.O_WRONLY))


@case
def open_trunc():
    write('f', b'abc' * 1000)
    os.close(opened('f', os.O_WRONLY | os.O_TRUNC))
    same(os.stat('f').st_size, 0)
    same(read('f'), b'')


@case
def open_trunc_rdwr_other_fd():
    write('f', b'abc' * 1000)
    a = opened('f', os.O_RDONLY)
    same(os.pread(a, 3, 0), b'abc')
    os.close(opened('f', os.O_RDWR | os.O_TRUNC))
    same(os.pread(a, 3, 0), b'')
    os.close(a)


@case
def open_append():
    write('f', b'abc')
    a = opened('f', os.O_WRONLY | os.O_APPEND)
    b = opened('f', os.O_WRONLY | os.O_APPEND)
    os.write(a, b'1')
    os.write(b, b'2')
    os.write(a, b'3')
    same(read('f'), b'abc123')
    os.close(a)
    os.close(b)


@case
def open_directory_flag():
    write('f')
    refused(errno.ENOTDIR, opened, 'f', os.O_DIRECTORY)
    os.mkdir('d')
    refused(errno.EISDIR, opened, 'd', os.O_WRONLY)


@case
def open_wronly_creates_0444():
    a = opened('f', os.O_CREAT | os.O_WRONLY, 292)
    os.write(a, b'x')
    os.close(a)
    same(stat.S_IMODE(os.stat('f').st_mode), 292)


@case
def open_nofollow_and_trailing_slash():
    write('f')
    refused(errno.ENOTDIR, os.stat, 'f/')
    refused(errno.ENOENT, os.stat, 'nothing/')


@case
def o_tmpfile():
    a = opened('.', os.O_TMPFILE | os.O_RDWR)
    os.write(a, b'x')
    os.close(a)


@case
def umask_applies():
    m = os.umask(23)
    try:
        os.close(opened('f', os.O_CREAT | os.O_WRONLY, 438))
        os.mkdir('d', 511)
        same(oct(os.stat('f').st_mode & 4095), oct(416))
        same(oct(os.stat('d').st_mode & 4095), oct(488))
    finally:
        os.umask(m)


@case
def rename_over_file():
    write('a', b'A')
    write('b', b'B')
    os.rename('a', 'b')
    same(read('b'), b'A')
    refused(errno.ENOENT, os.stat, 'a')


@case
def rename_over_open_file():
    write('a', b'A')
    write('b', b'B')
    f = open('b', 'rb')
    os.rename('a', 'b')
    same(f.read(), b'B')
    same(os.fstat(f.fileno()).st_nlink, 0)
    f.close()
    same(os.listdir('.'), ['b'])


@case
def rename_same_file_links():
    write('a', b'A')
    os.link('a', 'b')
    os.rename('a', 'b')
    same(sorted(os.listdir('.')), ['a', 'b'])


@case
def rename_to_itself():
    write('a', b'A')
    os.rename('a', 'a')
    same(read('a'), b'A')


@case
def rename_file_over_dir():
    write('a')
    os.mkdir('d')
    refused(errno.EISDIR, os.rename, 'a', 'd')
    refused(errno.ENOTDIR, os.rename, 'd', 'a')


@case
def rename_dir_over_empty_dir():
    os.mkdir('d')
    write('d/f')
    os.mkdir('e')
    os.rename('d', 'e')
    same(os.listdir('e'), ['f'])
    same(os.listdir('.'), ['e'])


@case
def rename_dir_over_nonempty():
    os.mkdir('d')
    os.mkdir('e')
    write('e/f')
    refused(errno.ENOTEMPTY, os.rename, 'd', 'e')


@case
def rename_dir_same_parent():
    os.mkdir('d')
    write('d/f')
    os.rename('d', 'e')
    same(read('e/f'), b'x')


@case
def rename_dir_other_parent():
    os.makedirs('d/s')
    write('d/s/f')
    os.mkdir('e')
    os.rename('d/s', 'e/s')
    same(read('e/s/f'), b'x')
    same(os.listdir('d'), [])


@case
def rename_dir_into_itself():
    os.makedirs('d/s')
    refused(errno.EINVAL, os.rename, 'd', 'd/s/x')


@case
def rename_file_other_dir():
    os.mkdir('d')
    write('f')
    os.rename('f', 'd/g')
    same(read('d/g'), b'x')
    same(os.listdir('.'), ['d'])


@case
def rename_file_4_links_other_dir():
    os.mkdir('d')
    write('f')
    [os.link('f', f'g{i}') for i in range(3)]
    os.rename('f', 'd/f')
    same(os.stat('d/f').st_nlink, 4)


@case
def rename_noreplace_exchange():
    write('a', b'A')
    write('b', b'B')
    AT = -100

    def r2(a, b, fl):
        if libc.renameat2(AT, a.encode(), AT, b.encode(), fl):
            raise OSError(ctypes.get_errno(), '')
    refused(errno.EEXIST, r2, 'a', 'b', 1)
    r2('a', 'c', 1)
    same(read('c'), b'A')
    r2('b', 'c', 2)
    same((read('b'), read('c')), (b'A', b'B'))


@case
def rename_missing():
    refused(errno.ENOENT, os.rename, 'x', 'y')
    write('f')
    refused(errno.ENOENT, os.rename, 'f', 'nodir/f')


@case
def unlink_open():
    a = opened('f', os.O_RDWR | os.O_CREAT)
    os.write(a, b'abc')
    os.unlink('f')
    same(os.listdir('.'), [])
    same(os.fstat(a).st_nlink, 0)
    os.write(a, b'def')
    same(os.pread(a, 9, 0), b'abcdef')
    os.ftruncate(a, 2)
    same(os.fstat(a).st_size, 2)
    write('f', b'new')
    same(os.pread(a, 9, 0), b'ab')
    os.close(a)
    same(read('f'), b'new')


@case
def unlink_open_then_rmdir():
    os.mkdir('d')
    a = opened('d/f', os.O_RDWR | os.O_CREAT)
    os.unlink('d/f')
    os.rmdir('d')
    os.write(a, b'x')
    os.close(a)
    same(os.listdir('.'), [])


@case
def unlink_open_then_rename_dir():
    os.mkdir('d')
    a = opened('d/f', os.O_RDWR | os.O_CREAT)
    os.write(a, b'abc')
    os.unlink('d/f')
    os.rename('d', 'e')
    same(os.pread(a, 3, 0), b'abc')
    os.close(a)
    os.rmdir('e')


@case
def unlink_open_chmod():
    a = opened('f', os.O_RDWR | os.O_CREAT)
    os.unlink('f')
    os.fchmod(a, 384)
    os.fsync(a)
    same(stat.S_IMODE(os.fstat(a).st_mode), 384)
    os.close(a)


@case
def unlink_dir():
    os.mkdir('d')
    refused(errno.EISDIR, os.unlink, 'd')


@case
def open_a_hidden_name():
    a = opened('f', os.O_RDWR | os.O_CREAT)
    os.unlink('f')
    write('.nofs-open-0', b'mine')
    b = opened('g', os.O_RDWR | os.O_CREAT)
    os.unlink('g')
    same(read('.nofs-open-0'), b'mine')
    os.close(a)
    os.close(b)
    same(os.listdir('.'), ['.nofs-open-0'])


@case
def rmdir_nonempty():
    os.makedirs('d/e')
    refused(errno.ENOTEMPTY, os.rmdir, 'd')
    write('g')
    refused(errno.ENOTDIR, os.rmdir, 'g')
    refused(errno.ENOENT, os.rmdir, 'none')


@case
def rmdir_open_dir():
    os.mkdir('d')
    a = opened('d', os.O_RDONLY)
    os.rmdir('d')
    same(os.listdir(a), [])
    refused(errno.ENOENT, lambda: os.open('x', os.O_CREAT | os.O_WRONLY, dir_fd=a))
    os.close(a)


@case
def rmdir_dot():
    os.mkdir('d')
    refused(errno.EINVAL, os.rmdir, 'd/.')
    refused(errno.ENOTEMPTY, os.rmdir, 'd/..')


@case
def links_count():
    write('f')
    os.link('f', 'g')
    same(os.stat('f').st_nlink, 2)
    os.unlink('f')
    same(os.stat('g').st_nlink, 1)
    os.mkdir('d')
    refused(errno.EPERM, os.link, 'd', 'e')
    refused(errno.EEXIST, os.link, 'g', 'g')


@case
def links_5():
    write('f')
    [os.link('f', f'g{i}') for i in range(6)]


@case
def dir_nlink_counts_subdirs():
    os.makedirs('d/a')
    os.mkdir('d/b')
    same(os.stat('d').st_nlink, 4)


@case
def ino_same_over_links_and_stable():
    write('f')
    os.link('f', 'g')
    i = os.stat('f').st_ino
    same(os.stat('g').st_ino, i)
    same([e.inode() for e in os.scandir('.')], [i, i])


@case
def ino_unique():
    [write(f'f{i}') for i in range(50)]
    os.mkdir('d')
    s = [os.stat(x).st_ino for x in os.listdir('.')]
    same(len(set(s)), 51)


@case
def readdir_during_changes():
    os.mkdir('d')
    [write(f'd/f{i:03}') for i in range(400)]
    seen = set()
    with os.scandir('d') as it:
        for k, e in enumerate(it):
            seen.add(e.name)
            if k % 2 == 0:
                write(f'd/new{k:03}')
            if k < 100 and e.name.startswith('f'):
                os.unlink('d/' + e.name)
    holds(seen >= {f'f{i:03}' for i in range(400)}, f"{400 - len(seen & {f'f{i:03}' for i in range(400)})} missed")


@case
def rm_while_listing():
    os.mkdir('d')
    [write(f'd/f{i:03}') for i in range(500)]
    with os.scandir('d') as it:
        for e in it:
            os.unlink(e.path)
    os.rmdir('d')


@case
def seekdir_telldir():
    [write(f'f{i}') for i in range(30)]
    libc.opendir.restype = ctypes.c_void_p
    libc.readdir.argtypes = libc.telldir.argtypes = libc.closedir.argtypes = libc.rewinddir.argtypes = [ctypes.c_void_p]
    libc.readdir.restype = ctypes.c_void_p
    libc.telldir.restype = ctypes.c_long
    libc.seekdir.argtypes = [ctypes.c_void_p, ctypes.c_long]
    d = libc.opendir(b'.')
    name = lambda p: ctypes.string_at(p + 19)
    for _ in range(10):
        libc.readdir(d)
    t = libc.telldir(d)
    a = name(libc.readdir(d))
    [libc.readdir(d) for _ in range(5)]
    libc.seekdir(d, t)
    same(name(libc.readdir(d)), a)
    libc.rewinddir(d)
    n = 0
    while libc.readdir(d):
        n += 1
    same(n, 32)
    libc.closedir(d)


@case
def dot_entries():
    os.mkdir('d')
    out = subprocess.run(['ls', '-ai', 'd'], capture_output=True, text=True).stdout.split()
    same(out[0], str(os.stat('d').st_ino))
    same(out[2], str(os.stat('.').st_ino), 'inode of ..')


@case
def name_48():
    write('n' * 48)
    same(os.listdir('.'), ['n' * 48])


@case
def name_255():
    write('n' * 255)
    same(os.listdir('.'), ['n' * 255])


@case
def name_256_too_long():
    refused(errno.ENAMETOOLONG, write, 'n' * 256)


@case
def name_space():
    write('a b')
    same(os.listdir('.'), ['a b'])


@case
def name_utf8():
    write('grün-日本')
    same(os.listdir('.'), ['grün-日本'])


@case
def name_bytes():
    refused = []
    for b in range(1, 256):
        if b in (46, 47):
            continue
        try:
            write(b'x' + bytes([b]))
        except OSError as e:
            refused.append((b, errno.errorcode[e.errno]))
    same(refused, [])


@case
def name_dash_dots():
    write('-rf')
    write('...')
    write('.hidden')
    write('~')
    write('#x#')
    write('a:b')
    same(len(os.listdir('.')), 6)


@case
def names_1200_in_dir():
    [os.mknod(f'n{i}') for i in range(1200)]


@case
def deep_path():
    here = os.getcwd()
    try:
        for i in range(60):
            os.mkdir('dddddddd')
            os.chdir('dddddddd')
        write('f')
        same(read('f'), b'x')
    finally:
        os.chdir(here)


@case
def efbig_is_not_at_4MiB():
    f = open('f', 'wb')
    f.truncate(5 << 20)
    f.close()


@case
def write_past_limit_is_short_or_efbig():
    a = opened('f', os.O_WRONLY | os.O_CREAT)
    try:
        n = os.pwrite(a, b'x' * 100000, 4268032 - 50000)
    except OSError as e:
        same(e.errno, errno.EFBIG)
        n = 0
    finally:
        os.close(a)
    same(n, 50000, 'bytes accepted up to the limit')


@case
def truncate_shrink_grow_zero():
    write('f', b'a' * 5000)
    os.truncate('f', 1500)
    os.truncate('f', 6000)
    same(read('f'), b'a' * 1500 + bytes(4500))


@case
def truncate_mmap_tail():
    write('f', b'a' * 5000)
    a = opened('f', os.O_RDWR)
    m = mmap.mmap(a, 5000)
    os.ftruncate(a, 1500)
    os.ftruncate(a, 5000)
    same(bytes(m[1490:1510]), b'a' * 10 + bytes(10))
    m.close()
    os.close(a)


@case
def truncate_readonly_fd():
    write('f')
    a = opened('f', os.O_RDONLY)
    refused(errno.EINVAL, os.ftruncate, a, 0)
    os.close(a)
    os.mkdir('d')
    refused(errno.EISDIR, os.truncate, 'd', 0)


@case
def truncate_negative():
    write('f')
    refused(errno.EINVAL, os.truncate, 'f', -1)


@case
def chmod_kept():
    write('f')
    os.chmod('f', 2505)
    same(oct(os.stat('f').st_mode & 4095), '0o4711')
    os.mkdir('d')
    os.chmod('d', 1023)
    same(oct(os.stat('d').st_mode & 4095), '0o1777')


@case
def setuid_cleared_by_write_of_other():
    write('f')
    os.chmod('f', 2559)
    subprocess.run(['setpriv', '--reuid=65534', '--regid=65534', '--clear-groups', 'sh', '-c', f'printf y > {os.getcwd()}/f'], check=True)
    same(oct(os.stat('f').st_mode & 4095), '0o777')


@case
def permissions_enforced():
    write('f', b'secret')
    os.chmod('f', 384)
    p = subprocess.run(['setpriv', '--reuid=65534', '--regid=65534', '--clear-groups', 'cat', os.path.abspath('f')], capture_output=True)
    holds(p.returncode != 0 and b'denied' in p.stderr, p)


@case
def owner_of_made_by_other():
    os.mkdir('d')
    os.chmod('d', 511)
    subprocess.run(['setpriv', '--reuid=65534', '--regid=65534', '--clear-groups', 'touch', os.path.abspath('d/f')], check=True)
    s = os.stat('d/f')
    same((s.st_uid, s.st_gid), (65534, 65534))


@case
def setgid_dir_inherits():
    os.mkdir('d')
    os.chown('d', 0, 1234)
    os.chmod('d', 1533)
    write('d/f')
    os.mkdir('d/s')
    same(os.stat('d/f').st_gid, 1234)
    same(os.stat('d/s').st_gid, 1234)
    holds(os.stat('d/s').st_mode & 1024, 'setgid of the new directory')


@case
def chown_kept():
    write('f')
    os.chown('f', 1000, 1001)
    s = os.stat('f')
    same((s.st_uid, s.st_gid), (1000, 1001))


@case
def utimens_kept():
    write('f')
    os.utime('f', ns=(1234567890123456789, 987654321987654321))
    s = os.stat('f')
    same((s.st_atime_ns, s.st_mtime_ns), (1234567890123456789, 987654321987654321))


@case
def utimens_before_1970():
    write('f')
    os.utime('f', ns=(-5 * 10 ** 9, -7 * 10 ** 9))
    s = os.stat('f')
    same((s.st_atime_ns, s.st_mtime_ns), (-5 * 10 ** 9, -7 * 10 ** 9))


@case
def mtime_moves():
    write('f')
    os.mkdir('d')
    t, d = (os.stat('f').st_mtime_ns, os.stat('d').st_mtime_ns)
    time.sleep(0.05)
    a = opened('f', os.O_RDWR)
    os.write(a, b'yy')
    s = os.fstat(a)
    holds(s.st_mtime_ns > t, 'mtime after write')
    holds(s.st_ctime_ns > t, 'ctime')
    write('d/x')
    holds(os.stat('d').st_mtime_ns > d, 'mtime of the directory')
    t = os.stat('f').st_mtime_ns
    time.sleep(0.05)
    os.ftruncate(a, 0)
    holds(os.stat('f').st_mtime_ns > t, 'after truncate')
    os.close(a)


@case
def ctime_moves():
    write('f')
    t = os.stat('f').st_ctime_ns
    time.sleep(0.03)
    os.chmod('f', 384)
    u = os.stat('f').st_ctime_ns
    holds(u > t, 'chmod')
    time.sleep(0.03)
    os.link('f', 'g')
    v = os.stat('f').st_ctime_ns
    holds(v > u, 'link')
    time.sleep(0.03)
    os.rename('f', 'h')
    x = os.stat('h').st_ctime_ns
    holds(x > v, 'rename')
    time.sleep(0.03)
    os.unlink('g')
    holds(os.stat('h').st_ctime_ns > x, 'unlink of another name')


@case
def atime_moves():
    write('f', b'abc')
    os.utime('f', ns=(10 ** 18, 10 ** 18))
    read('f')
    holds(os.stat('f').st_atime_ns > 10 ** 18, 'atime after read (relatime)')


@case
def mmap_mtime():
    write('f', b'a' * 5000)
    os.utime('f', ns=(10 ** 18, 10 ** 18))
    a = opened('f', os.O_RDWR)
    m = mmap.mmap(a, 5000)
    m[0:3] = b'xyz'
    m.flush()
    m.close()
    os.close(a)
    holds(os.stat('f').st_mtime_ns > 10 ** 18)


@case
def statfs_free_shrinks():
    a = os.statvfs('.')
    write('f', os.urandom(1 << 20))
    os.sync()
    b = os.statvfs('.')
    holds(a.f_bfree - b.f_bfree >= 900 * 1024 // a.f_frsize, f'free before {a.f_bfree} after {b.f_bfree}')


@case
def statfs_inodes():
    a = os.statvfs('.')
    [write(f'f{i}') for i in range(50)]
    b = os.statvfs('.')
    holds(a.f_ffree - b.f_ffree >= 50, f'{a.f_ffree} {b.f_ffree}')


@case
def fsync_dir():
    a = opened('.', os.O_RDONLY)
    os.fsync(a)
    os.fdatasync(a)
    os.close(a)


@case
def sync_file_range_():
    write('f', b'x' * 9000)
    a = opened('f', os.O_RDWR)
    if libc.sync_file_range(a, ctypes.c_long(0), ctypes.c_long(0), 7):
        raise OSError(ctypes.get_errno(), 'sync_file_range')
    os.close(a)


@case
def syncfs_():
    a = opened('.', os.O_RDONLY)
    same(libc.syncfs(a), 0)
    os.close(a)


@case
def o_sync():
    a = opened('f', os.O_WRONLY | os.O_CREAT | os.O_SYNC)
    os.write(a, b'x' * 5000)
    os.close(a)
    a = opened('f', os.O_WRONLY | os.O_DSYNC)
    os.write(a, b'y')
    os.close(a)


@case
def o_direct():
    a = opened('f', os.O_RDWR | os.O_CREAT | os.O_DIRECT)
    m = mmap.mmap(-1, 8192)
    m[:] = b'd' * 8192
    same(os.write(a, m), 8192)
    n = mmap.mmap(-1, 8192)
    same(os.preadv(a, [n], 0), 8192)
    same(bytes(n), b'd' * 8192)
    os.close(a)


@case
def mmap_shared_two_maps():
    write('f', b'a' * 8192)
    a, b = (opened('f', os.O_RDWR), opened('f', os.O_RDWR))
    m, n = (mmap.mmap(a, 8192), mmap.mmap(b, 8192))
    m[100:103] = b'xyz'
    same(n[100:103], b'xyz')
    same(os.pread(b, 3, 100), b'xyz')
    os.pwrite(a, b'QQQ', 200)
    same(n[200:203], b'QQQ')
    m.flush()
    m.close()
    n.close()
    os.close(a)
    os.close(b)
    same(read('f')[100:103], b'xyz')


@case
def mmap_private():
    write('f', b'a' * 8192)
    a = opened('f', os.O_RDWR)
    m = mmap.mmap(a, 8192, flags=mmap.MAP_PRIVATE)
    m[0:3] = b'xyz'
    same(os.pread(a, 3, 0), b'aaa')
    m.close()
    os.close(a)


@case
def mmap_after_close_and_unlink():
    write('f', b'a' * 8192)
    a = opened('f', os.O_RDWR)
    m = mmap.mmap(a, 8192)
    os.close(a)
    os.unlink('f')
    m[0:3] = b'xyz'
    same(m[0:4], b'xyza')
    m.flush()
    m.close()
    same(os.listdir('.'), [])


@case
def flock_():
    write('f')
    a, b = (opened('f', os.O_RDWR), opened('f', os.O_RDWR))
    fcntl.flock(a, fcntl.LOCK_EX)
    refused(errno.EWOULDBLOCK, fcntl.flock, b, fcntl.LOCK_EX | fcntl.LOCK_NB)
    fcntl.flock(a, fcntl.LOCK_UN)
    fcntl.flock(b, fcntl.LOCK_EX | fcntl.LOCK_NB)
    os.close(a)
    os.close(b)


@case
def fcntl_locks():
    write('f', b'x' * 100)
    a = opened('f', os.O_RDWR)
    fcntl.lockf(a, fcntl.LOCK_EX, 10, 0)
    p = subprocess.run([sys.executable, '-c', "import fcntl,os\na=os.open('f',os.O_RDWR)\nfcntl.lockf(a,fcntl.LOCK_EX|fcntl.LOCK_NB,10,50)\ntry: fcntl.lockf(a,fcntl.LOCK_EX|fcntl.LOCK_NB,10,5)\nexcept OSError: print('held')"], capture_output=True, text=True)
    same(p.stdout.strip(), 'held', p.stderr)
    os.close(a)


@case
def lease_and_inotify():
    write('f')
    a = opened('f', os.O_RDONLY)
    fcntl.fcntl(a, fcntl.F_SETLEASE, fcntl.F_RDLCK)
    fcntl.fcntl(a, fcntl.F_SETLEASE, fcntl.F_UNLCK)
    os.close(a)


@case
def copy_file_range_():
    write('f', bytes(range(256)) * 100)
    write('g', b'')
    a, b = (opened('f', os.O_RDONLY), opened('g', os.O_RDWR))
    n = os.copy_file_range(a, b, 25600)
    os.close(a)
    os.close(b)
    same(read('g'), read('f')[:n])
    same(n, 25600)


@case
def sendfile_splice():
    write('f', bytes(range(256)) * 100)
    a, b = (opened('f', os.O_RDONLY), opened('g', os.O_CREAT | os.O_RDWR))
    same(os.sendfile(b, a, 0, 25600), 25600)
    os.close(a)
    os.close(b)
    same(read('g'), read('f'))


@case
def posix_fallocate_():
    a = opened('f', os.O_RDWR | os.O_CREAT)
    os.posix_fallocate(a, 0, 100000)
    same(os.fstat(a).st_size, 100000)
    os.close(a)


@case
def fallocate_native():
    a = opened('f', os.O_RDWR | os.O_CREAT)
    libc.fallocate.argtypes = [ctypes.c_int, ctypes.c_int, ctypes.c_long, ctypes.c_long]
    if libc.fallocate(a, 0, 0, 100000):
        raise OSError(ctypes.get_errno(), 'fallocate')


@case
def punch_hole():
    write('f', b'a' * 20000)
    a = opened('f', os.O_RDWR)
    libc.fallocate.argtypes = [ctypes.c_int, ctypes.c_int, ctypes.c_long, ctypes.c_long]
    if libc.fallocate(a, 3, 4096, 4096):
        raise OSError(ctypes.get_errno(), 'punch hole')
    same(read('f')[4000:9000], b'a' * 96 + bytes(4096) + b'a' * 808)


@case
def seek_hole_data():
    a = opened('f', os.O_RDWR | os.O_CREAT)
    os.pwrite(a, b'x' * 4096, 1 << 20)
    os.fsync(a)
    same(os.lseek(a, 0, os.SEEK_DATA), 1 << 20, 'first data')
    same(os.lseek(a, 1 << 20, os.SEEK_HOLE), (1 << 20) + 4096)
    os.close(a)


@case
def sparse_blocks():
    a = opened('f', os.O_RDWR | os.O_CREAT)
    os.ftruncate(a, 2 << 20)
    os.fsync(a)
    b = os.fstat(a).st_blocks
    os.close(a)
    holds(b < 100, f'st_blocks {b} of a file that is one hole')


@case
def sparse_reads_zero():
    a = opened('f', os.O_RDWR | os.O_CREAT)
    os.pwrite(a, b'end', 3 << 20)
    os.close(a)
    d = read('f')
    same(len(d), (3 << 20) + 3)
    holds(not any(d[:3 << 20]))
    same(d[-3:], b'end')


@case
def symlink_():
    write('f', b'A')
    os.symlink('f', 'l')
    same(read('l'), b'A')
    same(os.readlink('l'), 'f')


@case
def fifo():
    os.mkfifo('p')


@case
def unix_socket():
    s = socket.socket(socket.AF_UNIX)
    s.bind('sock')
    s.close()


@case
def device_node():
    os.mknod('dev', stat.S_IFCHR | 384, os.makedev(1, 3))


@case
def xattr():
    write('f')
    os.setxattr('f', 'user.a', b'b')
    same(os.getxattr('f', 'user.a'), b'b')
    same(os.listxattr('f'), ['user.a'])


@case
def acl():
    write('f')
    p = subprocess.run(['setfacl', '-m', 'u:1000:r', 'f'], capture_output=True, text=True)
    holds(p.returncode == 0, p.stderr.strip())


@case
def exec_binary():
    shutil.copy('/bin/echo', 'e')
    os.chmod('e', 493)
    same(subprocess.run(['./e', 'hi'], capture_output=True).stdout, b'hi\n')
    os.rename('e', 'e2')
    same(subprocess.run(['./e2', 'hi'], capture_output=True).stdout, b'hi\n')


@case
def exec_script():
    write('s', b'#!/bin/sh\necho ok\n')
    os.chmod('s', 493)
    same(subprocess.run(['./s'], capture_output=True).stdout, b'ok\n')


@case
def etxtbsy():
    shutil.copy('/bin/sleep', 'e')
    os.chmod('e', 493)
    p = subprocess.Popen(['./e', '5'])
    time.sleep(0.2)
    refused(errno.ETXTBSY, opened, 'e', os.O_WRONLY)
    p.kill()
    p.wait()


@case
def many_open_files():
    l = [opened(f'f{i}', os.O_RDWR | os.O_CREAT) for i in range(300)]
    [os.write(a, b'%d' % i) for i, a in enumerate(l)]
    [os.unlink(f'f{i}') for i in range(300)]
    for i, a in enumerate(l):
        same(os.pread(a, 9, 0), b'%d' % i)
    [os.close(a) for a in l]
    same(os.listdir('.'), [])


@case
def eight_writers_own_files():
    bad = []

    def go(k):
        try:
            rnd = random.Random(k)
            d = bytearray(60000)
            f = opened(f'w{k}', os.O_RDWR | os.O_CREAT)
            for _ in range(60):
                at = rnd.randrange(55000)
                b = bytes([65 + k]) * rnd.randrange(1, 5000)
                os.pwrite(f, b, at)
                d[at:at + len(b)] = b
            n = os.fstat(f).st_size
            os.close(f)
            g = read(f'w{k}')
            if g != bytes(d[:n]):
                bad.append(k)
        except Exception as e:
            bad.append((k, e))
    t = [threading.Thread(target=go, args=(k,)) for k in range(8)]
    [x.start() for x in t]
    [x.join() for x in t]
    same(bad, [])


@case
def eight_appenders_one_file():

    def go(k):
        f = opened('log', os.O_WRONLY | os.O_APPEND | os.O_CREAT)
        for i in range(100):
            os.write(f, b'%d:%04d\n' % (k, i))
        os.close(f)
    pids = []
    for k in range(8):
        p = os.fork()
        if p == 0:
            go(k)
            os._exit(0)
        pids.append(p)
    [os.waitpid(p, 0) for p in pids]
    l = read('log').split(b'\n')[:-1]
    same(len(l), 800)
    same(len(set(l)), 800)


@case
def excl_race():
    won = []

    def go():
        for i in range(50):
            try:
                os.close(opened(f'x{i}', os.O_CREAT | os.O_EXCL | os.O_WRONLY))
                won.append(i)
            except FileExistsError:
                pass
    t = [threading.Thread(target=go) for _ in range(6)]
    [x.start() for x in t]
    [x.join() for x in t]
    same(sorted(won), list(range(50)))


@case
def rename_is_atomic_for_readers():
    write('t', b'0' * 2000)
    stop, bad = ([], [])

    def look():
        while not stop:
            try:
                d = read('t')
                if len(set(d)) != 1 or len(d) != 2000:
                    bad.append(d[:10])
            except FileNotFoundError:
                bad.append('missing')
    t = threading.Thread(target=look)
    t.start()
    for i in range(150):
        write('n', b'%d' % (i % 10) * 2000)
        os.rename('n', 't')
    stop.append(1)
    t.join()
    same(bad[:3], [])


@case
def stale_dir_fd():
    os.mkdir('d')
    a = opened('d', os.O_RDONLY)
    os.rename('d', 'e')
    write('e/f')
    same(os.listdir(a), ['f'])
    same(os.fstat(a).st_ino, os.stat('e').st_ino)
    os.close(a)


@case
def access_():
    write('f')
    holds(os.access('f', os.R_OK | os.W_OK))
    os.chmod('f', 0)
    holds(os.access('f', os.R_OK))
    holds(not os.access('f', os.X_OK))


@case
def blksize_and_blocks():
    write('f', b'x' * 10000)
    s = os.stat('f')
    holds(s.st_blksize >= 512)
    holds(s.st_blocks >= 19, s.st_blocks)


@case
def handles():
    write('f')
    h = ctypes.create_string_buffer(136)
    ctypes.memmove(h, 128 .to_bytes(4, 'little'), 4)
    m = ctypes.c_int()
    if libc.name_to_handle_at(-100, b'f', h, ctypes.byref(m), 0):
        raise OSError(ctypes.get_errno(), 'name_to_handle_at')
    a = opened('.', os.O_RDONLY)
    b = libc.open_by_handle_at(a, h, os.O_RDONLY)
    if b < 0:
        raise OSError(ctypes.get_errno(), 'open_by_handle_at')
    same(os.read(b, 9), b'x')


@case
def ioctl_flags():
    write('f')
    a = opened('f', os.O_RDONLY)
    b = bytearray(8)
    fcntl.ioctl(a, 2148034049, b)
    os.close(a)


@case
def reflink():
    write('f', b'abc')
    a, b = (opened('f', os.O_RDONLY), opened('g', os.O_RDWR | os.O_CREAT))
    refused(errno.EOPNOTSUPP, fcntl.ioctl, b, 1074041865, a)


@case
def zero_writes():
    a = opened('f', os.O_RDWR | os.O_CREAT)
    same(os.write(a, b''), 0)
    same(os.pread(a, 5, 0), b'')
    same(os.fstat(a).st_size, 0)


@case
def writev_readv():
    a = opened('f', os.O_RDWR | os.O_CREAT)
    same(os.writev(a, [b'abc', b'', b'def' * 1000]), 3003)
    same(os.pread(a, 6, 0), b'abcdef')
    os.close(a)


@case
def chroot_rel_and_cwd_removed():
    os.mkdir('d')
    here = os.getcwd()
    os.chdir('d')
    os.rmdir('../d')
    refused(errno.ENOENT, write, 'x')
    os.chdir(here)


def answer_of(function):
    """What differs in a case, or nothing, in a folder of its own."""
    folder = tempfile.mkdtemp(prefix="p", dir=TOP)
    os.chmod(folder, 0o777)
    os.chdir(folder)
    try:
        function()
        return ""
    except Differs as differs:
        return str(differs)
    except OSError as caught:
        return f"{errno.errorcode.get(caught.errno)} {caught.filename or ''} ({caught.strerror})"[:200]
    except subprocess.SubprocessError as caught:
        return str(caught)
    finally:
        os.chdir(TOP)
        left = subprocess.run(["rm", "-rf", folder], capture_output=True, text=True)
        if left.returncode:
            print("left over after", function.__name__, left.stderr.strip()[:200])


def main():
    chosen = [function for function in cases if not NAMES or function.__name__ in NAMES]
    answers = [(function.__name__, answer_of(function)) for function in chosen]
    differ = [(name, answer) for name, answer in answers if answer]
    print(f"{len(answers) - len(differ)} of {len(answers)} as a local file system")
    for name, answer in differ:
        print(f"{name}: {answer}")


if __name__ == "__main__":
    main()
