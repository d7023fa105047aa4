"""The folder of files that are made up: made, removed, and those of runs that were killed. (tempfile and shutil would
take their time of each start.) Not proved."""

import fcntl
import os
import time

from .words import Unfit

# What a folder is called, before the number of the process. (./numaplan removes old folders numaplan-*-*.)
NAME = "numaplan.emulate-"
A_MINUTE = 60  # seconds
IN_MEMORY = "/dev/shm"  # where files are made and removed in a third of the time
MOST_BYTES, MOST_FILES = 1 << 27, 1 << 15  # that are made up, as for 1,024 CPUs


def place_of_rooms():
    for place in (os.environ.get("TMPDIR"), IN_MEMORY, "/tmp", "/var/tmp"):
        if place and os.path.isdir(place) and os.access(place, os.W_OK | os.X_OK) and (
                place != IN_MEMORY or has_space(place)):
            return os.path.abspath(place)
    raise Unfit("no folder for files is writable: /tmp, /var/tmp, or that of TMPDIR")


def has_space(place):
    """Whether all that is made up finds room there. (A container's /dev/shm can be small.)"""
    told = os.statvfs(place)
    has_files = told.f_favail >= MOST_FILES or not told.f_files  # (0: as many as one likes)
    return told.f_bavail * told.f_frsize >= MOST_BYTES and has_files


def make_room():
    """A folder for what is made up, locked as long as this process lives."""
    place = place_of_rooms()
    while True:
        room = f"{place}/{NAME}{os.getpid()}-{os.urandom(4).hex()}"
        try:
            os.mkdir(room, 0o700)
            break
        except FileExistsError:
            continue
        except OSError as fault:
            raise Unfit(f"{room}: {fault.strerror}") from fault
    os.chmod(room, 0o755)
    fcntl.flock(os.open(room, os.O_RDONLY), fcntl.LOCK_SH)
    return room


def remove_room(room):
    """With all that is in it. (Nobody else may write there.)"""
    try:
        found = list(os.scandir(room))
    except OSError:
        return
    for entry in found:
        if entry.is_dir(follow_symlinks=False):
            remove_room(entry.path)
        else:
            remove(os.unlink, entry.path)
    remove(os.rmdir, room)


def remove(by, path):
    try:
        by(path)
    except OSError:
        pass


def sweep_rooms():
    """Removes the folders of runs that were killed."""
    place = place_of_rooms()
    for name in os.listdir(place):
        if name.startswith(NAME) and is_left(f"{place}/{name}"):
            from shutil import rmtree  # (which goes on safely where others may write)

            rmtree(f"{place}/{name}", ignore_errors=True)


def is_left(room):
    """Whether nobody has locked it, a minute after it was made. (/proc could be that of other processes.)"""
    try:
        folder = os.open(room, os.O_RDONLY)
    except OSError:
        return False
    try:
        fcntl.flock(folder, fcntl.LOCK_EX | fcntl.LOCK_NB)
        return time.time() - os.stat(room).st_mtime > A_MINUTE
    except OSError:
        return False
    finally:
        os.close(folder)
