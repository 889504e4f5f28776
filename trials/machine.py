"""A machine of its own for trials that install something: this one's files below a layer that goes, and systemd over them."""
import os
import subprocess
import time
from pathlib import Path

# Lays out the machine in namespaces of its own. Words: a folder, what its files lie over, a name, and what follows.
BEGIN = r"""
mount -t tmpfs tmpfs "$1"
cd "$1"
mkdir upper work root groups
mount -t overlay overlay -o "lowerdir=$2,upperdir=upper,workdir=work" root
mount -t cgroup2 none groups
mkdir "groups/$3"
echo 0 >"groups/$3/cgroup.procs"
cd root
exec unshare --cgroup bash -euc "$4"
"""
# Becomes its first process.
BECOME = r"""
mount -t proc proc proc
mount --bind -o ro proc/sys proc/sys
mount -t sysfs -o ro sysfs sys
mount -t tmpfs tmpfs sys/fs
mkdir sys/fs/cgroup
mount -t cgroup2 none sys/fs/cgroup
for folder in run tmp dev root; do # nothing of who runs the trial
    mount -t tmpfs tmpfs $folder
done
chmod 1777 tmp
mkdir dev/shm dev/pts
mount -t devpts -o newinstance,ptmxmode=666 devpts dev/pts
ln -s pts/ptmx dev/ptmx
ln -s null dev/console
for device in null zero full random urandom tty; do
    touch dev/$device
    mount --bind /dev/$device dev/$device
done
rm -f usr/sbin/policy-rc.d # by which this one may forbid what packages do with units
mkdir -p run/layer run/systemd/system
mount --bind ../upper run/layer
printf '[Unit]\nDefaultDependencies=no\n' >run/systemd/system/trial.target
pivot_root . . # in a chroot there are no users of a unit's own
umount -l .
cd /
exec setpriv --bounding-set -sys_module,-sys_time,-sys_rawio,-syslog env -i container=trial LC_ALL=C.UTF-8 \
    PATH=/usr/sbin:/usr/bin:/sbin:/bin /lib/systemd/systemd --system --unit=trial.target --log-target=journal
"""
# Takes the groups of a machine that has ended.
CLEAR = r"""
mount -t cgroup2 none "$0" || exit
for again in $(seq 50); do
    [ -d "$0/$1" ] || break
    find "$0/$1" -depth -type d -exec rmdir {} + && break
    sleep 0.1
done
"""
LIMIT = "300"  # seconds, of a command
SPACES = ["--mount", "--pid", "--ipc", "--uts", "--net"]
PATIENCE = 60  # seconds


class NoMachine(Exception):
    pass


class Machine:
    """What is done in it is gone with it. It ends with whoever began it."""

    def __init__(self, room, files="/"):
        if os.geteuid():
            raise NoMachine("it wants root")
        self.name, self.folder, self.first = f"trial-{os.getpid()}", room / "machine", None
        self.folder.mkdir()
        words = ["setpriv", "--pdeathsig", "KILL", "unshare", *SPACES, "--fork", "--kill-child", "bash", "-euc", BEGIN, "machine"]
        self.process = subprocess.Popen(
            [*words, str(self.folder), str(files), self.name, BECOME],
            stdin=subprocess.DEVNULL, stdout=subprocess.DEVNULL, stderr=subprocess.PIPE, text=True,
        )
        until = time.monotonic() + PATIENCE
        while not self.is_up():
            if self.process.poll() is not None or time.monotonic() > until:
                raise NoMachine(f"none can be made here: {self.end().strip()[-300:]}")
            time.sleep(0.1)

    def is_up(self):
        children = Path(f"/proc/{self.process.pid}/task/{self.process.pid}/children")
        try:
            child = children.read_text().strip()
            self.first = child if child and Path(f"/proc/{child}/comm").read_text() == "systemd\n" else None
        except (FileNotFoundError, ProcessLookupError):  # it has just ended
            return False
        return self.first is not None and self.run("systemctl is-system-running").stdout == "running\n"

    def run(self, command, folder="/root"):
        """A command of bash in it, with nothing of this machine around it. One that doesn't end has status 124."""
        enter = ["nsenter", "--target", self.first, *SPACES, "--cgroup", "--root", "--wd"]
        around = ["env", "-i", "HOME=/root", "PATH=/usr/sbin:/usr/bin:/sbin:/bin", "LC_ALL=C.UTF-8", "DEBIAN_FRONTEND=noninteractive"]
        words = [*enter, *around, "timeout", "--kill-after=10", LIMIT, "bash", "-euo", "pipefail", "-c", f"cd {folder}; {command}"]
        return subprocess.run(words, stdin=subprocess.DEVNULL, capture_output=True, text=True)

    def path(self, name):
        """A file in it, where no link leads away."""
        return Path(f"/proc/{self.first}/root{name}")

    def changed(self):
        """The files that it doesn't have from what it lies over."""
        return set(self.run("find /run/layer ! -type d -printf '/%P\\n'").stdout.splitlines())

    def end(self):
        """Ends it, and answers what was said while it was made."""
        self.process.kill()
        said = self.process.communicate()[1]
        subprocess.run(["unshare", "--mount", "bash", "-uc", CLEAR, str(self.folder), self.name], stderr=subprocess.DEVNULL)
        return said
