"""The machines on which tries/guide types docs/HOUSE.md: one that is played in a folder, and one that systemd has booted.

`Played` maps the page's folders into a temporary one and its ports to free ones; scripts play what would change the real machine.
`Here` is the machine itself, with systemd as its first process: systemd-nspawn boots it for that alone (`Boots`), from a folder that
debootstrap made (`make`), with its changes in memory and its network apart. Both have the same methods. `Typed` is a shell at a terminal.
"""
import contextlib
import fcntl
import glob
import os
import pty
import re
import select
import shutil
import signal
import socket
import struct
import subprocess
import sys
import termios
import time

EVENT = "/api/v1/organizers/house/events/hall"
ROOTS = re.compile(r"(?<![\w.~])/(usr/local/bin|usr/local/lib|var/lib|var/backups|var/log|etc|run)(?=[/\s\"']|$)", re.M)
USER, PASSWORD = "organizer", "organizer"
# What the machine of systemd-nspawn has beyond Debian's smallest.
PACKAGES = "systemd,systemd-sysv,dbus,libpam-systemd,sudo,cron,nginx-light,curl,openssl,python3,rsync,openssh-client,openssh-server,procps,iproute2"
PLAYED = {
    "sudo": 'if [ "$1" = -u ]; then shift 2; fi\nexec "$@"\n',
    "useradd": '[[ "$*" =~ ^(--[a-z-]+( /[^ ]+)? )+boxoffice$ ]]\n',
    "chown": '[ "$1 $2" = "-R boxoffice:" ] && [ -d "$3" ]\n',
    "install": 'words=()\nwhile [ $# -gt 0 ]; do if [ "$1" = -o ]; then shift 2; else words+=("$1"); shift; fi; done\nexec REAL "${words[@]}"\n',
    "scp": '[ "$1 $4" = "-q new.example:" ] && cp -p "$2" "$3" ROOM/home/\n',
    "rsync": '[ "$*" = "-a ROOM/var/backups/boxoffice copies@backup.example:" ] && cp -a "$2" ROOM/copies/\n',
    "nginx": 'exec REAL -p ROOM -c ROOM/etc/nginx/nginx.conf "$@"\n',
    "systemctl": """\
echo "$*" >> ROOM/calls
if [ "$1" = -q ]; then shift; fi
runs() { [ -s "ROOM/$1.pid" ] && read -r _ _ state _ 2> /dev/null < "/proc/$(cat "ROOM/$1.pid")/stat" && [ "$state" != Z ]; }
case "$*" in
daemon-reload) ;;
'is-active boxoffice') if runs boxoffice; then echo active; else echo inactive; exit 3; fi ;;
'start boxoffice' | 'enable --now boxoffice')
  [ ! -e ROOM/masked ] || exit 1
  runs boxoffice && exit
  : > ROOM/journal
  $(sed -n 's/^ExecStart=//p' ROOM/usr/local/lib/systemd/system/boxoffice.service) >> ROOM/journal 2>&1 9>&- &
  echo $! > ROOM/boxoffice.pid
  until grep -q listening ROOM/journal; do runs boxoffice || exit 1; sleep 0.02; done ;;
'stop boxoffice' | 'disable --now boxoffice' | 'mask --now boxoffice')
  [ ! -e ROOM/refused ] || exit 1
  if [ "$1" = mask ]; then : > ROOM/masked; fi
  runs boxoffice || exit 0
  kill "$(cat ROOM/boxoffice.pid)"
  while runs boxoffice; do sleep 0.02; done ;;
'unmask boxoffice') rm -f ROOM/masked ;;
'reload nginx') if runs nginx; then nginx -s reload 2> ROOM/reloaded; else nginx; fi ;;
*) echo "systemctl $*: not played" >&2; exit 1 ;;
esac
""",
}
NGINX = """\
USER
pid ROOM/nginx.pid;
error_log ROOM/nginx.log;
events {}
http { client_body_temp_path ROOM/body; proxy_temp_path ROOM/proxy; fastcgi_temp_path ROOM/f; uwsgi_temp_path ROOM/u; scgi_temp_path ROOM/s; include ROOM/etc/nginx/conf.d/*.conf; }
"""
# What makes a fresh machine of one on which the page was typed to its end.
FRESH = f"""\
systemctl unmask boxoffice
rm -rf /usr/local/lib/systemd /usr/local/bin/* /etc/nginx/conf.d/* /etc/cron.d/boxoffice /var/lib/boxoffice* /var/backups/boxoffice /home/{USER}/hall
userdel boxoffice
systemctl daemon-reload
systemctl reload nginx
"""


def free_port():
    with socket.socket() as it:
        it.bind(("127.0.0.1", 0))
        return it.getsockname()[1]


def written(path, text, mode=0o644):
    os.makedirs(os.path.dirname(path), exist_ok=True)
    with open(path, "w", encoding="utf-8") as it:
        it.write(text)
    os.chmod(path, mode)


def read(path):
    with open(path, encoding="utf-8", errors="replace") as it:
        return it.read()


def ended(process):
    with contextlib.suppress(ProcessLookupError):
        os.kill(process, signal.SIGTERM)


class Machine:
    """What both machines have: a clone at `work`, a user's folder `home`, an environment, a port of the shop and one of nginx."""

    is_booted = False

    def path(self, name):
        """Where the shell would write a file of that name: by its whole path, or in the folder that it is in."""
        return self.mapped(name) if name.startswith("/") else f"{self.home}/hall/{name}"

    def run(self, *words, folder=None, env=None):
        """Runs a command as root, where there is one."""
        return subprocess.run(words, stdin=subprocess.DEVNULL, stdout=subprocess.PIPE, stderr=subprocess.STDOUT, text=True, cwd=folder or self.aside, env={**self.env, **(env or {})}, timeout=120)

    def run_as(self, user, line):
        """Runs a line as cron does for that user."""
        return self.run("sh", "-c", line)

    def begin(self, *words):
        """Begins a command as root, in a group of processes of its own."""
        return subprocess.Popen(words, stdin=subprocess.DEVNULL, stdout=subprocess.DEVNULL, stderr=subprocess.DEVNULL, cwd=self.aside, env=self.env, start_new_session=True)

    def state(self):
        return self.run("systemctl", "is-active", "boxoffice").stdout.strip()

    def auth(self):
        return read(self.mapped("/var/lib/boxoffice/auth")).strip()

    def certify(self, folder, port):
        """A certificate that signs itself, which curl is shown, and the port of tickets.example."""
        os.makedirs(folder, exist_ok=True)
        self.certificate = f"{folder}/fullchain.pem"
        subprocess.run(["openssl", "req", "-x509", "-newkey", "rsa:2048", "-nodes", "-days", "2", "-subj", "/CN=tickets.example", "-addext", "subjectAltName=DNS:tickets.example,IP:127.0.0.1",
                        "-keyout", f"{folder}/privkey.pem", "-out", self.certificate], check=True, capture_output=True)
        return f'cacert = "{self.certificate}"\nconnect-to = "tickets.example:443:127.0.0.1:{port}"\n'


class Played(Machine):
    """A machine played in a folder: its folders, its ports, and the scripts in the place of what would change the real one."""

    def __init__(self, at, program):
        self.at, self.port, self.tls = at, free_port(), free_port()
        self.home, self.work, self.aside, self.elsewhere = f"{at}/home", f"{at}/repository", f"{at}/aside", f"{at}/copies"
        for it in ("home", "aside", "copies", "run", "usr/local/bin", "var/lib", "var/backups", "var/log/nginx", "etc/nginx/conf.d", "played"):
            os.makedirs(f"{at}/{it}")
        written(f"{self.work}/crates/boxoffice/out/boxoffice", "")
        shutil.copy(program, f"{self.work}/crates/boxoffice/out/boxoffice")
        for name, text in PLAYED.items():
            real = shutil.which(name)
            if "REAL" not in text or real:
                written(f"{at}/played/{name}", "#!/bin/bash\n" + text.replace("REAL", real or "").replace("ROOM", at), 0o755)
        written(f"{at}/etc/nginx/nginx.conf", NGINX.replace("USER", "user root root;" if os.geteuid() == 0 else "").replace("ROOM", at))
        written(f"{self.home}/.curlrc", self.certify(f"{at}/etc/letsencrypt/live/tickets.example", self.tls))
        self.env = {"HOME": self.home, "PATH": f"{at}/played:{at}/usr/local/bin:{os.environ['PATH']}", "SSL_CERT_FILE": self.certificate, "LC_ALL": "C.UTF-8"}

    def mapped(self, text):
        text = ROOTS.sub(lambda it: f"{self.at}/{it[1]}", text).replace("127.0.0.1:8080", f"127.0.0.1:{self.port}")
        return text.replace("listen 443 ", f"listen 127.0.0.1:{self.tls} ")

    def shell(self):
        return Typed(self.work, self.env, None)

    def refuse_stop(self, refuses):
        """Has `systemctl stop` fail, or no more."""
        if refuses:
            written(f"{self.at}/refused", "")
        else:
            os.remove(f"{self.at}/refused")

    def carried(self):
        return f"{self.home}/hall.tgz", os.geteuid()

    def renew(self):
        """Is the machine to which the shop moves."""
        for it in ("usr/local", "var/lib", "var/backups", "home/hall"):
            shutil.rmtree(f"{self.at}/{it}")
        for it in ("usr/local/bin", "var/lib", "var/backups"):
            os.makedirs(f"{self.at}/{it}")
        for it in glob.glob(f"{self.at}/etc/nginx/conf.d/*") + [f"{self.at}/masked"]:
            os.remove(it)

    def end(self):
        for name in ("nginx", "boxoffice"):
            if os.path.exists(f"{self.at}/{name}.pid"):
                ended(int(read(f"{self.at}/{name}.pid")))


class Here(Machine):
    """This machine, which systemd has booted for this alone: a user with sudo and a password, and the other machines' names lead to it."""

    is_booted = True

    def __init__(self, at, program):
        manager = "/run/host/container-manager"
        if not os.path.exists(manager) or read(manager).strip() != "systemd-nspawn":
            sys.exit("--here makes users and writes to /etc: it is for the machine that systemd-nspawn boots")
        self.at, self.port, self.tls = at, 8080, 443
        self.home, self.work, self.aside, self.elsewhere = f"/home/{USER}", f"/home/{USER}/clone", f"{at}/aside", "/home/copies"
        os.makedirs(self.aside)
        for name in (USER, "copies"):
            subprocess.run(["useradd", "--create-home", "--shell", "/bin/bash", name], check=True)
        subprocess.run(["chpasswd"], input=f"{USER}:{PASSWORD}\n", text=True, check=True)
        subprocess.run(["usermod", "-aG", "sudo", USER], check=True)
        with open("/etc/hosts", "a", encoding="utf-8") as it:
            it.write(f"127.0.0.1 localhost {socket.gethostname()} tickets.example new.example backup.example\n")
        self.env = {"HOME": "/root", "PATH": "/usr/local/sbin:/usr/local/bin:/usr/sbin:/usr/bin:/sbin:/bin", "LC_ALL": "C.UTF-8"}
        said = self.certify("/etc/letsencrypt/live/tickets.example", 443)
        self.env["SSL_CERT_FILE"] = self.certificate
        for name, folder, other in ((USER, self.home, USER), ("root", "/root", "copies")):
            self.settle(name, folder, other, said)
        written(f"{self.work}/crates/boxoffice/out/boxoffice", "")
        shutil.copy(program, f"{self.work}/crates/boxoffice/out/boxoffice")
        subprocess.run(["chown", "-R", f"{USER}:", self.home], check=True)
        subprocess.run(["chmod", "-R", "a+rX", "/etc/letsencrypt"], check=True)

    @staticmethod
    def settle(name, folder, other, said):
        """Gives a user curl's settings, and a key that opens another user's folder by SSH."""
        written(f"{folder}/.curlrc", said)
        os.makedirs(f"{folder}/.ssh", exist_ok=True)
        subprocess.run(["ssh-keygen", "-q", "-t", "ed25519", "-N", "", "-f", f"{folder}/.ssh/id_ed25519"], check=True)
        written(f"{folder}/.ssh/config", "StrictHostKeyChecking accept-new\nLogLevel ERROR\n")
        subprocess.run(["chown", "-R", f"{name}:", f"{folder}/.ssh"], check=True)
        written(f"/home/{other}/.ssh/authorized_keys", read(f"{folder}/.ssh/id_ed25519.pub"))
        subprocess.run(["chown", "-R", f"{other}:", f"/home/{other}/.ssh"], check=True)

    @staticmethod
    def mapped(text):
        return text

    def shell(self):
        return Typed(self.work, {**self.env, "HOME": self.home, "USER": USER}, USER)

    def run_as(self, user, line):
        return self.run("/usr/sbin/runuser", "-u", user, "--", "sh", "-c", line, env={"PATH": "/usr/bin:/bin"})

    def refuse_stop(self, refuses):
        at = "/etc/systemd/system/boxoffice.service.d"
        if refuses:
            written(f"{at}/refuse.conf", "[Unit]\nRefuseManualStop=yes\n")
        else:
            shutil.rmtree(at)
        self.run("systemctl", "daemon-reload")

    def carried(self):
        return f"{self.home}/hall.tgz", os.stat(self.home).st_uid

    def renew(self):
        self.run("bash", "-c", FRESH)

    def end(self):
        pass


class Typed:
    """A bash at a terminal, with nothing between it and what is typed: each block is sent at once. It says when it waits for a line, with
    the status of the one before, and is given the user's password when sudo asks."""

    WAITS = re.compile(r"\x01(\d+)\x02")
    ASKS = re.compile(r"\[sudo\] password for \w+: ")

    def __init__(self, folder, env, user):
        self.master, self.terminal = pty.openpty()
        fcntl.ioctl(self.terminal, termios.TIOCSWINSZ, struct.pack("HHHH", 50, 200, 0, 0))
        mode = termios.tcgetattr(self.terminal)
        mode[1] &= ~termios.OPOST
        mode[3] &= ~termios.ECHO
        termios.tcsetattr(self.terminal, termios.TCSANOW, mode)
        env = {**env, "PS1": "", "PS2": "", "TERM": "dumb", "PROMPT_COMMAND": r"printf '\001%d\002' $?"}
        user_words = {"user": user, "group": user, "extra_groups": ["sudo"]} if user else {}
        self.bash = subprocess.Popen(["setsid", "--ctty", "bash", "--norc", "--noprofile", "--noediting", "-i"], stdin=self.terminal, stdout=self.terminal,
                                     stderr=self.terminal, cwd=folder, env=env, **user_words)
        self.text, self.asked = "", 0
        self.settle(10)

    def take(self, seconds):
        """Whether the terminal shows something within so long."""
        if not select.select([self.master], [], [], seconds)[0]:
            return False
        self.text += os.read(self.master, 65536).decode("utf-8", errors="replace")
        if len(self.ASKS.findall(self.text)) > self.asked:
            self.asked += 1
            os.write(self.master, f"{PASSWORD}\n".encode())
        return True

    def is_waiting(self):
        """Whether bash waits for a line, and none is left that it may still read."""
        left = struct.unpack("i", fcntl.ioctl(self.terminal, termios.FIONREAD, b"\0" * 4))[0]
        return left == 0 and self.WAITS.search(self.text) is not None and os.tcgetpgrp(self.master) == self.bash.pid and not self.waits_for_others()

    def waits_for_others(self):
        """Whether bash waits for a process or a pipe, as far as the kernel tells."""
        return re.search("do_wait|pipe", read(f"/proc/{self.bash.pid}/wchan")) is not None

    def settle(self, seconds):
        """Whether all that was typed was read and done within so long."""
        until = time.time() + seconds
        while time.time() < until:
            if not self.take(0.25) and self.is_waiting():
                return True
        return False

    def run(self, text, is_enough):
        """What a block shows, and how many of its lines failed. What it leaves running may print for some seconds more."""
        self.text, self.asked = "", 0
        os.write(self.master, text.encode())
        if not self.settle(120):
            return f"{self.shown()}it didn't end in two minutes\n", 0
        failed = sum(it != "0" for it in self.WAITS.findall(self.text))
        until = time.time() + 5
        while not is_enough(self.shown()) and time.time() < until:
            self.take(0.05)
        return self.shown(), failed

    def shown(self):
        text = self.WAITS.sub("", self.text).replace("\r\n", "\n")
        return re.sub(self.ASKS.pattern + r"\n?", "", text)

    def end(self):
        for it in (self.master, self.terminal):
            os.close(it)
        self.bash.kill()
        self.bash.wait()


class Boots:
    """Boots a folder by systemd-nspawn, and runs a command in it."""

    def __init__(self, root, shared):
        # at most one: two would share the groups of processes that systemd makes
        self.lock = open("/run/boxoffice-guide.lock", "w", encoding="utf-8")
        fcntl.flock(self.lock, fcntl.LOCK_EX)
        self.log = open(f"{root}.log", "wb")
        words = ["systemd-nspawn", "-q", "-D", root, "--volatile=overlay", "--private-network", "--register=no", "--keep-unit", f"--bind-ro={shared}:/mnt", "-b"]
        self.nspawn = subprocess.Popen(words, stdin=subprocess.DEVNULL, stdout=self.log, stderr=self.log, start_new_session=True)

    def first(self):
        """The process that is the machine's first one, once it is there."""
        with contextlib.suppress(OSError):
            return next(iter(read(f"/proc/{self.nspawn.pid}/task/{self.nspawn.pid}/children").split()), None)
        return None

    def is_up(self, seconds=90):
        until = time.time() + seconds
        while time.time() < until and self.nspawn.poll() is None:
            first = self.first()
            if first and self.inside("systemctl", "is-system-running", "--wait").stdout.strip() in ("running", "degraded"):
                return True
            time.sleep(0.5)
        return False

    def inside(self, *words, stdout=subprocess.PIPE):
        return subprocess.run(["nsenter", "-t", self.first(), "-a", *words], stdin=subprocess.DEVNULL, stdout=stdout, stderr=subprocess.STDOUT, text=True)

    def run(self, *words):
        """Runs a command as systemd's own, and shows what it prints; its exit status."""
        return self.inside("systemd-run", "--pipe", "--wait", "--collect", "-q", *words, stdout=None).returncode

    def end(self):
        if self.nspawn.poll() is None:
            self.nspawn.terminate()
            with contextlib.suppress(subprocess.TimeoutExpired):
                self.nspawn.wait(60)
        if self.nspawn.poll() is None:
            os.kill(int(self.first()), signal.SIGKILL)
            self.nspawn.wait()
        self.log.close()
        self.lock.close()


def make(root):
    """Makes the folder of a machine with Debian's packages; takes minutes, a network and 400 MB."""
    os.makedirs(os.path.dirname(root), exist_ok=True)
    return subprocess.run(["debootstrap", "--variant=minbase", f"--include={PACKAGES}", "bookworm", root]).returncode
