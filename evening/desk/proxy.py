"""nginx with its own configuration in the evening's own folder."""
import errno, os, pathlib, re, shutil, socket, subprocess
from desk.plain import EVENING, Trouble

SITE = EVENING / "site"


def nginx():
    """nginx's program."""
    path = shutil.which("nginx", path=os.environ.get("PATH", "") + ":/usr/sbin:/usr/local/sbin")
    if not path:
        raise Trouble("nginx is missing: apt-get install nginx-light")
    return path


def must_be_free(port):
    """Says where players cannot come in by a port."""
    with socket.socket() as s:
        s.setsockopt(socket.SOL_SOCKET, socket.SO_REUSEADDR, 1)
        try:
            s.bind(("", port))
        except OSError as e:
            if e.errno == errno.EACCES:
                raise Trouble(f"Port {port} is for the administrator alone, but those from 1024 on are for all, and 8080 is the usual one.") from e
            raise Trouble(f"Port {port} is in use by another program: end that one, or prepare the evening with another port in --address.") from e


def free_port():
    """A port of this machine that nobody uses."""
    with socket.socket() as s:
        s.bind(("127.0.0.1", 0))
        return s.getsockname()[1]


def answers(port):
    """Whether somebody listens there on this machine."""
    with socket.socket() as s:
        s.settimeout(1)
        return s.connect_ex(("127.0.0.1", port)) == 0


def has_ipv6():
    try:
        with socket.socket(socket.AF_INET6) as s:
            s.bind(("::1", 0))
        return True
    except OSError:
        return False


def configuration(port, host_port, evening, certificate=None, certificate_key=None, user=None):
    """The text of the configuration, from the one that stands in this folder."""
    words = {"PORT": port, "HOST_PORT": host_port, "SITE": SITE, "EVENING": evening, "TLS": " ssl http2" if certificate else "",
             "CERTIFICATE": certificate, "CERTIFICATE_KEY": certificate_key, "USER": f"user {user};" if user else ""}
    for word, value in words.items():
        if re.search(r'["$\\\n]', str(value)):
            raise Trouble(f"nginx cannot take the path {value}: it has a quote, a $ or a backslash.")
    text = (EVENING / "nginx.conf").read_text(encoding="utf-8")
    for mark, on in (("tls", certificate), ("ipv6", has_ipv6())):
        text = re.sub(rf"^( *)#{mark} (?!and)", r"\1" if on else rf"\1# {mark} ", text, flags=re.MULTILINE)
    for word, value in words.items():
        text = text.replace(f"@{word}@", str(value))
    return text


def lay_out(folder, text):
    """What nginx needs in its folder; tells what it does not take of the configuration."""
    folder = pathlib.Path(folder)
    for name in ("body", "proxy", "fastcgi", "uwsgi", "scgi", "cache"):
        (folder / "temp" / name).mkdir(parents=True, exist_ok=True)
    (folder / "nginx.conf").write_text(text, encoding="utf-8")
    done = subprocess.run([*command(folder), "-t"], capture_output=True, text=True, check=False)
    if done.returncode:
        wrong = re.search(r"\[emerg\] (?:\d+#\d+: )?(.*)", done.stderr)
        raise Trouble(f"nginx does not start: {wrong[1] if wrong else done.stderr.strip()}")


def command(folder):
    """The words that run nginx over its folder. Without -e it would look for the system's log first."""
    return [nginx(), "-p", f"{folder}/", "-e", f"{folder}/errors.txt", "-c", f"{folder}/nginx.conf"]
